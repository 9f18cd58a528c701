//! Calls that return no error end the process instead, as those of std do.
use intmap_proved::IntMap;
use std::env::{current_exe, var_os};
use std::process::Command;

const VARIABLE: &str = "ENDS_FOR_WANT_OF_MEMORY";

#[test]
fn want_of_memory_ends_the_process() {
    if var_os(VARIABLE).is_some() {
        drop(IntMap::<u64, u8>::with_capacity(1 << 62));
        return;
    }
    let mut again = Command::new(current_exe().expect("this program has a path"));
    again.args(["--exact", "ends::want_of_memory_ends_the_process", "--nocapture"]);
    let ended = again.env(VARIABLE, "1").output().expect("this program starts");
    assert_eq!(ended.status.code(), None, "by a signal, not by a status");
    let told = String::from_utf8_lossy(&ended.stderr).into_owned();
    assert!(told.contains("memory allocation of"), "{told}");
}
