//! The rows that Rust's `intmap` 2.0.0 returned, returned by this map. They lie in the repository,
//! not in a package of the crate.
use intmap_proved::Cause;
use intmap_proved::original::{Entry, IntMap};
use std::fmt::Display;
use std::fs::read_to_string;
use std::io::{Write, stderr};
use std::num::Wrapping;
use std::path::Path;

const FOLDER: &str = concat!(env!("CARGO_MANIFEST_DIR"), "/../rows/calls");

fn text_of<T: Display>(answer: Option<T>) -> String {
    answer.map_or("none".into(), |it| format!("some {it}"))
}

fn cause_of(cause: Cause) -> &'static str {
    match cause {
        Cause::Memory => "memory",
        Cause::TooLarge => "too large",
    }
}

fn done_of(answer: Result<(), Cause>) -> String {
    answer.map_or_else(|cause| format!("refused: {}", cause_of(cause)), |()| "done".into())
}

fn pairs_of(pairs: impl Iterator<Item = (u64, u64)>) -> String {
    let pairs: Vec<_> = pairs.map(|(key, value)| format!("{key}: {value}")).collect();
    format!("{{{}}}", pairs.join(", "))
}

fn list_of<'a>(numbers: impl Iterator<Item = &'a u64>) -> String {
    format!("{:?}", numbers.collect::<Vec<_>>())
}

fn insert(map: &mut IntMap<u64>, key: u64, value: u64) -> String {
    match map.try_insert(key, value) {
        Ok(old) => text_of(old),
        Err(refused) => format!("refused {value}: {}", cause_of(refused.cause)),
    }
}

fn insert_checked(map: &mut IntMap<u64>, key: u64, value: u64) -> String {
    match map.try_insert_checked(key, value) {
        Ok(is_new) => is_new.to_string(),
        Err(refused) => format!("refused {value}: {}", cause_of(refused.cause)),
    }
}

fn entry_insert(map: &mut IntMap<u64>, key: u64, value: u64) -> String {
    match map.entry(key) {
        Entry::Occupied(mut entry) => text_of(Some(entry.insert(value))),
        Entry::Vacant(entry) => match entry.try_insert(value) {
            Ok(_) => "fresh".into(),
            Err(refused) => format!("refused {value}: {}", cause_of(refused.cause)),
        },
    }
}

fn entry_remove(map: &mut IntMap<u64>, key: u64) -> Option<u64> {
    match map.entry(key) {
        Entry::Occupied(entry) => Some(entry.remove()),
        Entry::Vacant(_) => None,
    }
}

fn get_mut(map: &mut IntMap<u64>, key: u64, value: u64) -> String {
    match map.get_mut(key) {
        Some(place) => text_of(Some(std::mem::replace(place, value))),
        None => format!("back {value}"),
    }
}

fn set_load_factor(map: &mut IntMap<u64>, thousandths: u64) -> String {
    // a debug build takes the next one for a percentage
    if thousandths >= 10_000 {
        return done_of(map.try_set_load_factor_thousandths(thousandths as usize));
    }
    // the half is cut off again, whichever way the division was rounded
    let factor = (thousandths as f64 + 0.5) / 1000.0;
    done_of(map.try_set_load_factor(factor as f32))
}

/// What a call that may change the map returns.
fn answer(map: &mut IntMap<u64>, call: &str, given: &[u64]) -> String {
    match (call, given) {
        ("insert", &[key, value]) => insert(map, key, value),
        ("insert_checked", &[key, value]) => insert_checked(map, key, value),
        ("get_mut", &[key, value]) => get_mut(map, key, value),
        ("remove", &[key]) => text_of(map.remove(key)),
        ("clear", []) => {
            map.clear();
            "done".into()
        }
        ("retain", []) => {
            map.retain(|_, value| value % 2 == 1);
            "done".into()
        }
        ("reserve", &[more]) => done_of(map.try_reserve(more as usize)),
        ("set_load_factor", &[thousandths]) => set_load_factor(map, thousandths),
        ("entry_insert", &[key, value]) => entry_insert(map, key, value),
        ("entry_remove", &[key]) => text_of(entry_remove(map, key)),
        ("extend", pairs) => {
            let pairs = pairs.chunks(2).map(|pair| (pair[0], pair[1]));
            done_of(map.try_extend(pairs).map_err(Cause::from))
        }
        ("drain", &[most]) => pairs_of(map.drain().take(most as usize)),
        _ => read_only(map, call, given),
    }
}

/// What a call that only reads returns.
fn read_only(map: &IntMap<u64>, call: &str, given: &[u64]) -> String {
    match (call, given) {
        ("get", &[key]) => text_of(map.get(key)),
        ("contains_key", &[key]) => map.contains_key(key).to_string(),
        ("get_load_factor", []) => map.load_factor_thousandths().to_string(),
        ("len", []) => map.len().to_string(),
        ("is_empty", []) => map.is_empty().to_string(),
        ("capacity", []) => map.capacity().to_string(),
        ("load", []) => map.load().to_string(),
        ("load_rate", []) => ((map.load_rate() * 10.0) as u64).to_string(),
        ("assert_count", []) => map.assert_count().to_string(),
        ("walk", []) => pairs_of(map.iter().map(|(key, value)| (*key, *value))),
        ("keys", []) => list_of(map.keys()),
        ("values", []) => list_of(map.values()),
        ("collisions", []) => pairs_of(map.collisions().into_iter()),
        _ => panic!("not a call: {call} {given:?}"),
    }
}

/// The order of the map as one number.
fn sum_of(map: &IntMap<u64>) -> u64 {
    let add = |sum: Wrapping<u64>, it: &u64| sum * Wrapping(31) + Wrapping(*it);
    map.iter().fold(Wrapping(0), |sum, (key, value)| add(add(sum, key), value)).0
}

fn compare_clone(map: &IntMap<u64>, line: usize) {
    let clone = map.clone();
    assert_eq!(sum_of(&clone), sum_of(map), "line {line}: the order of a clone");
    assert_eq!((clone.capacity(), &clone), (map.capacity(), map), "line {line}");
}

/// Compares each row, and returns how many there are.
fn compare(rows: &str) -> usize {
    let (mut map, mut count) = (IntMap::new(), 0);
    for (line, row) in rows.lines().enumerate() {
        if row.starts_with("= ") {
            map = IntMap::new();
        }
        let Some((call, wanted)) = row.split_once(" -> ") else { continue };
        let mut words = call.split(' ');
        let name = words.next().expect("a call has a name");
        if name == "run" {
            continue;
        }
        let given: Vec<u64> = words.map(|it| it.parse().expect("a number")).collect();
        assert_eq!(answer(&mut map, name, &given), wanted, "line {}: {call}", line + 1);
        count += 1;
        if count % 64 == 0 {
            compare_clone(&map, line + 1);
        }
    }
    count
}

#[test]
fn each_row_returns_what_the_original_returned() {
    if !Path::new(FOLDER).exists() {
        // past the capture of a test's output
        writeln!(stderr(), "each_row_returns_what_the_original_returned: skipped, since only the repository has the rows").expect("a stream");
        return;
    }
    let path = format!("{FOLDER}/original.rows");
    let count = compare(&read_to_string(&path).expect(&path));
    assert!(count > 600, "only {count} rows");
}
