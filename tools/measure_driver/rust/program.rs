//! A program of the same design as `intmap_cmd`, over std's map, for the three commands that are timed: it reads the whole
//! input, parses every line, runs the commands, and prints all answers at once.
use std::collections::HashMap;
use std::fmt::Write as _;
use std::io::{Read, Write};
use std::process::ExitCode;

enum Command {
    Insert(u64, u64),
    Get(u64),
    Remove(u64),
}

fn command_of(line: &str) -> Option<Command> {
    let mut words = line.split_ascii_whitespace();
    let name = words.next()?;
    let key = words.next()?.parse().ok()?;
    let command = match name {
        "insert" => Command::Insert(key, words.next()?.parse().ok()?),
        "get" => Command::Get(key),
        "remove" => Command::Remove(key),
        _ => return None,
    };
    words.next().is_none().then_some(command)
}

fn run(commands: Vec<Command>) -> Vec<Option<u64>> {
    let mut map = HashMap::new();
    commands
        .into_iter()
        .map(|command| match command {
            Command::Insert(key, value) => map.insert(key, value),
            Command::Get(key) => map.get(&key).copied(),
            Command::Remove(key) => map.remove(&key),
        })
        .collect()
}

fn main() -> ExitCode {
    let mut text = String::new();
    if std::io::stdin().read_to_string(&mut text).is_err() {
        return ExitCode::from(4);
    }
    let Some(commands) = text.lines().map(command_of).collect() else {
        return ExitCode::from(2);
    };
    drop(text);
    let mut lines = String::new();
    for answer in run(commands) {
        let _ = match answer {
            Some(value) => writeln!(lines, "some {value}"),
            None => writeln!(lines, "none"),
        };
    }
    match std::io::stdout().write_all(lines.as_bytes()) {
        Ok(()) => ExitCode::SUCCESS,
        Err(_) => ExitCode::from(4),
    }
}
