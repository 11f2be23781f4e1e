//! Instructions, by valgrind's callgrind: the difference of two run lengths over the events between, so that the start cancels.

use crate::cases::Case;
use crate::watches::{on_stream, own_path, Program};
use std::collections::HashMap;
use std::fs::{self, File};
use std::process::{Command, Stdio};

/// Instructions an event takes, by function (its own ones only) and, under "all", in all.
pub type Counts = HashMap<String, f64>;

/// Callgrind's counts for a command, by function; its input is the file `stream` of its folder, if it has one.
fn instructions(command: Command) -> HashMap<String, u64> {
    let counts = std::env::current_dir().unwrap().join("target/bench/run/callgrind");
    let mut valgrind = Command::new("valgrind");
    valgrind.args(["-q", "--tool=callgrind"]).arg(format!("--callgrind-out-file={}", counts.display()));
    valgrind.arg(command.get_program()).args(command.get_args());
    if let Some(place) = command.get_current_dir() {
        valgrind.current_dir(place).stdin(File::open(place.join("stream")).unwrap());
    }
    let status = valgrind.stdout(Stdio::null()).stderr(Stdio::null()).status().expect("valgrind is needed");
    assert!(status.success());
    let mut counts = read_counts(&fs::read_to_string(counts).unwrap());
    counts.insert("all".into(), counts.values().sum());
    counts
}

/// The lines of callgrind's file: `fn=(3) name`, later `fn=(3)`, and under it a line and a count each; the line after `calls=` is
/// what the function called.
fn read_counts(text: &str) -> HashMap<String, u64> {
    let mut names: HashMap<&str, &str> = HashMap::new();
    let mut counts = HashMap::new();
    let mut function = "";
    let mut is_call = false;
    for line in text.lines() {
        if let Some((key, named)) = line.strip_prefix("fn=").or(line.strip_prefix("cfn=")).and_then(|l| l.split_once(')')) {
            let name = if named.is_empty() { names[key] } else { named.trim() };
            names.insert(key, name);
            if line.starts_with("fn=") {
                function = name;
            }
        } else if line.starts_with("calls=") {
            is_call = true;
        } else if line.starts_with(|c: char| c.is_ascii_digit() || "+-*".contains(c)) {
            let count: u64 = line.split(' ').nth(1).unwrap().parse().unwrap();
            if !std::mem::take(&mut is_call) {
                *counts.entry(function.to_owned()).or_default() += count;
            }
        }
    }
    counts
}

fn count(case: &Case, turns: usize, command: impl Fn(usize) -> Command) -> Counts {
    let first = 2;
    let (short, long) = (instructions(command(first)), instructions(command(first + turns)));
    let events = (turns * case.turn.len()) as f64;
    let an_event = |name: &str, count: u64| (count as f64 - short.get(name).copied().unwrap_or(0) as f64) / events;
    long.iter().map(|(name, &count)| (name.clone(), an_event(name, count))).collect()
}

/// The expert is far cheaper, and is counted over more turns.
const EXPERT_TURNS: usize = 10_000;

fn count_calls(case: &Case, who: &str, turns: usize) -> Counts {
    count(case, turns, |turns| {
        let mut command = Command::new(own_path());
        command.args(["calls", who, &case.name, &turns.to_string()]);
        command
    })
}

pub fn count_library(case: &Case) -> Counts {
    count_calls(case, "library", case.counted)
}

pub fn count_engine(case: &Case) -> f64 {
    count_calls(case, "engine", EXPERT_TURNS)["all"]
}

/// The program `watch`, then the expert's.
pub fn count_programs(case: &Case, [watch, expert]: &[Program; 2]) -> [f64; 2] {
    [(watch, case.counted), (expert, EXPERT_TURNS)]
        .map(|(program, turns)| count(case, turns, |turns| on_stream(case, program, turns, "lines"))["all"])
}
