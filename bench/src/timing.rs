//! Times: the best of many short stretches, in passes over all cases that lie some time apart.
//!
//! Others may run on the machine. Short stretches and several passes make it likely that some of them are not disturbed; what is
//! disturbed throughout shows as too slow.

use crate::cases::Case;
use crate::watches::{feed, on_stream, Engine, Library, Program, Watch};
use std::collections::HashMap;
use std::hint::black_box;
use std::time::{Duration, Instant};

/// Nanoseconds an event takes, by case: library and engine, watch and the expert's program.
#[derive(Default)]
pub struct Times {
    pub calls: HashMap<String, [f64; 2]>,
    pub programs: HashMap<String, [f64; 2]>,
}

impl Times {
    /// One more pass: each case's calls, and the programs on the first of them.
    pub fn pass(&mut self, cases: &[Case], with_programs: usize, programs: &[Program; 2]) {
        for case in cases {
            let best = self.calls.entry(case.name.clone()).or_insert([f64::MAX; 2]);
            best[0] = best[0].min(time_calls(case, &mut Library::new(case)));
            best[1] = best[1].min(time_calls(case, &mut Engine::new(case)));
        }
        for case in &cases[..with_programs] {
            let rough = self.calls[&case.name];
            let best = self.programs.entry(case.name.clone()).or_insert([f64::MAX; 2]);
            for i in 0..2 {
                best[i] = best[i].min(time_program(case, &programs[i], rough[i] + 10.0));
            }
        }
    }
}

/// Nanoseconds an event takes: the best of some stretches of turns, each of some milliseconds.
fn time_calls(case: &Case, watch: &mut impl Watch) -> f64 {
    feed(watch, &case.before);
    let mut turns = 1;
    let mut best = f64::MAX;
    let mut repeats = 0;
    while repeats < 20 {
        let bytes = case.turn.repeat(turns);
        let begun = Instant::now();
        black_box(feed(watch, &bytes));
        let took = begun.elapsed();
        if took < Duration::from_millis(2) {
            turns *= 2;
        } else {
            best = best.min(took.as_nanos() as f64 / bytes.len() as f64);
            repeats += 1;
        }
    }
    best
}

/// Nanoseconds an event takes a program, by the difference of two run lengths; the best of some runs each.
fn time_program(case: &Case, program: &Program, rough: f64) -> f64 {
    let turns = (6.0e7 / (rough * case.turn.len() as f64)) as usize + 10;
    let best = |turns: usize| {
        let run = |_| {
            let mut command = on_stream(case, program, turns, "lines");
            let begun = Instant::now();
            assert!(command.status().unwrap().success());
            begun.elapsed()
        };
        (0..5).map(run).min().unwrap()
    };
    let (short, long) = (best(turns / 10), best(turns));
    long.saturating_sub(short).as_nanos() as f64 / ((turns - turns / 10) * case.turn.len()) as f64
}
