//! The benchmarks' cases: a table, sizes and a stream, which is some bytes and then a turn that is repeated.
//!
//! Every byte of these streams is taken, and a turn leaves depth and alive count as it found them, so that events cost alike from
//! turn to turn.

use crate::inputs::{table_w, Parts};

pub struct Case {
    pub name: String,
    pub file: Vec<u8>,
    pub rows: usize,
    pub depth: usize,
    pub before: Vec<u8>,
    pub turn: Vec<u8>,
    /// How many turns more the longer of callgrind's two runs has, for the library.
    pub counted: usize,
}

impl Case {
    /// The stream with so many turns.
    pub fn stream(&self, turns: usize) -> Vec<u8> {
        [self.before.clone(), self.turn.repeat(turns)].concat()
    }
}

/// Label 0 is in doubt until the end or a point of label 2 beside or above it; other labels fail at once.
/// States: 1 right after a label 0, 0 otherwise; 2 in doubt, 3 failed, 4 selected.
fn doubt_table() -> Vec<u8> {
    let point = |q, a| match (q, a) {
        (0 | 1, 0) => 1,
        (0 | 1, _) => 0,
        (2, 2) => 4,
        _ => q,
    };
    let apply = |q, p| match (q, p) {
        (0 | 1, 0 | 1) => 0,
        (0 | 1, _) => p,
        _ => q,
    };
    Parts::of((5, 3, 0), |a| (a == 0) as usize, point, |q| [3, 2, 3, 3, 3][q], apply, |q| q == 4).file()
}

/// 64 states and 32 labels: 31 states without a mark, 31 in doubt, one selected, one failed. A point of label 7 selects.
fn large_table() -> Vec<u8> {
    let mix = |x: usize, y: usize| (x * x + 7 * y + 3 * x * y + 5) % 31;
    let point = |q, a| match (q, a) {
        (0..=30, _) => mix(q, a),
        (31..=61, 7) => 62,
        (31..=61, _) => 31 + mix(q - 31, a),
        _ => q,
    };
    let apply = |q, p| match (q, p) {
        (62 | 63, _) => q,
        (_, 62 | 63) => p,
        (0..=30, 0..=30) => mix(q, p),
        _ => 31 + mix(q % 31, p % 31),
    };
    let mark = |q| if q < 31 { 31 + q } else { 63 };
    Parts::of((64, 32, 0), |a| mix(a, a), point, mark, apply, |q| q == 62).file()
}

/// n states, two labels: a run without a mark goes round the states below n - 1, a marked one comes to the last at once and stays.
/// Its steps lead one or two states on, or back.
fn round_table(n: usize, onward: bool) -> Vec<u8> {
    let last = n - 1;
    let round = last.max(1);
    let step = move |q: usize, by: usize| if onward { (q + by) % round } else { (q + (round - 1) * by) % round };
    let point = |q, a| if q == last { last } else { step(q, if onward { 1 + a } else { 1 }) };
    let apply = |q, p| if q == last || p == last { last } else { step(q, if onward { p } else { 1 }) };
    Parts::of((n, 2, 0), |_| 0, point, |_| last, apply, |q| q == 0 && n > 1).file()
}

const LIGHT: [u8; 6] = [0, 1, 32, 64, 33, 64];
/// The same with closes that name their labels.
const LABELLED: [u8; 6] = [0, 1, 32, 67, 33, 66];
const MIXED: [u8; 3] = [1, 33, 64];

/// The five cases that the program `watch` can be given too: 64 rows, depth 40.
pub fn main_cases() -> Vec<Case> {
    let case = |name: &str, file, before, turn: &[u8], counted| Case {
        name: name.into(),
        file,
        rows: 64,
        depth: 40,
        before,
        turn: turn.to_vec(),
        counted,
    };
    vec![
        case("few alive", table_w(), vec![], &LIGHT, 60),
        case("few alive, labelled", table_w(), vec![], &LABELLED, 60),
        case("64 alive", doubt_table(), vec![32; 64], &[1, 33, 1, 64, 33, 64], 40),
        case("depth 40", table_w(), vec![1; 38], &LIGHT, 60),
        case("n 64, k 32", large_table(), vec![], &[3, 37, 11, 52, 64, 63, 64, 39], 3),
    ]
}

/// By n: 8 rows, depth 8, no position alive; one open, one point, one close. Beside it points alone, and the same on a table with its
/// steps turned round, on which each of the library's rounds adds one state.
pub fn by_states(n: usize) -> (Case, [Case; 2]) {
    let case = |what: &str, onward, turn: &[u8], counted| Case {
        name: format!("n {n}{what}"),
        file: round_table(n, onward),
        rows: 8,
        depth: 8,
        before: vec![],
        turn: turn.to_vec(),
        counted,
    };
    let few = if n > 16 { 2 } else { 30 };
    let points = case(", points", true, &[33, 33, 33], 60);
    (case("", true, &MIXED, 2 * few), [points, case(", one by one", false, &MIXED, few)])
}

/// By rows, all of them alive: depth 8, five states.
pub fn by_rows(rows: usize) -> Case {
    Case {
        name: format!("rows {rows}"),
        file: doubt_table(),
        rows,
        depth: 8,
        before: vec![32; rows],
        turn: MIXED.to_vec(),
        counted: 50,
    }
}

/// By depth allowed, at the last level: 8 rows, no position alive, five states.
pub fn by_depth(depth: usize) -> Case {
    Case {
        name: format!("allowed {depth}"),
        file: table_w(),
        rows: 8,
        depth,
        before: vec![1; depth - 1],
        turn: MIXED.to_vec(),
        counted: 60,
    }
}
