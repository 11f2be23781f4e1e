//! A stand-in for the library: its two calls over the expert program's engine, with checks of its own. bench/slips plants slips in
//! copies of this file and of expert.rs, to see that the tests notice.
//!
//! Assumed: the pointers are good for the lengths that come with them.

use crate::expert::{Expert, Level};
use std::slice::{from_raw_parts, from_raw_parts_mut};

const LAST: u64 = 2_147_483_647;

/// 1 to 5 and the two words of the place, or n and k.
fn judge_table(file: &[u8]) -> Result<(u64, u64), (u64, [u64; 2])> {
    if file.len() < 29 {
        return Err((1, [0; 2]));
    }
    let (n, k) = (file[0] as usize, file[1] as usize);
    if !(1..=64).contains(&n) || !(1..=32).contains(&k) || file[2] as usize >= n || file[3] != 5 {
        return Err((2, [0; 2]));
    }
    let mut offset = 29;
    let mut wrong = None;
    for (i, length) in (1..).zip([k, n * k, n, n * n, n]) {
        let at = 5 * i - 1;
        let two = |at: usize| file[at] as usize + 256 * file[at + 1] as usize;
        let field = match (file[at] as usize == i, two(at + 1) == offset, two(at + 3) == length) {
            (false, _, _) => Some(0),
            (_, false, _) => Some(1),
            (_, _, false) => Some(2),
            _ => None,
        };
        wrong = wrong.or(field.map(|field| (3, [i as u64, field])));
        offset += length;
    }
    if let Some(place) = wrong {
        return Err(place);
    }
    if file.len() != offset {
        return Err((4, [0; 2]));
    }
    let mut rest = &file[29..];
    for (i, length) in (1..).zip([k, n * k, n, n * n, n]) {
        let (body, after) = rest.split_at(length);
        let fault = |&b: &u8| if i == 5 { b > 1 } else { b as usize >= n };
        wrong = wrong.or(body.iter().position(fault).map(|j| (5, [i, j as u64])));
        rest = after;
    }
    wrong.map_or(Ok((n as u64, k as u64)), Err)
}

/// How many words the rows have.
fn rows_length(rows: u64, allowed: u64) -> u64 {
    (rows + 1) * (3 * allowed + 4)
}

fn sizes_right(rows: u64, allowed: u64, work: usize) -> bool {
    (1..=64).contains(&rows) && (1..=40).contains(&allowed) && work as u64 == rows_length(rows, allowed) + allowed
}

/// The place of refusal 7, if record or work memory is out of order.
fn fault(n: u64, k: u64, record: &[u64], work: &[u64]) -> Option<usize> {
    let (rows, allowed, depth, alive, read, finished) = (record[0], record[1], record[2], record[3], record[4], record[5]);
    if alive > rows || depth > allowed || read > LAST || finished > 1 {
        return Some(work.len());
    }
    if finished == 1 {
        let at = work.iter().position(|&x| x != 0);
        return if depth + alive > 0 { Some(work.len()) } else { at };
    }
    let width = 3 * allowed as usize + 4;
    let (words, labels) = work.split_at(rows_length(rows, allowed) as usize);
    let mut before = 0;
    for (r, row) in words.chunks(width).enumerate() {
        let levels = if r as u64 <= alive { depth as usize + 1 } else { 0 };
        if r == 0 || levels == 0 {
            if row[0] != 0 {
                return Some(r * width);
            }
        } else if row[0] <= before || row[0] > read {
            return Some(r * width);
        }
        before = row[0];
        for (c, &word) in row.iter().enumerate().skip(1) {
            let used = c < 1 + 3 * levels;
            if (!used && word != 0) || (used && c % 3 == 1 && word >= n) {
                return Some(r * width + c);
            }
        }
    }
    for (i, &label) in labels.iter().enumerate() {
        let used = (i as u64) < depth;
        if (!used && label != 0) || (used && (label == 0 || label > k)) {
            return Some(words.len() + i);
        }
    }
    None
}

/// The engine with what record and work memory say.
fn load(file: &[u8], record: &[u64], work: &[u64]) -> Expert {
    let mut expert = Expert::new(file, record[0] as usize, record[1] as usize);
    expert.depth = record[2] as usize;
    expert.alive = record[3] as usize;
    expert.positions = record[4] as u32;
    let (rows, labels) = work.split_at(rows_length(record[0], record[1]) as usize);
    for (i, &label) in labels[..expert.depth].iter().enumerate() {
        expert.labels[i] = label as u8 - 1;
    }
    for (r, words) in rows.chunks(3 * record[1] as usize + 4).enumerate() {
        expert.position[r] = words[0] as u32;
        for (level, words) in expert.levels.iter_mut().zip(words[1..].chunks(3)) {
            level[r] = Level { state: words[0], selecting: words[1], rejecting: words[2] };
        }
    }
    expert
}

/// The words that the engine's rows stand for.
fn store(expert: &Expert, record: &mut [u64], work: &mut [u64]) {
    record[2] = expert.depth as u64;
    record[3] = expert.alive as u64;
    record[4] = expert.positions as u64;
    record[5] = expert.finished as u64;
    work.fill(0);
    if expert.finished {
        return;
    }
    let (rows, labels) = work.split_at_mut(rows_length(record[0], record[1]) as usize);
    for (i, &label) in expert.labels[..expert.depth].iter().enumerate() {
        labels[i] = label as u64 + 1;
    }
    let mut places = rows.chunks_mut(3 * expert.allowed + 4);
    for r in std::iter::once(0).chain(expert.order[..expert.alive].iter().map(|&r| r as usize)) {
        let words = places.next().unwrap();
        words[0] = expert.position[r] as u64;
        for (level, words) in expert.levels[..=expert.depth].iter().zip(words[1..].chunks_mut(3)) {
            words.copy_from_slice(&[level[r].state, level[r].selecting, level[r].rejecting]);
        }
    }
}

#[no_mangle]
pub unsafe extern "C" fn watch_start(
    table: *const u8,
    table_len: usize,
    rows: u64,
    depth: u64,
    work: *mut u64,
    work_len: usize,
    record: *mut u64,
    record_len: usize,
    answer: *mut u64,
    answer_len: usize,
) -> u64 {
    let (file, work) = (from_raw_parts(table, table_len), from_raw_parts_mut(work, work_len));
    let (record, answer) = (from_raw_parts_mut(record, record_len), from_raw_parts_mut(answer, answer_len));
    if record.len() != 6 || answer.len() != 4 {
        return 100;
    }
    answer.fill(0);
    record.fill(0);
    if let Err((number, place)) = judge_table(file) {
        answer[2..].copy_from_slice(&place);
        return number;
    }
    if !sizes_right(rows, depth, work.len()) {
        return 6;
    }
    record[0] = rows;
    record[1] = depth;
    store(&Expert::new(file, rows as usize, depth as usize), record, work);
    0
}

#[no_mangle]
pub unsafe extern "C" fn watch_event(
    table: *const u8,
    table_len: usize,
    record: *mut u64,
    record_len: usize,
    work: *mut u64,
    work_len: usize,
    reports: *mut u32,
    reports_len: usize,
    byte: u8,
    answer: *mut u64,
    answer_len: usize,
) -> u64 {
    let (file, work) = (from_raw_parts(table, table_len), from_raw_parts_mut(work, work_len));
    let (record, answer) = (from_raw_parts_mut(record, record_len), from_raw_parts_mut(answer, answer_len));
    let reports = from_raw_parts_mut(reports, reports_len);
    if record.len() != 6 || answer.len() != 4 {
        return 100;
    }
    answer.fill(0);
    let (n, k) = match judge_table(file) {
        Err((number, place)) => {
            answer[2..].copy_from_slice(&place);
            return number;
        }
        Ok(sizes) => sizes,
    };
    if !sizes_right(record[0], record[1], work.len()) || (reports.len() as u64) < record[0] + 1 {
        return 6;
    }
    if let Some(place) = fault(n, k, record, work) {
        answer[1] = place as u64;
        return 7;
    }
    if record[5] == 1 {
        return 8;
    }
    let mut expert = load(file, record, work);
    match expert.event(byte, reports) {
        Err(number) => number,
        Ok(told) => {
            store(&expert, record, work);
            answer[0] = told as u64;
            0
        }
    }
}
