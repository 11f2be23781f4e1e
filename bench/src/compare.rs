//! Calls of the library, compared with what the rules foretell, word by word; refusals of a table also with the second judgement of the
//! file, and runs from the start with the second evaluator.
//!
//! Every word that a call may write, and some on either side of them, are compared. After a difference a run goes on from what the
//! rules foretell.

use crate::link;
use crate::rules::{self, Left, Place, Reading};
use crate::second::{self, Second};
use std::fmt::Debug;

/// What was compared.
#[derive(Default)]
pub struct Tally {
    pub tables: u64,
    pub starts: u64,
    pub events: u64,
    /// Reports at their position's own event, later, and at the end.
    pub reports: [u64; 3],
    /// By number; 17 stands for 100.
    pub refused: [u64; 18],
    /// Refusals 3 and 5 with more than one place that they could name.
    pub several: [u64; 2],
    pub differed: u64,
}

impl Tally {
    pub fn count(&mut self, number: u64) {
        if number > 0 {
            self.refused[if number == 100 { 17 } else { number as usize }] += 1;
        }
    }

    /// Compares; says so, the first few times, where two things differ.
    pub fn same<T: PartialEq + Debug>(&mut self, what: &str, whom: &str, got: &T, meant: &T) {
        if got != meant {
            self.differed += 1;
            if self.differed <= 8 {
                let text = |x: &T| format!("{x:?}").chars().take(300).collect::<String>();
                println!("DIFFERS: {what}\n  got: {}\n  meant, by {whom}: {}", text(got), text(meant));
            }
            if cfg!(stand_in) {
                std::process::exit(1);
            }
        }
    }
}

/// Lent memory with a margin on either side that no call may touch.
pub struct Lent<T> {
    all: Vec<T>,
    margin: T,
}

const MARGIN: usize = 3;

impl<T: Copy + PartialEq> Lent<T> {
    pub fn new(words: &[T], margin: T) -> Lent<T> {
        let sides = [margin; MARGIN];
        Lent { all: [&sides[..], words, &sides[..]].concat(), margin }
    }

    pub fn words(&mut self) -> &mut [T] {
        let end = self.all.len() - MARGIN;
        &mut self.all[MARGIN..end]
    }

    /// What the memory holds now, and whether its margins are as they were.
    pub fn back(mut self) -> (Vec<T>, bool) {
        let kept = |part: &[T]| part.iter().all(|&x| x == self.margin);
        let end = self.all.len() - MARGIN;
        let whole = kept(&self.all[..MARGIN]) && kept(&self.all[end..]);
        (self.words().to_vec(), whole)
    }
}

/// Of every call: what became of the file, and the two words that name a place in it, compared with the second judgement.
fn same_judgement(t: &mut Tally, file: &[u8], number: u64, answer: &[u64]) {
    let (meant, wrong) = second::judge_file(file);
    let first = wrong.first().copied().unwrap_or_default();
    let number = if number <= 5 { number } else { 0 };
    t.same("the file's refusal and its place", "the second judgement", &(number, &answer[2..]), &(meant, &first[..]));
    if wrong.len() > 1 {
        t.several[(meant == 5) as usize] += 1;
    }
}

/// What lent memory holds before a call, where it does not matter.
pub const OLD: u64 = 0xA5A5_0000_5A5A_1111;

/// A start call, compared with what the rules foretell, which is given back with work memory after it.
pub fn start(t: &mut Tally, file: &[u8], table: &Reading, rows: u64, depth: u64, old: &[u64]) -> (Left, Vec<u64>) {
    let meant = rules::start(table, rows, depth, old.len());
    let mut work = Lent::new(old, OLD);
    let mut record = Lent::new(&[OLD; 6], OLD);
    let mut answer = Lent::new(&[OLD; 4], OLD);
    let mut lent = Lent::new(file, 0xA5);
    let number = link::start(lent.words(), rows, depth, work.words(), record.words(), answer.words());
    t.starts += 1;
    t.count(meant.number);
    let after = meant.work.clone().unwrap_or_else(|| old.to_vec());
    same_judgement(t, file, number, answer.words());
    t.same("start, number", "the rules", &number, &meant.number);
    t.same("start, record", "the rules", &record.back(), &(meant.record.to_vec(), true));
    t.same("start, answer", "the rules", &answer.back(), &(answer_words(&meant), true));
    t.same("start, work memory", "the rules", &work.back(), &(after.clone(), true));
    t.same("start, the table", "as lent", &lent.back(), &(file.to_vec(), true));
    (meant, after)
}

/// The four words of an answer: the number of reports, and the three of the place.
fn answer_words(left: &Left) -> Vec<u64> {
    [&[left.reports.len() as u64][..], &left.place].concat()
}

/// After an event: the record that the rules foretell, and what the call said, its reports or the refusal's number, and the place.
pub struct After {
    pub record: [u64; 6],
    pub said: Result<Vec<u32>, u64>,
    pub place: Place,
}

/// A call for an event, compared with what the rules foretell. Work memory is then as they foretell.
pub fn event(
    t: &mut Tally,
    file: &[u8],
    table: &Reading,
    before: [u64; 6],
    memory: &mut Vec<u64>,
    room: usize,
    byte: u8,
) -> After {
    let meant = rules::event(table, before, memory, room, byte);
    let old: Vec<u32> = (0..room as u32).map(|i| 0xC0DE_0000 + i).collect();
    let mut work = Lent::new(memory, OLD);
    let mut record = Lent::new(&before, OLD);
    let mut reports = Lent::new(&old, 0xFEED_F00D);
    let mut answer = Lent::new(&[OLD; 4], OLD);
    let mut lent = Lent::new(file, 0xA5);
    let number = link::event(lent.words(), record.words(), work.words(), reports.words(), byte, answer.words());
    t.events += 1;
    t.count(meant.number);
    for report in &meant.reports {
        let when = if byte == 65 { 2 } else { (u64::from(report / 2) <= before[4]) as usize };
        t.reports[when] += 1;
    }
    let mut told = old;
    told[..meant.reports.len()].copy_from_slice(&meant.reports);
    if let Some(after) = &meant.work {
        memory.clone_from(after);
    }
    let [count, place @ ..] = [0, 1, 2, 3].map(|i| answer.words()[i]);
    let count = (count as usize).min(room);
    let said = if number == 0 { Ok(reports.words()[..count].to_vec()) } else { Err(number) };
    let what = |part| format!("event {byte} after record {before:?}, table {:?}.., {part}", &file[..file.len().min(4)]);
    same_judgement(t, file, number, answer.words());
    t.same(&what("number"), "the rules", &number, &meant.number);
    t.same(&what("record"), "the rules", &record.back(), &(meant.record.to_vec(), true));
    t.same(&what("answer"), "the rules", &answer.back(), &(answer_words(&meant), true));
    t.same(&what("reports"), "the rules", &reports.back(), &(told, true));
    t.same(&what("work memory"), "the rules", &work.back(), &(memory.clone(), true));
    t.same(&what("the table"), "as lent", &lent.back(), &(file.to_vec(), true));
    After { record: meant.record, said, place }
}

/// A run from the start over bytes that are asked for one by one, by record and work memory, until there are no more: rules and second
/// evaluator. Answers the last record and memory.
pub fn run(
    t: &mut Tally,
    file: &[u8],
    table: &Reading,
    (rows, depth): (u64, u64),
    mut next: impl FnMut(&[u64; 6], &[u64]) -> Option<u8>,
) -> ([u64; 6], Vec<u64>) {
    let old = vec![OLD; rules::work_length(rows, depth) as usize];
    let (first, mut work) = start(t, file, table, rows, depth, &old);
    let mut record = first.record;
    let mut second = Second::new(file, rows, depth);
    t.same("start, record", "the second evaluator", &record, &second.record());
    while let Some(byte) = next(&record, &work) {
        let room = rows as usize + 1 + byte as usize % 3;
        let after = event(t, file, table, record, &mut work, room, byte);
        let meant = second.event(byte);
        t.same(&format!("event {byte} after record {record:?}"), "the second evaluator", &after.said, &meant);
        record = after.record;
        t.same("record after an event", "the second evaluator", &record, &second.record());
        let levels = &work[work.len() - depth as usize..];
        t.same("words of the levels after an event", "the second evaluator", &levels, &&second.level_words()[..]);
    }
    (record, work)
}
