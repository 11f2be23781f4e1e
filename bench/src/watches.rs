//! The watches that are measured: the library and the expert's engine, called in this process, and programs over a stream.
//!
//! Assumed: every byte of the stream is taken. A byte that is not ends the benchmarks.

use crate::cases::Case;
use crate::expert::Expert;
use crate::link;
use std::fs::{self, File};
use std::path::{Path, PathBuf};
use std::process::{Command, Stdio};

/// A watch that is called in this process.
pub trait Watch {
    /// Takes a byte and answers the number of reports.
    fn event(&mut self, byte: u8) -> usize;
    fn reports(&self) -> &[u32];
}

/// The library, as its caller holds it.
pub struct Library<'a> {
    file: &'a [u8],
    record: [u64; 6],
    work: Vec<u64>,
    reports: Vec<u32>,
}

impl<'a> Library<'a> {
    pub fn new(case: &'a Case) -> Library<'a> {
        let mut library = Library {
            file: &case.file,
            record: [0; 6],
            work: vec![0; (case.rows + 1) * (3 * case.depth + 4) + case.depth],
            reports: vec![0; case.rows + 1],
        };
        let (rows, depth) = (case.rows as u64, case.depth as u64);
        let number = link::start(&case.file, rows, depth, &mut library.work, &mut library.record, &mut [0; 4]);
        assert_eq!(number, 0);
        library
    }
}

impl Watch for Library<'_> {
    fn event(&mut self, byte: u8) -> usize {
        let mut answer = [0; 4];
        let number = link::event(self.file, &mut self.record, &mut self.work, &mut self.reports, byte, &mut answer);
        assert_eq!(number, 0);
        answer[0] as usize
    }

    fn reports(&self) -> &[u32] {
        &self.reports
    }
}

/// The expert's engine with its slice for reports.
pub struct Engine {
    expert: Expert,
    reports: [u32; 65],
}

impl Engine {
    pub fn new(case: &Case) -> Engine {
        Engine { expert: Expert::new(&case.file, case.rows, case.depth), reports: [0; 65] }
    }
}

impl Watch for Engine {
    fn event(&mut self, byte: u8) -> usize {
        self.expert.event(byte, &mut self.reports).unwrap()
    }

    fn reports(&self) -> &[u32] {
        &self.reports
    }
}

/// Hands on bytes; answers the number of reports.
pub fn feed(watch: &mut impl Watch, bytes: &[u8]) -> usize {
    bytes.iter().map(|&byte| watch.event(byte)).sum()
}

/// Hands on bytes; answers the reports of each.
fn reports_of(watch: &mut impl Watch, bytes: &[u8]) -> Vec<Vec<u32>> {
    let mut take = |&byte: &u8| {
        let told = watch.event(byte);
        watch.reports()[..told].to_vec()
    };
    bytes.iter().map(&mut take).collect()
}

/// Sees that library and engine report the same on the case.
pub fn agree(case: &Case) {
    let stream = case.stream(30);
    let (library, engine) = (reports_of(&mut Library::new(case), &stream), reports_of(&mut Engine::new(case), &stream));
    assert!(library == engine, "{}: library and engine differ", case.name);
}

/// A program and the words that it is given.
pub type Program = Vec<String>;

/// This program's own path.
pub fn own_path() -> String {
    std::env::current_exe().unwrap().to_string_lossy().into_owned()
}

/// The program `watch` and the expert's.
pub fn programs() -> [Program; 2] {
    let watch = fs::canonicalize("crates/watch/out/watch").unwrap();
    [vec![watch.to_string_lossy().into_owned()], vec![own_path(), "program".into()]]
}

/// The folder in which programs find the case's table.
fn place(case: &Case) -> PathBuf {
    let place = Path::new("target/bench/run").join(case.name.replace([' ', ','], "-"));
    fs::create_dir_all(&place).unwrap();
    fs::write(place.join("table"), &case.file).unwrap();
    place
}

/// A program over the case's stream with so many turns, to be started: its folder, input and output are set.
pub fn on_stream(case: &Case, program: &Program, turns: usize, output: &str) -> Command {
    let place = place(case);
    fs::write(place.join("stream"), case.stream(turns)).unwrap();
    let mut command = Command::new(&program[0]);
    command.args(&program[1..]).stdin(File::open(place.join("stream")).unwrap());
    command.stdout(File::create(place.join(output)).unwrap()).stderr(Stdio::null());
    command.current_dir(place);
    command
}

/// Sees that the two programs write the same lines on the case.
pub fn agree_programs(case: &Case, [watch, expert]: &[Program; 2]) {
    for (program, output) in [(watch, "watch"), (expert, "expert")] {
        assert!(on_stream(case, program, 200, output).status().unwrap().success());
    }
    let lines = |output| fs::read(place(case).join(output)).unwrap();
    assert!(lines("watch") == lines("expert"), "{}: the programs' lines differ", case.name);
}
