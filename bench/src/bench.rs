//! The benchmarks: events per second and instructions per event of the library, of the program `watch` and of the expert's
//! engine and program, on the same streams in one run, and how cost grows with n, rows and depth.
//!
//! Assumed: run at the repository's root by bench/run, which has compiled it; valgrind is there; crates/watch/out/watch is built.
//!
//! bench                              everything
//! bench calls library|engine NAME N  the case of that name with N turns, for callgrind
//! bench program                      the expert program

mod cases;
mod counting;
mod expert;
#[allow(dead_code)]
mod inputs;
mod link;
mod program;
#[cfg(stand_in)]
mod stand_in;
mod timing;
mod watches;

use cases::Case;
use counting::{count_engine, count_library, count_programs, Counts};
use timing::Times;
use watches::{agree, agree_programs, feed, programs, Engine, Library};

/// A case's instructions: the library's by function, then the engine's, and those of the two programs.
struct Counted {
    library: Counts,
    engine: f64,
    programs: [f64; 2],
}

fn print_main(cases: &[Case], times: &Times, counted: &[Counted]) {
    println!(
        "64 rows, depth 40 allowed. Ratios are of the library to the expert's engine, and of watch to the expert's program.\n"
    );
    let head = |what: &str| {
        println!("{what:<24}{:>13}{:>13}{:>9}{:>13}{:>13}{:>9}", "library", "engine", "ratio", "watch", "program", "ratio")
    };
    head("events per second");
    for case in cases {
        print!("{:<24}", case.name);
        for [ours, theirs] in [times.calls[&case.name], times.programs[&case.name]] {
            print!("{:>13.0}{:>13.0}{:>9.0}", 1e9 / ours, 1e9 / theirs, ours / theirs);
        }
        println!();
    }
    println!();
    head("instructions per event");
    for (case, c) in cases.iter().zip(counted) {
        print!("{:<24}", case.name);
        for [ours, theirs] in [[c.library["all"], c.engine], c.programs] {
            print!("{ours:>13.0}{theirs:>13.0}{:>9.0}", ours / theirs);
        }
        println!();
    }
    let parts = ["table::read", "watch_event", "closing::trees", "engine::step"];
    println!("\n{:<24}{}{:>16}", "of these, the library's", parts.map(|name| format!("{name:>16}")).concat(), "all else");
    for (case, c) in cases.iter().zip(counted) {
        let known = parts.map(|name| c.library.get(name).copied().unwrap_or(0.0));
        let rest = c.library["all"] - known.iter().sum::<f64>();
        println!("{:<24}{}{rest:>16.0}", case.name, known.map(|x| format!("{x:>16.0}")).concat());
    }
}

/// A line of a growth table: the case, its counts, and the library's counts on other cases.
struct Growth {
    case: Case,
    library: f64,
    engine: f64,
    more: Vec<f64>,
}

fn count_growth(case: Case, more: &[Case]) -> Growth {
    for case in more.iter().chain([&case]) {
        agree(case);
    }
    let all = |case: &Case| count_library(case)["all"];
    Growth { library: all(&case), engine: count_engine(&case), more: more.iter().map(all).collect(), case }
}

fn print_growth(title: &str, more: &str, times: &Times, lines: &[Growth]) {
    println!("\n{title}");
    println!("{:<12}{:>24}{:>28}", "", "nanoseconds per event", "instructions per event");
    println!("{:<12}{:>12}{:>12}{:>14}{:>14}{:>9}{more}", "", "library", "engine", "library", "engine", "ratio");
    for line in lines {
        let [library, engine] = times.calls[&line.case.name];
        print!("{:<12}{library:>12.0}{engine:>12.1}", line.case.name);
        print!("{:>14.0}{:>14.0}{:>9.0}", line.library, line.engine, line.library / line.engine);
        println!("{}", line.more.iter().map(|x| format!("{x:>14.0}")).collect::<String>());
    }
}

const STATES: [usize; 7] = [1, 2, 4, 8, 16, 32, 64];
const ROWS: [usize; 7] = [1, 2, 4, 8, 16, 32, 64];
const DEPTHS: [usize; 6] = [1, 2, 5, 10, 20, 40];

/// The cases that are timed, the main ones first.
fn timed_cases() -> Vec<Case> {
    let mut cases = cases::main_cases();
    cases.extend(STATES.map(|n| cases::by_states(n).0));
    cases.extend(ROWS.map(cases::by_rows));
    cases.extend(DEPTHS.map(cases::by_depth));
    cases
}

fn everything() {
    let main_cases = cases::main_cases();
    let timed = timed_cases();
    let programs = programs();
    let mut times = Times::default();
    let mut pass = || times.pass(&timed, main_cases.len(), &programs);
    pass();
    let counted: Vec<Counted> = main_cases
        .iter()
        .map(|case| {
            agree(case);
            agree_programs(case, &programs);
            Counted { library: count_library(case), engine: count_engine(case), programs: count_programs(case, &programs) }
        })
        .collect();
    pass();
    let by_states = STATES.map(|n| {
        let (case, more) = cases::by_states(n);
        count_growth(case, &more)
    });
    pass();
    let by_rows = ROWS.map(|rows| count_growth(cases::by_rows(rows), &[]));
    pass();
    let by_depth = DEPTHS.map(|depth| count_growth(cases::by_depth(depth), &[]));
    pass();
    print_main(&main_cases, &times, &counted);
    let title =
        "By n: k 2, 8 rows, depth 8, none alive; an open, a point, a close. Last, the library's instructions for points\n\
                 alone, and for an open, a point and a close on a table of which each round adds one state.";
    print_growth(title, "        points    one by one", &times, &by_states);
    print_growth("By rows, all alive: n 5, k 3, depth 8; an open, a point, a close.", "", &times, &by_rows);
    print_growth("By depth allowed, at its last level: W, 8 rows, none alive; an open, a point, a close.", "", &times, &by_depth);
}

fn main() {
    let words: Vec<String> = std::env::args().skip(1).collect();
    let words: Vec<&str> = words.iter().map(String::as_str).collect();
    match words[..] {
        [] => everything(),
        ["program"] => program::run().unwrap(),
        ["calls", who, name, turns] => {
            let more = STATES.into_iter().flat_map(|n| cases::by_states(n).1);
            let case = timed_cases().into_iter().chain(more).find(|case| case.name == name).expect("a case of that name");
            let stream = case.stream(turns.parse().unwrap());
            let told = match who {
                "library" => feed(&mut Library::new(&case), &stream),
                _ => feed(&mut Engine::new(&case), &stream),
            };
            println!("{told} reports");
        }
        _ => panic!("bench, bench program, or bench calls library|engine NAME TURNS"),
    }
}
