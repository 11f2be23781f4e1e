//! The tests: the library against the second evaluator and against the rules read to the letter, on inputs that are valid,
//! damaged, in order or not. Exit status 1 at any difference, or if a refusal's number was never seen.
//!
//! Assumed: nothing of the library but its two signatures.

mod compare;
#[cfg(stand_in)]
mod expert;
mod inputs;
mod link;
mod rules;
mod second;
#[cfg(stand_in)]
mod stand_in;

use compare::{event, run, start, Lent, Tally, OLD};
use inputs::{Chance, Way, WAYS};
use rules::Reading;
use second::Second;
use std::process::ExitCode;

/// 01's worked cases, with the numbers that stand there, case 12 as K2 has it; then some of K2's own, and K3's two lines.
fn worked_cases(t: &mut Tally) {
    let (w, l) = (inputs::table_w(), inputs::table_l());
    let (tw, tl) = (rules::read(&w), rules::read(&l));
    t.tables += 2;
    t.same("W's length", "01", &w.len(), &76);
    t.same("L's length", "01", &l.len(), &48);
    {
        let w = tw.as_ref().ok().unwrap();
        let mask = |set: &[bool]| (0..w.n).filter(|&q| set[q]).map(|q| 1u64 << q).sum::<u64>();
        t.same("case 1", "01", &mask(&w.trees), &0b10001);
        t.same("case 2", "01", &mask(&w.acc[1]), &0b110);
        let downs = [w.down(0, 4), w.down(0, 25), w.down(1, 25), w.down(2, 4)];
        t.same("cases 4 to 6", "01", &downs, &[4, 25, 8, 21]);
    }
    let (left, work) = start(t, &w, &tw, 1, 1, &[OLD; 15]);
    t.same("case 3", "01", &(left.number, &work[..4]), &(0, &[0, 0, 4, 25][..]));
    let cases: [(&str, u64, u64, &[u8], &[u64], &[&[u32]]); 15] = [
        ("7", 64, 40, &[0, 33], &[0, 0], &[&[], &[3, 4]]),
        ("8", 1, 40, &[0, 0, 33], &[0, 15, 0], &[&[], &[], &[3, 4]]),
        ("9, L", 1, 40, &[32, 32, 65], &[0, 0, 0], &[&[], &[2], &[5]]),
        ("10, L", 1, 40, &[0, 32], &[0, 0], &[&[2], &[4]]),
        ("11", 64, 40, &[65, 65], &[0, 8], &[&[], &[]]),
        ("12", 64, 1, &[0, 0], &[0, 12], &[&[], &[]]),
        ("12", 64, 40, &[64], &[11], &[&[]]),
        ("12", 64, 40, &[0, 65], &[0, 13], &[&[], &[]]),
        ("12", 64, 40, &[2, 66], &[10, 11], &[&[], &[]]),
        ("the program's", 64, 40, &[0, 33, 0, 64, 64, 65], &[0; 6], &[&[], &[3, 4], &[], &[6], &[], &[]]),
        ("labelled", 64, 40, &[0, 33, 0, 66, 66, 65], &[0; 6], &[&[], &[3, 4], &[], &[6], &[], &[]]),
        ("a wrong label", 64, 40, &[0, 1, 66, 67, 67, 66], &[0, 0, 16, 0, 16, 0], &[&[], &[4], &[], &[], &[], &[2]]),
        ("both closes", 64, 2, &[0, 1, 64, 1, 67, 64], &[0; 6], &[&[], &[4], &[], &[6], &[], &[2]]),
        ("nothing open", 64, 40, &[68, 67, 66, 64], &[10, 11, 11, 11], &[&[], &[], &[], &[]]),
        ("the first byte of no meaning", 64, 40, &[97, 98], &[10, 9], &[&[], &[]]),
    ];
    for (name, rows, depth, bytes, numbers, reports) in cases {
        let (file, table) = if name.ends_with('L') { (&l, &tl) } else { (&w, &tw) };
        let mut rest = bytes.iter().copied();
        run(t, file, table, (rows, depth), |_, _| rest.next());
        let (first, mut work) = start(t, file, table, rows, depth, &vec![7; rules::work_length(rows, depth) as usize]);
        let mut record = first.record;
        for (i, &byte) in bytes.iter().enumerate() {
            let after = event(t, file, table, record, &mut work, rows as usize + 1, byte);
            let meant = if numbers[i] == 0 { Ok(reports[i].to_vec()) } else { Err(numbers[i]) };
            t.same(&format!("case {name}"), "01", &after.said, &meant);
            record = after.record;
        }
    }
    for (at, number, place) in [(10, 3, [0, 2, 1]), (46 + 7, 5, [0, 4, 7])] {
        let mut file = w.clone();
        file[at] = 5;
        let (left, _) = start(t, &file, &rules::read(&file), 64, 40, &[OLD; 8100]);
        t.same("a line of K3", "02", &(left.number, left.place), &(number, place));
    }
}

/// A random stream on a table: so many bytes, then often closes and an end, then some bytes after it.
fn random_run(t: &mut Tally, c: &mut Chance, file: &[u8], table: &Reading, sizes: (u64, u64), bytes: u64) {
    let mut way = c.pick(&WAYS);
    let (mut left, mut after) = (bytes, c.below(3));
    let ends = !c.one_in(4);
    run(t, file, table, sizes, |record, work| {
        if record[5] == 1 {
            after = after.wrapping_sub(1);
            return (after < 3).then(|| c.pick(&[0, 32, 64, 65, 66, 98, 31, 255]));
        }
        let newest = inputs::newest_label(record, work);
        if left == 0 {
            return ends.then(|| newest.map_or(65, |label| inputs::next_close(c, label, newest)));
        }
        left -= 1;
        if c.one_in(20) {
            way = c.pick(&WAYS);
        }
        Some(inputs::next_byte(c, way, file[1] as usize, newest))
    });
}

/// Streams on tables of many kinds, from the start.
fn runs(t: &mut Tally, c: &mut Chance) {
    for i in 0..3600 {
        let (n, k) = match i % 50 {
            0 => (64, 32),
            1 => (1, 1),
            2 => (c.between(9, 63) as usize, c.between(1, 32) as usize),
            3 => (64, c.between(1, 3) as usize),
            4 => (c.between(1, 3) as usize, 32),
            _ => (c.between(1, 8) as usize, c.between(1, 4) as usize),
        };
        let file = match i % 40 {
            10 => inputs::table_w(),
            11 => inputs::table_l(),
            _ => inputs::random_table(c, n, k),
        };
        let table = rules::read(&file);
        t.tables += 1;
        for _ in 0..2 {
            let sizes = inputs::sizes(c);
            let bytes = if n > 8 { c.between(5, 40) } else { c.between(1, 60) };
            random_run(t, c, &file, &table, sizes, bytes);
        }
    }
    // Long and deep ones, with every row.
    for i in 0..60 {
        let file = match i % 3 {
            0 => inputs::table_w(),
            1 => inputs::random_table(c, 6, 3),
            _ => inputs::random_table(c, 12, 4),
        };
        let table = rules::read(&file);
        t.tables += 1;
        let rows = c.pick(&[1, 2, 8, 64]);
        random_run(t, c, &file, &table, (rows, 40), 300);
    }
}

/// What the program writes for a stream, by the second evaluator.
fn lines(file: &[u8], stream: &[u8]) -> String {
    let mut second = Second::new(file, 64, 40);
    let mut text = String::from("event verdict position\n");
    for (i, &byte) in stream.iter().enumerate() {
        match second.event(byte) {
            Err(number) => return text + &format!("refused {number} at {}\n", i + 1),
            Ok(told) => {
                for report in told {
                    let verdict = if report % 2 == 1 { "selected" } else { "failed" };
                    text += &format!("{} {verdict} {}\n", i + 1, report / 2);
                }
            }
        }
        let positions = second.record()[4];
        if byte == 65 {
            return text + &format!("end {} events {positions} positions\n", i + 1);
        }
    }
    text + &format!("cut {} events {} positions\n", stream.len(), second.record()[4])
}

/// The tables of examples/, and of each its stream, with 64 rows and depth 40, and its lines; then random streams.
fn examples(t: &mut Tally, c: &mut Chance) -> u64 {
    let Ok(folders) = std::fs::read_dir("examples") else { return 0 };
    let mut folders: Vec<_> = folders.flatten().map(|e| e.path()).filter(|p| p.join("table").is_file()).collect();
    folders.sort();
    for folder in &folders {
        let file = std::fs::read(folder.join("table")).unwrap();
        let table = rules::read(&file);
        t.tables += 1;
        if table.is_err() {
            start(t, &file, &table, 64, 40, &[OLD; 8100]);
            continue;
        }
        let stream = std::fs::read(folder.join("stream")).unwrap_or_default();
        if let Ok(meant) = std::fs::read_to_string(folder.join("lines")) {
            t.same(&format!("lines of {}", folder.display()), "the example", &lines(&file, &stream), &meant);
        }
        let mut rest = stream.iter().copied().take(1500);
        run(t, &file, &table, (64, 40), |_, _| rest.next());
        for _ in 0..10 {
            let sizes = inputs::sizes(c);
            random_run(t, c, &file, &table, sizes, 60);
        }
    }
    folders.len() as u64
}

/// Memory in order that no run left, stepped by the rules as it stands; positions up to the greatest.
fn wild_runs(t: &mut Tally, c: &mut Chance) {
    let calm = Way { opens: 6, closes: 5, odd: 100 };
    for i in 0..6000 {
        let (n, k) = match i % 40 {
            0 => (64, 32),
            1 => (1, 1),
            2 => (c.between(9, 64) as usize, c.between(1, 32) as usize),
            _ => (c.between(1, 8) as usize, c.between(1, 4) as usize),
        };
        let file = inputs::random_table(c, n, k);
        let table = rules::read(&file);
        t.tables += 1;
        let (mut record, mut work) = inputs::wild_memory(c, n, k);
        for _ in 0..c.between(1, 6) {
            let newest = inputs::newest_label(&record, &work);
            let byte = if c.one_in(20) { 65 } else { inputs::next_byte(c, calm, k, newest) };
            let room = c.between(record[0] + 1, record[0] + 4) as usize;
            record = event(t, &file, &table, record, &mut work, room, byte).record;
        }
    }
}

/// Files that are no tables, to both calls; many of them wrong in several places.
fn damaged_tables(t: &mut Tally, c: &mut Chance) {
    for i in 0..20000 {
        let n = if i % 20 == 0 { 64 } else { c.between(1, 9) as usize };
        let k = if i % 10 == 0 { 32 } else { c.between(1, 4) as usize };
        let mut file = inputs::random_table(c, n, k);
        inputs::damage_table(c, &mut file);
        let table = rules::read(&file);
        t.tables += 1;
        let (rows, depth) = inputs::sizes(c);
        let old = vec![c.word(); rules::work_length(rows, depth) as usize];
        start(t, &file, &table, rows, depth, &old);
        let (n, k) = table.as_ref().map_or((n, k), |t| (t.n, t.k));
        let (record, mut work) = inputs::wild_memory(c, n, k);
        let byte = inputs::next_byte(c, WAYS[0], k, inputs::newest_label(&record, &work));
        event(t, &file, &table, record, &mut work, record[0] as usize + 1, byte);
    }
}

/// The places of a table at which it is damaged, in file order, each with the answer to it: where it is in the file, the refusal, and the
/// two words that name it. Every byte of the contents; of each body, found by its entry, the first byte, the last and one between.
fn places_of(c: &mut Chance, file: &[u8]) -> Vec<(usize, u64, [u64; 2])> {
    let mut places = vec![];
    let fields = [0, 1, 1, 2, 2];
    for entry in 0..5 {
        places.extend((0..5).map(|i| (4 + 5 * entry + i, 3, [entry as u64 + 1, fields[i]])));
    }
    for body in 0..5 {
        let entry = &file[4 + 5 * body..];
        let [offset, length] = [1, 3].map(|i| u16::from_le_bytes([entry[i], entry[i + 1]]) as usize);
        let between = c.below(length as u64) as usize;
        places.extend([0, between, length - 1].map(|byte| (offset + byte, 5, [body as u64 + 1, byte as u64])));
    }
    places
}

/// Tables wrong in one place, and in every two places: the first of the two is named, by both calls.
fn wrong_places(t: &mut Tally, c: &mut Chance) {
    for i in 0..24 {
        let (n, k) = [(64, 32), (1, 1), (64, 1), (1, 32), (5, 2), (c.between(2, 63) as usize, c.between(2, 31) as usize)][i % 6];
        let file = inputs::random_table(c, n, k);
        let places = places_of(c, &file);
        let wrong = |c: &mut Chance, (at, number, [part, _]): (usize, u64, [u64; 2])| match (number, part) {
            (3, _) => file[at] ^ c.between(1, 255) as u8,
            (_, 5) => c.between(2, 255) as u8,
            _ => c.between(n as u64, 255) as u8,
        };
        for (i, &first) in places.iter().enumerate() {
            for &other in &places[i..] {
                let mut damaged = file.clone();
                damaged[other.0] = wrong(c, other);
                damaged[first.0] = wrong(c, first);
                let table = rules::read(&damaged);
                let (_, number, [part, inside]) = first;
                let (left, mut work) = start(t, &damaged, &table, 1, 1, &[OLD; 15]);
                t.same("a wrong place, start", "its making", &(left.number, left.place), &(number, [0, part, inside]));
                let after = event(t, &damaged, &table, [1, 1, 0, 0, 0, 0], &mut work, 2, 0);
                t.same("a wrong place, event", "its making", &(after.said, after.place), &(Err(number), [0, part, inside]));
            }
        }
        t.tables += 1;
    }
}

/// Rows and depths out of range, and lengths that do not fit.
fn wrong_sizes(t: &mut Tally, c: &mut Chance) {
    let file = inputs::table_w();
    let table = rules::read(&file);
    let odd = [0, 1, 2, 7, 40, 41, 64, 65, 255, 1 << 32, 1 << 61, 1 << 63, u64::MAX / 3, u64::MAX];
    for rows in odd {
        for depth in odd {
            // The length that rows and depth ask for, wrapped round, so that an overflow would be found.
            let of_rows = rows.wrapping_add(1).wrapping_mul(depth.wrapping_add(1).wrapping_mul(3).wrapping_add(1));
            let asked = of_rows.wrapping_add(depth);
            for length in [0, 1, of_rows, asked, asked.wrapping_sub(1), asked.saturating_add(1)] {
                let mut work = vec![c.word(); length.min(9000) as usize];
                start(t, &file, &table, rows, depth, &work);
                let fits = rows.min(70) as usize + 1;
                for room in [fits, 0, fits - 1, fits + 5] {
                    work.fill(0);
                    let byte = c.pick(&[0, 65, 66, 32]);
                    event(t, &file, &table, [rows, depth, 0, 0, 0, 0], &mut work, room, byte);
                }
            }
        }
    }
}

/// Records and memories put out of order, some of them twice, and the place of the first word at fault.
fn out_of_order(t: &mut Tally, c: &mut Chance) {
    for i in 0..14000 {
        let (n, k) = (if i % 30 == 0 { 64 } else { c.between(1, 6) as usize }, 2);
        let file = inputs::random_table(c, n, k);
        let table = rules::read(&file);
        t.tables += 1;
        let (mut record, mut work) = inputs::wild_memory(c, n, k);
        let byte = inputs::next_byte(c, WAYS[0], k, inputs::newest_label(&record, &work));
        for _ in 0..c.pick(&[1, 1, 2, 3]) {
            if record[2] <= record[1] && record[3] <= record[0] && record[4] < u64::MAX {
                inputs::breach(c, n, k, &mut record, &mut work);
            }
        }
        event(t, &file, &table, record, &mut work, record[0] as usize + 1, byte);
    }
}

/// The words of the levels, each damaged in turn: refused 7, with that word's place. Then the last level's word is damaged too, then the
/// first's, then a row's: the first word at fault is named.
fn level_words(t: &mut Tally, c: &mut Chance) {
    for _ in 0..300 {
        let (n, k) = (c.between(1, 6) as usize, c.pick(&[1, 2, 5, 32]));
        let file = inputs::random_table(c, n, k);
        let table = rules::read(&file);
        t.tables += 1;
        let (record, work) = inputs::wild_memory(c, n, k);
        let [rows, allowed, depth, ..] = record;
        let byte = inputs::next_byte(c, WAYS[0], k, inputs::newest_label(&record, &work));
        let first = ((rows + 1) * (3 * allowed + 4)) as usize;
        for at in first..first + allowed as usize {
            let is_open = ((at - first) as u64) < depth;
            let wrong = c.pick(&if is_open { [0, k as u64 + 1, 1 << 32] } else { [1, k as u64, 1 << 32] });
            let mut damaged = work.clone();
            for (damage, word, place) in [(at, wrong, at), (work.len() - 1, u64::MAX, at), (first, u64::MAX, first), (0, 1, 0)] {
                damaged[damage] = word;
                let after = event(t, &file, &table, record, &mut damaged, rows as usize + 1, byte);
                t.same("a damaged word of a level", "its place", &(after.said, after.place), &(Err(7), [place as u64, 0, 0]));
            }
        }
    }
}

/// A whole stream that closes with labels, in which no node has the label of the node that it is in. It has at most 60 positions.
fn labelled_stream(c: &mut Chance, k: u64) -> Vec<u8> {
    let mut stream = vec![];
    let mut open: Vec<u8> = vec![];
    for _ in 0..c.between(2, 60) {
        let label = c.below(k) as u8;
        match c.below(3) {
            0 if open.last() != Some(&label) && open.len() < 39 => {
                open.push(label);
                stream.push(label);
            }
            1 => stream.push(32 + label),
            _ => stream.extend(open.pop().map(|label| 66 + label)),
        }
    }
    stream.extend(open.iter().rev().map(|label| 66 + label));
    stream.push(65);
    stream
}

/// The first event that is refused, from 1, and its number, with 64 rows and depth 40.
fn first_refusal(t: &mut Tally, file: &[u8], table: &Reading, bytes: &[u8]) -> Option<(usize, u64)> {
    let (first, mut work) = start(t, file, table, 64, 40, &[OLD; 8100]);
    let mut record = first.record;
    for (i, &byte) in bytes.iter().enumerate() {
        let after = event(t, file, table, record, &mut work, 65, byte);
        if let Err(number) = after.said {
            return Some((i + 1, number));
        }
        record = after.record;
    }
    None
}

/// Where an open or a close that is lost shows in such a stream, counted without it: a lost open at the close that was its own, a lost
/// close at the close of the node around it. On the top level nothing is around: there a lost open's close finds nothing open, and a lost
/// close shows at the end.
fn loss_shows(stream: &[u8], lost: usize) -> (usize, u64) {
    let is_open = stream[lost] < 32;
    let depth_before = |at: usize| {
        let opens = stream[..at].iter().filter(|&&b| b < 32).count();
        opens - stream[..at].iter().filter(|&&b| b > 65).count()
    };
    // The depth around the node that lost a byte, and the depth that its close, or the close around it, leaves.
    let around = depth_before(lost) - !is_open as usize;
    let left = if is_open { Some(around) } else { around.checked_sub(1) };
    let shows = (lost + 1..stream.len()).find(|&at| stream[at] == 65 || (stream[at] > 65 && Some(depth_before(at) - 1) == left));
    let number = match (is_open, around) {
        (true, 0) => 11,
        (false, 0) => 13,
        _ => 16,
    };
    (shows.unwrap(), number)
}

/// Streams with an open or a close lost: with labelled closes the loss shows where it has to, with byte 64 for each close not before.
fn lost_bytes(t: &mut Tally, c: &mut Chance) {
    let mut earlier = 0;
    for _ in 0..40 {
        let (n, k) = (c.between(1, 6) as usize, c.between(2, 4));
        let file = inputs::random_table(c, n, k as usize);
        let table = rules::read(&file);
        t.tables += 1;
        let stream = labelled_stream(c, k);
        let refused = first_refusal(t, &file, &table, &stream);
        t.same("a whole stream", "its making", &refused, &None);
        for lost in (0..stream.len()).filter(|&at| stream[at] < 32 || stream[at] > 65) {
            let rest = [&stream[..lost], &stream[lost + 1..]].concat();
            let shown = first_refusal(t, &file, &table, &rest);
            t.same("a lost byte", "the labels", &shown, &Some(loss_shows(&stream, lost)));
            let plain: Vec<u8> = rest.iter().map(|&byte| if byte > 65 { 64 } else { byte }).collect();
            let late = first_refusal(t, &file, &table, &plain);
            let [shown, late] = [shown, late].map(|refused| refused.map(|(event, _)| event));
            t.same("a lost byte without labels", "the labels", &(shown <= late), &true);
            earlier += (shown < late) as u64;
        }
    }
    t.same("a lost byte that labels show earlier", "having one", &(earlier > 0), &true);
}

/// Several things wrong in one call: the number that is judged first has to be given.
fn several_wrong(t: &mut Tally, c: &mut Chance) {
    for _ in 0..6000 {
        let n = c.between(1, 6) as usize;
        let mut file = inputs::random_table(c, n, 2);
        if c.one_in(5) {
            inputs::damage_table(c, &mut file);
        }
        let table = rules::read(&file);
        t.tables += 1;
        let (mut record, mut work) = inputs::wild_memory(c, n, 2);
        let newest = inputs::newest_label(&record, &work);
        if c.one_in(3) {
            inputs::breach(c, n, 2, &mut record, &mut work);
        }
        if c.one_in(4) {
            work.fill(0);
            record = [record[0], record[1], 0, 0, record[4], 1];
        }
        let mut room = record[0] as usize + 1;
        match c.below(12) {
            0 => work.truncate(c.0 as usize % work.len()),
            1 => work.push(0),
            2 => room = c.below(room as u64) as usize,
            3 => record[0] = c.pick(&[0, 65, record[0] + 1, u64::MAX]),
            4 => record[1] = c.pick(&[0, 41, record[1] + 1, u64::MAX]),
            _ => {}
        }
        if c.one_in(4) {
            record[4] = c.pick(&[2_147_483_647, 2_147_483_646, 2_147_483_648]);
        }
        let byte = match c.below(4) {
            0 | 1 => c.below(256) as u8,
            2 => c.pick(&[0, 1, 2, 31, 32, 33, 34, 63, 64, 65, 66, 67, 68, 97, 98]),
            _ => inputs::next_close(c, 1, newest),
        };
        event(t, &file, &table, record, &mut work, room, byte);
    }
}

/// Record and answer slices of a wrong length: 100, judged first, and nothing is written.
fn wrong_lengths(t: &mut Tally, c: &mut Chance) {
    let good = inputs::table_w();
    for records in 0..10 {
        for answers in 0..8 {
            if records == 6 && answers == 4 {
                continue;
            }
            for bad in [false, true] {
                let file = if bad { vec![0; c.below(40) as usize] } else { good.clone() };
                let old = [OLD; 15];
                for is_start in [true, false] {
                    let mut work = Lent::new(&old, OLD);
                    let mut record = Lent::new(&vec![9; records], OLD);
                    let mut answer = Lent::new(&vec![8; answers], OLD);
                    let mut reports = Lent::new(&[5u32; 2], 1);
                    let number = if is_start {
                        t.starts += 1;
                        link::start(&file, 1, 1, work.words(), record.words(), answer.words())
                    } else {
                        t.events += 1;
                        link::event(&file, record.words(), work.words(), reports.words(), 0, answer.words())
                    };
                    t.count(100);
                    t.same("wrong lengths, number", "the signature", &number, &100);
                    t.same("wrong lengths, record", "as lent", &record.back(), &(vec![9; records], true));
                    t.same("wrong lengths, answer", "as lent", &answer.back(), &(vec![8; answers], true));
                    t.same("wrong lengths, work", "as lent", &work.back(), &(old.to_vec(), true));
                    t.same("wrong lengths, reports", "as lent", &reports.back(), &(vec![5; 2], true));
                }
            }
        }
    }
}

/// A run up to the greatest position: the record is set near it, and the run goes on.
fn last_positions(t: &mut Tally, c: &mut Chance) {
    for _ in 0..400 {
        let n = c.between(1, 6) as usize;
        let file = inputs::random_table(c, n, 2);
        let table = rules::read(&file);
        t.tables += 1;
        let mut before = c.below(12);
        let (mut record, mut work) = run(t, &file, &table, inputs::sizes(c), |_, _| {
            before = before.checked_sub(1)?;
            Some(c.pick(&[0, 1, 32, 33, 64, 66, 67]))
        });
        record[4] = 2_147_483_647 - c.below(4);
        for _ in 0..8 {
            let byte = c.pick(&[0, 1, 32, 33, 64, 65, 2, 66, 67, 98]);
            record = event(t, &file, &table, record, &mut work, 65, byte).record;
        }
    }
}

fn main() -> ExitCode {
    let mut t = Tally::default();
    let mut c = Chance(2026);
    worked_cases(&mut t);
    runs(&mut t, &mut c);
    let examples = examples(&mut t, &mut c);
    wild_runs(&mut t, &mut c);
    damaged_tables(&mut t, &mut c);
    wrong_places(&mut t, &mut c);
    wrong_sizes(&mut t, &mut c);
    out_of_order(&mut t, &mut c);
    level_words(&mut t, &mut c);
    lost_bytes(&mut t, &mut c);
    several_wrong(&mut t, &mut c);
    wrong_lengths(&mut t, &mut c);
    last_positions(&mut t, &mut c);
    let missed: Vec<usize> = (1..=17).filter(|&i| t.refused[i] == 0).collect();
    println!("compared: {} tables ({examples} of examples/), {} starts, {} events", t.tables, t.starts, t.events);
    let [own, later, end] = t.reports;
    println!("reports: {}; {own} at the position's own event, {later} later, {end} at the end", own + later + end);
    let numbers: Vec<String> = (1..=16).map(|i| format!("{i}: {}", t.refused[i])).collect();
    println!("refusals: {}, 100: {}", numbers.join(", "), t.refused[17]);
    let ([_, _, _, entries, _, bodies, ..], [of_entries, of_bodies]) = (t.refused, t.several);
    println!("places of 3: {entries}, {of_entries} of them the first of several; of 5: {bodies}, {of_bodies} of them");
    if !missed.is_empty() {
        println!("refusals never seen: {missed:?} (17 stands for 100)");
    }
    println!("{} differed", t.differed);
    if t.differed == 0 && missed.is_empty() {
        ExitCode::SUCCESS
    } else {
        ExitCode::FAILURE
    }
}
