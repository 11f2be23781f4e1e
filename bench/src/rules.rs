//! The rules of 01, and of 02's K2 and K3, read to the letter: for any table, record, work memory, room for reports and byte, every
//! word that a call leaves behind, or the refusal with its place.
//!
//! Sets are vectors of bools and are closed until nothing is added. Nothing here is quick, and nothing is shared with the
//! expert program or with the evaluator in second.rs.

/// The greatest position.
const LAST: u64 = 2_147_483_647;

/// A table file that was taken, with T and acc.
pub struct Table {
    pub n: usize,
    pub k: usize,
    start: usize,
    opening: Vec<usize>,
    point: Vec<Vec<usize>>,
    mark: Vec<usize>,
    apply: Vec<Vec<usize>>,
    finals: Vec<bool>,
    pub trees: Vec<bool>,
    pub acc: Vec<Vec<bool>>,
}

/// Where a refusal is at fault, 0 where it names no such place: the word of work memory (7); the contents entry (3) or the body (5),
/// from 1; the entry's field (0 kind, 1 offset, 2 length) or the byte in the body.
pub type Place = [u64; 3];

/// The refusal of a table file.
pub struct Refused {
    number: u64,
    place: Place,
}

/// What a file is read as.
pub type Reading = Result<Table, Refused>;

/// What a call leaves behind. Work memory is given where the call was taken.
#[derive(Debug, Clone, PartialEq)]
pub struct Left {
    pub number: u64,
    pub place: Place,
    pub record: [u64; 6],
    pub reports: Vec<u32>,
    pub work: Option<Vec<u64>>,
}

/// A row: its position, and its levels as state, selecting set, rejecting set.
#[derive(Clone)]
struct Row {
    position: u64,
    levels: Vec<[u64; 3]>,
}

/// Refusals 1 to 5, or the table. Contents and bodies are read entry by entry and body by body, up to the first wrong place.
pub fn read(file: &[u8]) -> Reading {
    let refused = |number| Err(Refused { number, place: [0; 3] });
    let refused_at = |number, i: usize, inside: usize| Err(Refused { number, place: [0, i as u64 + 1, inside as u64] });
    if file.len() < 29 {
        return refused(1);
    }
    let (n, k, start) = (file[0] as usize, file[1] as usize, file[2] as usize);
    if n < 1 || n > 64 || k < 1 || k > 32 || start >= n || file[3] != 5 {
        return refused(2);
    }
    let lengths = [k, n * k, n, n * n, n];
    let mut offset = 29;
    for (i, &length) in lengths.iter().enumerate() {
        let at = 4 + 5 * i;
        let two_bytes = |at: usize| file[at] as usize + 256 * file[at + 1] as usize;
        let fields = [(file[at] as usize, i + 1), (two_bytes(at + 1), offset), (two_bytes(at + 3), length)];
        if let Some(field) = fields.iter().position(|(is, fixed)| is != fixed) {
            return refused_at(3, i, field);
        }
        offset += length;
    }
    if file.len() != 29 + k + n * k + n + n * n + n {
        return refused(4);
    }
    let mut rest = file[29..].iter().map(|&b| b as usize);
    let mut body = |length: usize| -> Vec<usize> { rest.by_ref().take(length).collect() };
    let bodies: Vec<Vec<usize>> = lengths.iter().map(|&length| body(length)).collect();
    for (i, body) in bodies.iter().enumerate() {
        let greatest = if i < 4 { n - 1 } else { 1 };
        if let Some(byte) = body.iter().position(|&x| x > greatest) {
            return refused_at(5, i, byte);
        }
    }
    let mut table = Table {
        n,
        k,
        start,
        opening: bodies[0].clone(),
        point: bodies[1].chunks(k).map(<[usize]>::to_vec).collect(),
        mark: bodies[2].clone(),
        apply: bodies[3].chunks(n).map(<[usize]>::to_vec).collect(),
        finals: bodies[4].iter().map(|&b| b == 1).collect(),
        trees: vec![false; n],
        acc: Vec::new(),
    };
    for a in 0..k {
        table.trees[table.opening[a]] = true;
    }
    loop {
        let next = table.with_steps(&table.trees, &table.trees);
        if next == table.trees {
            break;
        }
        table.trees = next;
    }
    for q in 0..n {
        let mut set = vec![false; n];
        set[q] = true;
        loop {
            let next = table.with_steps(&set, &table.trees);
            if next == set {
                break;
            }
            set = next;
        }
        table.acc.push(set);
    }
    Ok(table)
}

impl Table {
    /// The set with every P(q,a), and every A(q,p) for p in trees, of its states q.
    fn with_steps(&self, set: &[bool], trees: &[bool]) -> Vec<bool> {
        let mut next = set.to_vec();
        for q in (0..self.n).filter(|&q| set[q]) {
            for a in 0..self.k {
                next[self.point[q][a]] = true;
            }
            for p in (0..self.n).filter(|&p| trees[p]) {
                next[self.apply[q][p]] = true;
            }
        }
        next
    }

    /// safe(X), as a word.
    pub fn safe(&self, x: &[bool]) -> u64 {
        let lies_in = |q: usize| (0..self.n).all(|p| !self.acc[q][p] || x[p]);
        (0..self.n).filter(|&q| lies_in(q)).map(|q| 1u64 << q).sum()
    }

    /// down(q,X), of a set given as a word.
    pub fn down(&self, q: u64, x: u64) -> u64 {
        let into: Vec<bool> = self.apply[q as usize].iter().map(|&s| has(x, s as u64)).collect();
        self.safe(&into)
    }
}

/// Is the state in the set?
fn has(set: u64, state: u64) -> bool {
    (set >> state) & 1 == 1
}

/// How many words work memory has, for rows and depth in range: those of the rows, and one for each allowed level.
pub fn work_length(rows: u64, depth: u64) -> u64 {
    (rows + 1) * (1 + 3 * (depth + 1)) + depth
}

/// Where the word of a level, counted from 1, stands in work memory.
fn label_at(rows: u64, allowed: u64, level: u64) -> usize {
    (work_length(rows, allowed) - allowed + level - 1) as usize
}

/// Is the first part of line 6 passed?
fn sizes_right(rows: u64, depth: u64, work: usize) -> bool {
    (1..=64).contains(&rows) && (1..=40).contains(&depth) && work as u64 == work_length(rows, depth)
}

/// The start call: what it leaves behind.
pub fn start(table: &Reading, rows: u64, depth: u64, work: usize) -> Left {
    let refused = |number, place| Left { number, place, record: [0; 6], reports: vec![], work: None };
    let table = match table {
        Err(why) => return refused(why.number, why.place),
        Ok(table) => table,
    };
    if !sizes_right(rows, depth, work) {
        return refused(6, [0; 3]);
    }
    let others: Vec<bool> = table.finals.iter().map(|f| !f).collect();
    let level = [table.start as u64, table.safe(&table.finals), table.safe(&others)];
    let row = Row { position: 0, levels: vec![level] };
    let work = Some(words(&[row], &[], rows, depth));
    Left { number: 0, place: [0; 3], record: [rows, depth, 0, 0, 0, 0], reports: vec![], work }
}

/// The words that rows stand for, and behind them those of the levels, which were opened with these labels.
fn words(rows: &[Row], labels: &[u64], count: u64, depth: u64) -> Vec<u64> {
    let width = 1 + 3 * (depth as usize + 1);
    let mut words = vec![0; work_length(count, depth) as usize];
    for (row, place) in rows.iter().zip(words.chunks_mut(width)) {
        place[0] = row.position;
        for (level, place) in row.levels.iter().zip(place[1..].chunks_mut(3)) {
            place.copy_from_slice(level);
        }
    }
    for (level, label) in (1..).zip(labels) {
        words[label_at(count, depth, level)] = label + 1;
    }
    words
}

/// The place that refusal 7 names, if record or work memory is not in order. Sizes are right.
fn fault(n: usize, k: usize, record: &[u64; 6], work: &[u64]) -> Option<u64> {
    let [rows, allowed, depth, alive, read, finished] = *record;
    if alive > rows || depth > allowed || read > LAST || finished > 1 || (finished == 1 && (depth > 0 || alive > 0)) {
        return Some(work.len() as u64);
    }
    let width = 1 + 3 * (allowed as usize + 1);
    let first = label_at(rows, allowed, 1);
    let right = |at: usize| {
        let (row, word) = (at / width, work[at]);
        if at >= first {
            let level = (at - first) as u64 + 1;
            return if level <= depth { (1..=k as u64).contains(&word) } else { word == 0 };
        }
        let in_row = at % width;
        let level = if in_row == 0 { 0 } else { (in_row - 1) / 3 } as u64;
        if finished == 1 || row as u64 > alive || level > depth {
            return word == 0;
        }
        match (in_row, row) {
            (0, 0) => word == 0,
            (0, _) => word > work[at - width] && word >= 1 && word <= read,
            _ => (in_row - 1) % 3 != 0 || word < n as u64,
        }
    };
    (0..work.len()).find(|&at| !right(at)).map(|at| at as u64)
}

/// The call for one event: what it leaves behind.
pub fn event(table: &Reading, record: [u64; 6], work: &[u64], reports: usize, byte: u8) -> Left {
    let refused_at = |number, place| Left { number, place, record, reports: vec![], work: None };
    let refused = |number| refused_at(number, [0; 3]);
    let table = match table {
        Err(why) => return refused_at(why.number, why.place),
        Ok(table) => table,
    };
    let [rows, allowed, depth, alive, read, finished] = record;
    if !sizes_right(rows, allowed, work.len()) || (reports as u64) < rows + 1 {
        return refused(6);
    }
    if let Some(word) = fault(table.n, table.k, &record, work) {
        return refused_at(7, [word, 0, 0]);
    }
    if finished == 1 {
        return refused(8);
    }
    let (opens, points) = (byte <= 31, (32..=63).contains(&byte));
    let names = (66..=97).contains(&byte);
    let closes = byte == 64 || names;
    let label = if names { byte - 66 } else { byte % 32 } as usize;
    let newest = if depth == 0 { 0 } else { work[label_at(rows, allowed, depth)] };
    let lines = [
        (9, byte >= 98),
        (10, (opens || points || names) && label >= table.k),
        (11, closes && depth == 0),
        (16, names && newest != label as u64 + 1),
        (12, opens && depth == allowed),
        (13, byte == 65 && depth > 0),
        (14, (opens || points) && read == LAST),
    ];
    if let Some((number, _)) = lines.iter().find(|(_, applies)| *applies) {
        return refused(*number);
    }
    let mut now: Vec<Row> = work
        .chunks(1 + 3 * (allowed as usize + 1))
        .take(alive as usize + 1)
        .map(|row| Row {
            position: row[0],
            levels: row[1..].chunks(3).take(depth as usize + 1).map(|l| [l[0], l[1], l[2]]).collect(),
        })
        .collect();
    if byte == 65 {
        let end = |row: &Row| (2 * row.position) as u32 + table.finals[row.levels[0][0] as usize] as u32;
        return Left {
            number: 0,
            place: [0; 3],
            record: [rows, allowed, 0, 0, read, 1],
            reports: now[1..].iter().map(end).collect(),
            work: Some(vec![0; work.len()]),
        };
    }
    let mut labels: Vec<u64> = (1..=depth).map(|level| work[label_at(rows, allowed, level)] - 1).collect();
    if opens {
        labels.push(label as u64);
    } else if closes {
        labels.pop();
    }
    for row in &mut now {
        let newest = row.levels.len() - 1;
        let [q, selecting, rejecting] = row.levels[newest];
        if opens {
            let down = [table.down(q, selecting), table.down(q, rejecting)];
            row.levels.push([table.opening[label] as u64, down[0], down[1]]);
        } else if points {
            row.levels[newest][0] = table.point[q as usize][label] as u64;
        } else {
            row.levels.pop();
            let below = &mut row.levels[newest - 1];
            below[0] = table.apply[below[0] as usize][q as usize] as u64;
        }
    }
    let mut next = record;
    next[2] = now[0].levels.len() as u64 - 1;
    if !closes {
        next[4] = read + 1;
        let mut new = now[0].clone();
        new.position = read + 1;
        let newest = new.levels.last_mut().unwrap();
        newest[0] = table.mark[newest[0] as usize] as u64;
        now.push(new);
    }
    let mut told = vec![];
    let mut left = vec![now[0].clone()];
    for row in &now[1..] {
        let [state, selecting, rejecting] = *row.levels.last().unwrap();
        if has(selecting, state) {
            told.push((2 * row.position + 1) as u32);
        } else if has(rejecting, state) {
            told.push((2 * row.position) as u32);
        } else {
            left.push(row.clone());
        }
    }
    next[3] = left.len() as u64 - 1;
    if next[3] > rows {
        return refused(15);
    }
    Left { number: 0, place: [0; 3], record: next, reports: told, work: Some(words(&left, &labels, rows, allowed)) }
}
