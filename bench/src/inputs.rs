//! Inputs for the tests and benchmarks: a small generator of numbers, tables of several kinds, streams, memory that no run left,
//! and damage to tables, records and memory.
//!
//! Everything follows from the seed. Nothing here knows how a watch works, only how its inputs are laid out.

/// A generator of 64-bit numbers (splitmix64).
pub struct Chance(pub u64);

impl Chance {
    pub fn word(&mut self) -> u64 {
        self.0 = self.0.wrapping_add(0x9E37_79B9_7F4A_7C15);
        let x = (self.0 ^ (self.0 >> 30)).wrapping_mul(0xBF58_476D_1CE4_E5B9);
        let x = (x ^ (x >> 27)).wrapping_mul(0x94D0_49BB_1331_11EB);
        x ^ (x >> 31)
    }

    pub fn below(&mut self, n: u64) -> u64 {
        self.word() % n
    }

    pub fn between(&mut self, low: u64, high: u64) -> u64 {
        low + self.below(high - low + 1)
    }

    pub fn one_in(&mut self, n: u64) -> bool {
        self.below(n) == 0
    }

    pub fn pick<T: Copy>(&mut self, from: &[T]) -> T {
        from[self.below(from.len() as u64) as usize]
    }
}

/// A table before it is a file.
pub struct Parts {
    pub n: usize,
    pub k: usize,
    pub start: usize,
    pub opening: Vec<usize>,
    pub point: Vec<Vec<usize>>,
    pub mark: Vec<usize>,
    pub apply: Vec<Vec<usize>>,
    pub finals: Vec<bool>,
}

impl Parts {
    /// The table whose steps these functions give.
    pub fn of(
        (n, k, start): (usize, usize, usize),
        opening: impl FnMut(usize) -> usize,
        mut point: impl FnMut(usize, usize) -> usize,
        mark: impl FnMut(usize) -> usize,
        mut apply: impl FnMut(usize, usize) -> usize,
        finals: impl FnMut(usize) -> bool,
    ) -> Parts {
        Parts {
            n,
            k,
            start,
            opening: (0..k).map(opening).collect(),
            point: (0..n).map(|q| (0..k).map(|a| point(q, a)).collect()).collect(),
            mark: (0..n).map(mark).collect(),
            apply: (0..n).map(|q| (0..n).map(|p| apply(q, p)).collect()).collect(),
            finals: (0..n).map(finals).collect(),
        }
    }

    /// The table file.
    pub fn file(&self) -> Vec<u8> {
        let bodies = [
            self.opening.clone(),
            self.point.concat(),
            self.mark.clone(),
            self.apply.concat(),
            self.finals.iter().map(|&f| f as usize).collect(),
        ];
        let mut file = vec![self.n as u8, self.k as u8, self.start as u8, 5];
        let mut offset = 29;
        for (i, body) in bodies.iter().enumerate() {
            file.push(i as u8 + 1);
            file.extend((offset as u16).to_le_bytes());
            file.extend((body.len() as u16).to_le_bytes());
            offset += body.len();
        }
        file.extend(bodies.concat().iter().map(|&q| q as u8));
        file
    }
}

/// 01's table W.
pub fn table_w() -> Vec<u8> {
    let point = [[0, 0], [1, 2], [2, 2], [3, 3], [0, 0]];
    let apply = [[0, 3, 2, 3, 0], [1, 3, 2, 3, 1], [2, 3, 2, 3, 2], [3, 3, 2, 3, 3], [0, 3, 2, 3, 0]];
    Parts::of((5, 2, 0), |a| [4, 0][a], |q, a| point[q][a], |q| [3, 3, 3, 3, 1][q], |q, p| apply[q][p], |q| q == 2).file()
}

/// 01's table L.
pub fn table_l() -> Vec<u8> {
    Parts::of((3, 1, 0), |_| 2, |q, _| [0, 2, 2][q], |q| [1, 2, 2][q], |q, _| [0, 2, 2][q], |q| q == 1).file()
}

/// A table of n states and k labels, of one of several kinds.
pub fn random_table(c: &mut Chance, n: usize, k: usize) -> Vec<u8> {
    let all = n as u64;
    let mut parts = Parts::of((n, k, 0), |_| 0, |_, _| 0, |_| 0, |_, _| 0, |_| false);
    let any = |c: &mut Chance| c.below(all) as usize;
    parts.start = any(c);
    parts.opening.iter_mut().for_each(|s| *s = any(c));
    parts.mark.iter_mut().for_each(|s| *s = any(c));
    parts.point.iter_mut().flatten().for_each(|s| *s = any(c));
    parts.apply.iter_mut().flatten().for_each(|s| *s = any(c));
    match c.below(6) {
        // Any steps at all.
        0 => {}
        // Some states are never left.
        1 => {
            for q in (0..n).filter(|_| c.one_in(2)).collect::<Vec<_>>() {
                parts.point[q].fill(q);
                parts.apply[q].fill(q);
            }
        }
        // Steps lead upwards or stay.
        2 => {
            for q in 0..n {
                let up = |c: &mut Chance| if c.one_in(2) { q } else { c.between(q as u64, all - 1) as usize };
                parts.point[q].iter_mut().for_each(|s| *s = up(c));
                parts.apply[q].iter_mut().for_each(|s| *s = up(c));
                parts.mark[q] = up(c);
            }
            parts.start = c.below((all + 2) / 3) as usize;
            parts.opening.iter_mut().for_each(|s| *s = c.below((all + 1) / 2) as usize);
        }
        // A query's own shape: runs without a mark keep to the states below u, a marked run comes to doubt above them or to
        // one of the last two, which it never leaves.
        3 | 4 if n >= 4 => query_table(c, &mut parts),
        // Few states are reached.
        _ => {
            let few = c.between(1, all);
            parts.point.iter_mut().flatten().for_each(|s| *s %= few as usize);
            parts.apply.iter_mut().flatten().for_each(|s| *s %= few as usize);
            parts.opening.iter_mut().for_each(|s| *s %= few as usize);
        }
    }
    let style = c.below(5);
    let one = any(c);
    for q in 0..n {
        parts.finals[q] = match style {
            0 => c.one_in(2),
            1 => q == one,
            2 => q == n - 2 + n % 2 * (n == 1) as usize,
            3 => c.one_in(4),
            _ => c.one_in(64) == (one % 2 == 0),
        };
    }
    parts.file()
}

fn query_table(c: &mut Chance, parts: &mut Parts) {
    let n = parts.n;
    let u = c.between(1, n as u64 - 3) as usize;
    let (low, middle) = (u as u64, (n - 2 - u) as u64);
    let plain = |c: &mut Chance| c.below(low) as usize;
    let doubt = |c: &mut Chance| match c.below(12) {
        0 => n - 2,
        1 => n - 1,
        _ => u + c.below(middle) as usize,
    };
    parts.start = plain(c);
    parts.opening.iter_mut().for_each(|s| *s = plain(c));
    for q in 0..n {
        let outside = q < u;
        for s in &mut parts.point[q] {
            *s = if outside { plain(c) } else { doubt(c) };
        }
        for p in 0..n {
            parts.apply[q][p] = match p {
                _ if q >= n - 2 => q,
                p if p >= n - 2 => p,
                p if outside && p < u => plain(c),
                _ => doubt(c),
            };
        }
        parts.mark[q] = doubt(c);
    }
    for q in n - 2..n {
        parts.point[q].fill(q);
    }
}

/// How a stream goes: how often, of 16, it opens and closes; it is points otherwise.
#[derive(Clone, Copy)]
pub struct Way {
    pub opens: u64,
    pub closes: u64,
    /// One byte in so many is any byte at all.
    pub odd: u64,
}

pub const WAYS: [Way; 6] = [
    Way { opens: 5, closes: 5, odd: 30 },
    Way { opens: 9, closes: 2, odd: 40 },
    Way { opens: 7, closes: 7, odd: 50 },
    Way { opens: 1, closes: 2, odd: 60 },
    Way { opens: 12, closes: 3, odd: 80 },
    Way { opens: 4, closes: 9, odd: 12 },
];

/// The next byte of such a stream over k labels, with the label of the newest level, where one is open.
pub fn next_byte(c: &mut Chance, way: Way, k: usize, newest: Option<u8>) -> u8 {
    if c.one_in(way.odd) {
        let limit = c.pick(&[70, 100, 256]);
        return c.below(limit) as u8;
    }
    let label = c.below(k as u64) as u8;
    match c.below(16) {
        x if x < way.opens => label,
        x if x < way.opens + way.closes => next_close(c, label, newest),
        _ => 32 + label,
    }
}

/// A close: one without a label, one with the newest level's, or, one in six, one with this label.
pub fn next_close(c: &mut Chance, label: u8, newest: Option<u8>) -> u8 {
    match c.below(6) {
        0 | 1 => 64,
        2 => 66 + label,
        _ => 66 + newest.unwrap_or(label),
    }
}

/// The label of the newest level, where one is open, by a record and work memory in order.
pub fn newest_label(record: &[u64; 6], work: &[u64]) -> Option<u8> {
    let [_, allowed, depth, ..] = *record;
    let newest = depth.checked_sub(1)?;
    Some(work[work.len() - (allowed - newest) as usize] as u8 - 1)
}

/// Rows, 1 to 64, small ones oftener; the same for the depth allowed, 1 to 40.
pub fn sizes(c: &mut Chance) -> (u64, u64) {
    let rows = if c.one_in(3) { c.between(1, 64) } else { c.between(1, 6) };
    let depth = if c.one_in(3) { c.between(1, 40) } else { c.between(1, 7) };
    (c.pick(&[rows, rows, rows, rows, 64]), c.pick(&[depth, depth, depth, depth, 40]))
}

/// A set word: any 64 bits, often few of them or few missing.
fn set_word(c: &mut Chance, n: usize) -> u64 {
    let any = c.word();
    match c.below(6) {
        0 => any,
        1 => any & c.word() & c.word(),
        2 => any | c.word() | c.word(),
        3 => 1 << c.below(n as u64),
        4 => 0,
        _ => any & c.word() & c.word() & c.word() & c.word(),
    }
}

/// A record and work memory in order, for n states and k labels, that no run need have left.
pub fn wild_memory(c: &mut Chance, n: usize, k: usize) -> ([u64; 6], Vec<u64>) {
    let (rows, allowed) = sizes(c);
    let depth = c.pick(&[c.0 % (allowed + 1), allowed, 0, allowed - 1]);
    let alive = c.pick(&[c.0 % (rows + 1), rows, rows, 0]);
    let width = 1 + 3 * (allowed as usize + 1);
    let mut work = vec![0; (rows as usize + 1) * width];
    let step = c.pick(&[1, 3, 1 << 24]);
    let mut position = 0;
    for row in 0..=alive as usize {
        if row > 0 {
            position += c.between(1, step);
        }
        let words = &mut work[row * width..(row + 1) * width];
        words[0] = position;
        for level in words[1..].chunks_mut(3).take(depth as usize + 1) {
            level[0] = c.below(n as u64);
            level[1] = set_word(c, n);
            level[2] = set_word(c, n);
        }
    }
    work.extend((0..allowed).map(|level| if level < depth { c.between(1, k as u64) } else { 0 }));
    let read = match c.below(4) {
        0 => position,
        1 => 2_147_483_647 - c.below(3),
        _ => position + c.below(1000),
    };
    ([rows, allowed, depth, alive, read, 0], work)
}

/// A table file made wrong, or at times left as it was: each line of 1 to 5 has its kind of damage.
pub fn damage_table(c: &mut Chance, file: &mut Vec<u8>) {
    let (n, k) = (file[0], file[1]);
    let length = file.len() as u64;
    match c.below(16) {
        0 => file.truncate(c.below(30) as usize),
        1 => file[0] = c.pick(&[0, 65, 255, 64, 1, n - 1]),
        2 => file[1] = c.pick(&[0, 33, 255, 32, 1, k - 1]),
        3 => file[2] = c.pick(&[n, 64, 255, n - 1]),
        4 => file[3] = c.pick(&[4, 6, 0, 255]),
        5..=8 => damage_contents(c, file),
        9 => file.truncate(c.between(28, length - 1) as usize),
        10 => file.resize(file.len() + c.between(1, 9) as usize, c.pick(&[0, 1, 255])),
        11..=13 => damage_bodies(c, file),
        14 => {
            damage_contents(c, file);
            damage_bodies(c, file);
        }
        _ => damage_bytes(c, file, 0, length - 1),
    }
}

/// One to four bytes between two places made wrong, or left as they were.
fn damage_bytes(c: &mut Chance, file: &mut [u8], first: u64, last: u64) {
    for _ in 0..c.between(1, 4) {
        let byte = &mut file[c.between(first, last) as usize];
        *byte = c.pick(&[*byte ^ 1 << (c.0 % 8), byte.wrapping_add(1), byte.wrapping_sub(1), 0, 255]);
    }
}

/// Contents made wrong, in one place or in several, or, where values are the same, left as they were.
fn damage_contents(c: &mut Chance, file: &mut [u8]) {
    let entry = 4 + 5 * c.below(5) as usize;
    match c.below(8) {
        // Of an offset or a length the low byte only, or the high byte only; then the two exchanged.
        0 => file[entry + c.pick(&[1, 3])] ^= c.between(1, 255) as u8,
        1 => file[entry + c.pick(&[2, 4])] ^= c.between(1, 255) as u8,
        2 => file[entry + c.pick(&[1, 3])..][..2].reverse(),
        // An offset and a length exchanged, and an entry with the next one.
        3 => file[entry + 1..][..4].rotate_left(2),
        4 => file[entry.min(19)..][..10].rotate_left(5),
        // What other sizes would fix.
        5 => {
            let (n, k) = (c.between(1, 9) as usize, c.between(1, 4) as usize);
            file[4..29].copy_from_slice(&random_table(c, n, k)[4..29]);
        }
        _ => damage_bytes(c, file, 4, 28),
    }
}

/// Bytes of the bodies set, many of them at either side of a border, and at times to what may stand there.
fn damage_bodies(c: &mut Chance, file: &mut [u8]) {
    let (n, k, length) = (file[0] as usize, file[1] as usize, file.len());
    let borders = [29, 29 + k, 29 + k + n * k, 29 + k + n * k + n, length - n, length];
    for _ in 0..c.pick(&[1, 2, 3, 9]) {
        let beside = (c.pick(&borders) - c.below(2) as usize).clamp(29, length - 1);
        let at = c.pick(&[beside, 29 + c.0 as usize % (length - 29)]);
        file[at] = c.pick(&[n as u8, n as u8 - 1, 1, 2, 64, 255]);
    }
}

/// Puts a record or work memory, in order until now, out of order in one way. At times nothing is hurt.
pub fn breach(c: &mut Chance, n: usize, k: usize, record: &mut [u64; 6], work: &mut [u64]) {
    let [rows, allowed, depth, alive, read, _] = *record;
    let width = 1 + 3 * (allowed as usize + 1);
    let row = |c: &mut Chance, rows: u64| c.below(rows + 1) as usize * width;
    let labels = work.len() - allowed as usize;
    match c.below(20) {
        0 => record[3] = c.pick(&[rows + 1, rows + 2, u64::MAX, 1 << 32]),
        1 => record[2] = c.pick(&[allowed + 1, u64::MAX, 1 << 32]),
        2 => record[4] = c.pick(&[2_147_483_648, u64::MAX, 1 << 32]),
        3 => record[5] = c.pick(&[2, 256, 1 << 32, u64::MAX]),
        // Finished, though words, depth or alive count are not 0.
        4 => record[5] = 1,
        5 => {
            // Finished and in order, but for one word.
            *record = [rows, allowed, 0, 0, read, 1];
            work.fill(0);
            let from = c.pick(&[0, 0, 0, labels]);
            let at = c.between(from as u64, work.len() as u64 - 1) as usize;
            work[at] = c.pick(&[1, u64::MAX]);
        }
        6 => work[0] = c.pick(&[1, read, u64::MAX]),
        7 | 8 => {
            let at = row(c, alive);
            let before = if at == 0 { 0 } else { work[at - width] };
            work[at] = c.pick(&[0, before, before.wrapping_sub(1), read + 1, read, u64::MAX]);
        }
        9 | 10 => {
            let at = row(c, alive) + 1 + 3 * c.below(depth + 1) as usize;
            work[at] = c.pick(&[n as u64, 64, 255, u64::MAX, 1 << 32, n as u64 - 1]);
        }
        // A word of a level not in use.
        11 if depth < allowed => {
            let at = row(c, rows) + 1 + 3 * (depth as usize + 1);
            let words = 3 * (allowed - depth);
            work[at + c.below(words) as usize] = c.pick(&[1, u64::MAX, 1 << 63]);
        }
        // A word of a row not in use.
        12 if alive < rows => {
            let at = c.between((alive + 1) * width as u64, labels as u64 - 1) as usize;
            work[at] = c.pick(&[1, u64::MAX, 1 << 63]);
        }
        // A count that does not fit the words.
        13 => record[3] = c.between(0, rows),
        14 => record[2] = c.between(0, allowed),
        // The word of an open level.
        15 | 16 if depth > 0 => {
            let label = c.between(1, k as u64);
            work[labels + c.below(depth) as usize] = c.pick(&[0, k as u64 + 1, 33, u64::MAX, 1 << 32, label]);
        }
        // The word of a level that is not open.
        17 if depth < allowed => {
            let at = labels + c.between(depth, allowed - 1) as usize;
            work[at] = c.pick(&[1, k as u64, u64::MAX, 1 << 63]);
        }
        _ => {
            for _ in 0..c.between(1, 3) {
                let at = c.below(work.len() as u64) as usize;
                work[at] = c.pick(&[c.0, 1, 0, n as u64 - 1, n as u64, read]);
            }
        }
    }
}
