//! The expert program's engine: the same algorithm as the library's, as one writes it in Rust when nobody has to be mistrusted.
//!
//! The table is read once into flat arrays. T and acc are worked out at the start, and with them, for each q and s, the states
//! from which some hedge leads to a p with A(q,p) = s; so down(q,X) is one pass over the states outside X that A(q,.) names.
//! State and masks are a struct, and those of all rows at one level lie side by side, since an event touches one or two levels of
//! every row. A list of row numbers closes up, no row is ever moved; what is not in use is neither read nor cleared. Only the event
//! byte is checked (8 to 16).
//!
//! Assumed: the file is a table, rows are 1 to 64, the depth allowed is 1 to 40.

#[derive(Clone, Copy, Default)]
pub struct Level {
    pub state: u64,
    pub selecting: u64,
    pub rejecting: u64,
}

impl Level {
    /// Selected: true; failed: false; in doubt: nothing.
    #[inline]
    fn verdict(&self, state: u64) -> Option<bool> {
        if (self.selecting >> state) & 1 == 1 {
            Some(true)
        } else if (self.rejecting >> state) & 1 == 1 {
            Some(false)
        } else {
            None
        }
    }
}

/// One level of every row.
pub type Levels = [Level; 65];

struct Table {
    labels: u8,
    opening: [u8; 32],
    point: [[u8; 32]; 64],
    mark: [u8; 64],
    apply: [[u8; 64]; 64],
    finals: u64,
    /// The states below n, and for each q the states that A(q,.) names.
    all: u64,
    named: [u64; 64],
    /// For each q and s, the states from which some hedge leads to a p with A(q,p) = s.
    leading: [[u64; 64]; 64],
}

pub struct Expert {
    table: Box<Table>,
    pub levels: Vec<Levels>,
    /// The label that opened each level, level 1 first.
    pub labels: [u8; 40],
    /// The position of each row.
    pub position: [u32; 65],
    /// Numbers of rows: first those of the alive positions, ascending by position, then the free ones.
    pub order: [u8; 64],
    pub room: usize,
    pub allowed: usize,
    pub depth: usize,
    pub alive: usize,
    pub positions: u32,
    pub finished: bool,
}

/// The states of a set, ascending.
fn states(mut set: u64) -> impl Iterator<Item = usize> {
    std::iter::from_fn(move || {
        if set == 0 {
            return None;
        }
        let q = set.trailing_zeros() as usize;
        set &= set - 1;
        Some(q)
    })
}

impl Table {
    fn read(file: &[u8]) -> (Box<Table>, [u64; 64]) {
        let (n, k) = (file[0] as usize, file[1] as usize);
        let mut table = Box::new(Table {
            labels: k as u8,
            opening: [0; 32],
            point: [[0; 32]; 64],
            mark: [0; 64],
            apply: [[0; 64]; 64],
            finals: 0,
            all: u64::MAX >> (64 - n),
            named: [0; 64],
            leading: [[0; 64]; 64],
        });
        let (opening, rest) = file[29..].split_at(k);
        let (point, rest) = rest.split_at(n * k);
        let (mark, rest) = rest.split_at(n);
        let (apply, finals) = rest.split_at(n * n);
        table.opening[..k].copy_from_slice(opening);
        table.mark[..n].copy_from_slice(mark);
        for q in 0..n {
            table.point[q][..k].copy_from_slice(&point[q * k..(q + 1) * k]);
            table.apply[q][..n].copy_from_slice(&apply[q * n..(q + 1) * n]);
            table.finals |= (finals[q] as u64) << q;
        }
        let acc = table.close(n, k);
        for q in 0..n {
            for p in 0..n {
                let s = table.apply[q][p] as usize;
                table.named[q] |= 1 << s;
                for r in 0..n {
                    table.leading[q][s] |= ((acc[r] >> p) & 1) << r;
                }
            }
        }
        (table, acc)
    }

    /// acc, closed over T.
    fn close(&self, n: usize, k: usize) -> [u64; 64] {
        let step = |trees: u64, q: usize| {
            let points = self.point[q][..k].iter().fold(0u64, |all, &s| all | 1 << s);
            states(trees).fold(points, |all, p| all | 1 << self.apply[q][p])
        };
        let mut trees = self.opening[..k].iter().fold(0u64, |all, &s| all | 1 << s);
        loop {
            let next = states(trees).fold(trees, |all, q| all | step(trees, q));
            if next == trees {
                break;
            }
            trees = next;
        }
        let mut steps = [0u64; 64];
        let mut acc = [0u64; 64];
        for q in 0..n {
            steps[q] = step(trees, q);
        }
        for q in 0..n {
            let (mut set, mut new) = (1u64 << q, 1u64 << q);
            while new != 0 {
                let next = states(new).fold(0, |all, q| all | steps[q]);
                new = next & !set;
                set |= next;
            }
            acc[q] = set;
        }
        acc
    }

    /// down(q,X).
    #[inline]
    fn down(&self, q: u64, x: u64) -> u64 {
        let leading = &self.leading[q as usize & 63];
        let mut out = self.named[q as usize & 63] & !x;
        let mut set = 0;
        while out != 0 {
            set |= leading[out.trailing_zeros() as usize];
            out &= out - 1;
        }
        self.all & !set
    }

    /// The level that an open puts over this one.
    #[inline]
    fn open(&self, below: Level, state: u64) -> Level {
        let selecting = self.down(below.state, below.selecting);
        let rejecting = self.down(below.state, below.rejecting);
        Level { state, selecting, rejecting }
    }

    #[inline]
    fn point(&self, state: u64, a: usize) -> u64 {
        self.point[state as usize & 63][a] as u64
    }
}

impl Expert {
    /// The start. The file is a table, rows and depth are in range.
    pub fn new(file: &[u8], room: usize, allowed: usize) -> Expert {
        let (table, acc) = Table::read(file);
        let safe = |x: u64| (0..64).filter(|&q| acc[q] != 0 && acc[q] & !x == 0).fold(0u64, |all, q| all | 1 << q);
        let first = Level { state: file[2] as u64, selecting: safe(table.finals), rejecting: safe(table.all & !table.finals) };
        let mut levels = vec![[Level::default(); 65]; allowed + 1];
        levels[0][0] = first;
        let mut order = [0; 64];
        for (i, slot) in order.iter_mut().enumerate() {
            *slot = i as u8 + 1;
        }
        Expert {
            table,
            levels,
            labels: [0; 40],
            position: [0; 65],
            order,
            room,
            allowed,
            depth: 0,
            alive: 0,
            positions: 0,
            finished: false,
        }
    }

    /// One event: the number of reports, or the refusal, of 8 to 16.
    pub fn event(&mut self, byte: u8, reports: &mut [u32]) -> Result<usize, u64> {
        if self.finished {
            return Err(8);
        }
        match byte {
            0..=31 => self.open(byte, reports),
            32..=63 => self.point(byte - 32, reports),
            64 => self.close(None, reports),
            65 => self.end(reports),
            66..=97 => self.close(Some(byte - 66), reports),
            _ => Err(9),
        }
    }

    fn open(&mut self, a: u8, reports: &mut [u32]) -> Result<usize, u64> {
        if a >= self.table.labels {
            return Err(10);
        }
        if self.depth == self.allowed {
            return Err(12);
        }
        if self.positions == i32::MAX as u32 {
            return Err(14);
        }
        let d = self.depth;
        let state = self.table.opening[a as usize] as u64;
        let (below, above) = self.levels.split_at_mut(d + 1);
        let (below, above) = (&below[d], &mut above[0]);
        above[0] = self.table.open(below[0], state);
        for &r in &self.order[..self.alive] {
            above[r as usize] = self.table.open(below[r as usize], state);
        }
        // A level above the newest is not in use: where there is no room, nothing has to be taken back.
        if self.alive == self.room && self.is_crowded(d + 1, state, |level| level.verdict(state)) {
            return Err(15);
        }
        self.labels[d] = a;
        self.depth = d + 1;
        let told = self.settle(reports);
        Ok(self.add(told, state, reports))
    }

    fn point(&mut self, a: u8, reports: &mut [u32]) -> Result<usize, u64> {
        if a >= self.table.labels {
            return Err(10);
        }
        if self.positions == i32::MAX as u32 {
            return Err(14);
        }
        let d = self.depth;
        let a = a as usize;
        let table = &self.table;
        let state = table.point(self.levels[d][0].state, a);
        let stepped = |level: &Level| level.verdict(table.point(level.state, a));
        if self.alive == self.room && self.is_crowded(d, state, stepped) {
            return Err(15);
        }
        let levels = &mut self.levels[d];
        levels[0].state = state;
        for &r in &self.order[..self.alive] {
            let level = &mut levels[r as usize];
            level.state = self.table.point(level.state, a);
        }
        let told = self.settle(reports);
        Ok(self.add(told, state, reports))
    }

    /// A close, with the label that it names, if it names one.
    fn close(&mut self, named: Option<u8>, reports: &mut [u32]) -> Result<usize, u64> {
        if named.is_some_and(|a| a >= self.table.labels) {
            return Err(10);
        }
        if self.depth == 0 {
            return Err(11);
        }
        let d = self.depth;
        if named.is_some_and(|a| a != self.labels[d - 1]) {
            return Err(16);
        }
        let (below, above) = self.levels.split_at_mut(d);
        let (below, above) = (&mut below[d - 1], &above[0]);
        let mut close = |r: usize| {
            let (q, p) = (below[r].state as usize & 63, above[r].state as usize & 63);
            below[r].state = self.table.apply[q][p] as u64;
        };
        close(0);
        for &r in &self.order[..self.alive] {
            close(r as usize);
        }
        self.depth = d - 1;
        Ok(self.settle(reports))
    }

    fn end(&mut self, reports: &mut [u32]) -> Result<usize, u64> {
        if self.depth > 0 {
            return Err(13);
        }
        for (i, &r) in self.order[..self.alive].iter().enumerate() {
            let state = self.levels[0][r as usize].state;
            reports[i] = 2 * self.position[r as usize] + ((self.table.finals >> state) & 1) as u32;
        }
        self.finished = true;
        Ok(std::mem::take(&mut self.alive))
    }

    /// Every row is taken: would all of them stay, and the new position too? Row 0 comes to this state; `after` is a row's verdict
    /// by its level d.
    fn is_crowded(&self, d: usize, state: u64, after: impl Fn(&Level) -> Option<bool>) -> bool {
        let levels = &self.levels[d];
        let new = self.table.mark[state as usize & 63] as u64;
        levels[0].verdict(new).is_none() && self.order[..self.alive].iter().all(|&r| after(&levels[r as usize]).is_none())
    }

    /// Reports the alive rows that are decided; the rest close up. Answers the number of reports.
    fn settle(&mut self, reports: &mut [u32]) -> usize {
        let levels = &self.levels[self.depth];
        let mut left = 0;
        let mut told = 0;
        for i in 0..self.alive {
            let r = self.order[i] as usize;
            match levels[r].verdict(levels[r].state) {
                Some(selected) => {
                    reports[told] = 2 * self.position[r] + selected as u32;
                    told += 1;
                }
                None => {
                    self.order.swap(left, i);
                    left += 1;
                }
            }
        }
        self.alive = left;
        told
    }

    /// The new position: reported if it is decided, a row if not. Answers the number of reports.
    fn add(&mut self, told: usize, state: u64, reports: &mut [u32]) -> usize {
        self.positions += 1;
        let new = self.table.mark[state as usize & 63] as u64;
        let d = self.depth;
        match self.levels[d][0].verdict(new) {
            Some(selected) => {
                reports[told] = 2 * self.positions + selected as u32;
                told + 1
            }
            None => {
                let r = self.order[self.alive] as usize;
                self.position[r] = self.positions;
                for level in &mut self.levels[..=d] {
                    level[r] = level[0];
                }
                self.levels[d][r].state = new;
                self.alive += 1;
                told
            }
        }
    }
}
