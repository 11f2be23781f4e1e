//! The second evaluator: it decides by the meaning of completions, without safe sets, rows or work memory.
//!
//! It keeps the whole stream. The run marked at a position is worked out from the stream's first byte at every event: a stack of
//! states, one for each open level; so are the labels of the open levels. Which states some hedge leads to from a state is found
//! by saturation. From the newest level down to level 0 it works out the end states that some completion reaches: a position is
//! certain if all of them are final, ruled out if none is. Assumed: the file is a table, and the watch was started with these rows and
//! this depth.
//!
//! Beside it, a second judgement of files: by the bytes that are wrong, counted through the whole file.

pub struct Second<'a> {
    file: &'a [u8],
    n: usize,
    k: usize,
    rows: usize,
    depth: usize,
    /// For each state, the states that some hedge leads to from it.
    hedges: Vec<u64>,
    /// The bytes that were taken.
    stream: Vec<u8>,
    /// The positions that no event has decided yet.
    doubt: Vec<u64>,
}

impl<'a> Second<'a> {
    pub fn new(file: &'a [u8], rows: u64, depth: u64) -> Second<'a> {
        let (n, k) = (file[0] as usize, file[1] as usize);
        let mut second = Second {
            file,
            n,
            k,
            rows: rows as usize,
            depth: depth as usize,
            hedges: (0..n).map(|q| 1 << q).collect(),
            stream: vec![],
            doubt: vec![],
        };
        second.saturate();
        second
    }

    fn opening(&self, a: usize) -> usize {
        self.file[29 + a] as usize
    }

    fn point(&self, q: usize, a: usize) -> usize {
        self.file[29 + self.k + q * self.k + a] as usize
    }

    fn mark(&self, q: usize) -> usize {
        self.file[29 + self.k * (1 + self.n) + q] as usize
    }

    /// A(q,p): q waited outside, p is the closing tree's last state.
    fn apply(&self, q: usize, p: usize) -> usize {
        self.file[29 + self.k * (1 + self.n) + self.n * (1 + q) + p] as usize
    }

    fn is_final(&self, q: usize) -> bool {
        self.file[29 + self.k * (1 + self.n) + self.n * (1 + self.n) + q] == 1
    }

    /// Adds pairs until none is left to add: a hedge may be empty, and may go on with a point or with a tree, which is an open,
    /// a hedge and a close.
    fn saturate(&mut self) {
        loop {
            let trees = (0..self.k).fold(0, |all, a| all | self.hedges[self.opening(a)]);
            let mut more = self.hedges.clone();
            for q in 0..self.n {
                for p in states(self.hedges[q]) {
                    for a in 0..self.k {
                        more[q] |= 1 << self.point(p, a);
                    }
                    for last in states(trees) {
                        more[q] |= 1 << self.apply(p, last);
                    }
                }
            }
            if more == self.hedges {
                return;
            }
            self.hedges = more;
        }
    }

    /// The stack of the run marked at a position; at 0, of the run without a mark.
    fn run(&self, marked: u64) -> Vec<usize> {
        let mut stack = vec![self.file[2] as usize];
        let mut position = 0;
        for &byte in &self.stream {
            let q = stack.pop().unwrap();
            if is_close(byte) {
                let outside = stack.pop().unwrap();
                stack.push(self.apply(outside, q));
                continue;
            }
            if byte < 32 {
                stack.push(q);
                stack.push(self.opening(byte as usize));
            } else {
                stack.push(self.point(q, byte as usize - 32));
            }
            position += 1;
            if position == marked {
                let newest = stack.pop().unwrap();
                stack.push(self.mark(newest));
            }
        }
        stack
    }

    /// The states in which some completion ends the run that has come to this stack.
    fn ends(&self, stack: &[usize]) -> u64 {
        let (newest, outer) = stack.split_last().unwrap();
        let mut reached = self.hedges[*newest];
        for &q in outer.iter().rev() {
            let closed: u64 = states(reached).fold(0, |all, p| all | 1 << self.apply(q, p));
            reached = states(closed).fold(0, |all, p| all | self.hedges[p]);
        }
        reached
    }

    /// Certain: true; ruled out: false; alive: nothing.
    fn verdict(&self, position: u64) -> Option<bool> {
        let ends = self.ends(&self.run(position));
        let finals = states(ends).filter(|&q| self.is_final(q)).count() as u32;
        match finals {
            0 => Some(false),
            all if all == ends.count_ones() => Some(true),
            _ => None,
        }
    }

    /// The labels with which the open levels were opened, level 1 first.
    fn open_labels(&self) -> Vec<u8> {
        let mut labels = vec![];
        for &byte in &self.stream {
            if byte < 32 {
                labels.push(byte);
            } else if is_close(byte) {
                labels.pop();
            }
        }
        labels
    }

    fn positions(&self) -> u64 {
        self.stream.iter().filter(|&&b| b < 64).count() as u64
    }

    fn has_ended(&self) -> bool {
        self.stream.last() == Some(&65)
    }

    /// The record that a watch has now.
    pub fn record(&self) -> [u64; 6] {
        let numbers = [self.rows, self.depth, self.open_labels().len(), self.doubt.len()];
        let [rows, depth, now, alive] = numbers.map(|x| x as u64);
        [rows, depth, now, alive, self.positions(), self.has_ended() as u64]
    }

    /// The words of the levels that a watch has now: 1 + the label of an open one, and 0 of the others.
    pub fn level_words(&self) -> Vec<u64> {
        let mut words: Vec<u64> = self.open_labels().iter().map(|&label| label as u64 + 1).collect();
        words.resize(self.depth, 0);
        words
    }

    /// One byte: the reports that have to come at it, or the refusal, of 8 to 16.
    pub fn event(&mut self, byte: u8) -> Result<Vec<u32>, u64> {
        if self.has_ended() {
            return Err(8);
        }
        let open = self.open_labels();
        let depth = open.len();
        match byte {
            98.. => return Err(9),
            0..=63 if byte as usize % 32 >= self.k => return Err(10),
            66..=97 if byte as usize - 66 >= self.k => return Err(10),
            64 | 66..=97 if depth == 0 => return Err(11),
            66..=97 if byte - 66 != open[depth - 1] => return Err(16),
            0..=31 if depth == self.depth => return Err(12),
            65 if depth > 0 => return Err(13),
            _ => {}
        }
        if byte == 65 {
            let told = self.doubt.drain(..).collect::<Vec<_>>();
            let told = told.iter().map(|&i| report(i, self.is_final(self.run(i)[0]))).collect();
            self.stream.push(65);
            return Ok(told);
        }
        self.stream.push(byte);
        let mut asked = self.doubt.clone();
        if byte < 64 {
            asked.push(self.positions());
        }
        let mut told = vec![];
        let mut doubt = vec![];
        for position in asked {
            match self.verdict(position) {
                Some(selected) => told.push(report(position, selected)),
                None => doubt.push(position),
            }
        }
        if doubt.len() > self.rows {
            self.stream.pop();
            return Err(15);
        }
        self.doubt = doubt;
        Ok(told)
    }
}

/// What a file is refused for as a table, 0 where it is one, and for 3 and 5 every wrong place, in file order: entry and field, or body
/// and byte.
pub fn judge_file(file: &[u8]) -> (u64, Vec<[u64; 2]>) {
    if file.len() < 29 {
        return (1, vec![]);
    }
    let [n, k, start] = [0, 1, 2].map(|at| file[at] as usize);
    if n == 0 || n > 64 || k == 0 || k > 32 || start >= n || file[3] != 5 {
        return (2, vec![]);
    }
    let marks = 29 + k * (1 + n);
    let finals = marks + n * (1 + n);
    let borders = [29, 29 + k, marks, marks + n, finals, finals + n];
    let wrong = wrong_fields(file, borders);
    if !wrong.is_empty() {
        return (3, wrong);
    }
    if file.len() != borders[5] {
        return (4, vec![]);
    }
    let wrong = wrong_bytes(file, borders, n as u8);
    (if wrong.is_empty() { 0 } else { 5 }, wrong)
}

/// The contents, held against the 25 bytes that the bodies' borders fix: a wrong byte's place among them says entry and field.
fn wrong_fields(file: &[u8], borders: [usize; 6]) -> Vec<[u64; 2]> {
    let fixed = (0..5).flat_map(|i| {
        let [offset, length] = [borders[i], borders[i + 1] - borders[i]].map(|x| (x as u16).to_le_bytes());
        [i as u8 + 1, offset[0], offset[1], length[0], length[1]]
    });
    let wrong = (0..).zip(file[4..29].iter().zip(fixed)).filter(|(_, (byte, fixed))| *byte != fixed);
    let mut places: Vec<_> = wrong.map(|(at, _)| [at / 5 + 1, (at % 5 + 1) / 2]).collect();
    places.dedup();
    places
}

/// The bodies as one run of bytes, of which those before the final states are below n: a wrong byte's place in the file says body and byte.
fn wrong_bytes(file: &[u8], borders: [usize; 6], n: u8) -> Vec<[u64; 2]> {
    let is_wrong = |at: usize| if at < borders[4] { file[at] >= n } else { file[at] > 1 };
    let place = |at: usize| {
        let body = borders.iter().filter(|&&border| border <= at).count();
        [body as u64, (at - borders[body - 1]) as u64]
    };
    (29..file.len()).filter(|&at| is_wrong(at)).map(place).collect()
}

/// A close, whether it names its label or not.
fn is_close(byte: u8) -> bool {
    byte == 64 || (66..=97).contains(&byte)
}

fn report(position: u64, selected: bool) -> u32 {
    2 * position as u32 + selected as u32
}

fn states(set: u64) -> impl Iterator<Item = usize> {
    (0..64).filter(move |q| (set >> q) & 1 == 1)
}
