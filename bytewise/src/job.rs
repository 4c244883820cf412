//! The job: section 'The job', and the table of numbers.

use crate::rules::{set_bits, truth, width, Bitmap, Fault, Truth};

/// What a call gives: a number, and the value beside it (0 where there is none).
pub type Answer = (u64, usize);

#[derive(Clone, Copy, PartialEq)]
pub enum State {
    Open,
    Stopped(Fault),
    Closed,
}

#[derive(Clone, Copy, PartialEq)]
pub enum Step {
    Scan,
    Settle,
    Level,
}

#[derive(Clone)]
pub struct Chunk {
    pub from: usize,
    pub to: usize,
    pub had: [bool; 3],
}

#[derive(Clone)]
pub struct Job {
    pub n: usize,
    pub size: usize,
    pub levels: usize,
    pub state: State,
    pub chunks: Vec<Chunk>,
    pub record: Vec<u8>,
    truth: Truth,
}

pub fn closed() -> Job {
    Job { n: 0, size: 0, levels: 0, state: State::Closed, chunks: Vec::new(), record: Vec::new(), truth: truth(b"") }
}

fn open_refusal(n: usize, size: usize, levels: usize, cuts: &[usize]) -> Option<Answer> {
    if n == 0 {
        return Some((1, 0));
    }
    if n > 16_777_216 {
        return Some((2, 0));
    }
    if !(1..=16).contains(&levels) {
        return Some((3, 0));
    }
    if size != (2 + 2 * levels) * width(n) {
        return Some((4, 0));
    }
    if cuts.len() > 63 {
        return Some((5, 0));
    }
    for (i, &cut) in cuts.iter().enumerate() {
        if cut % 64 != 0 || cut == 0 || cut >= n || (i > 0 && cut <= cuts[i - 1]) {
            return Some((6, i));
        }
    }
    None
}

pub fn open(record: &[u8], size: usize, levels: usize, cuts: &[usize]) -> (Answer, Job) {
    let n = record.len();
    if let Some(refusal) = open_refusal(n, size, levels, cuts) {
        return (refusal, closed());
    }
    let mut borders = vec![0];
    borders.extend_from_slice(cuts);
    borders.push(n);
    let chunks = borders.windows(2).map(|b| Chunk { from: b[0], to: b[1], had: [false; 3] }).collect();
    ((0, 0), Job { n, size, levels, state: State::Open, chunks, record: record.to_vec(), truth: truth(record) })
}

impl Job {
    fn other_length(&self, n: usize, size: usize) -> bool {
        n != self.n || size != self.size
    }

    /// 7 to 12 in that order.
    pub fn step_refusal(&self, step: Step, n: usize, size: usize, k: usize) -> Option<Answer> {
        if self.state == State::Closed {
            return Some((7, 0));
        }
        if self.state != State::Open {
            return Some((8, 0));
        }
        if self.other_length(n, size) {
            return Some((9, 0));
        }
        if k >= self.chunks.len() {
            return Some((10, 0));
        }
        let had = self.chunks[k].had;
        if had[step as usize] {
            return Some((11, 0));
        }
        let ready = match step {
            Step::Scan => true,
            Step::Settle => had[0] && (k == 0 || self.chunks[k - 1].had[1]),
            Step::Level => had[1],
        };
        if ready {
            None
        } else {
            Some((12, 0))
        }
    }

    /// An accepted step, on the record with which the job was opened.
    pub fn step(&mut self, step: Step, words: &mut [u64], k: usize, guess: bool) -> Answer {
        let (from, to) = (self.chunks[k].from, self.chunks[k].to);
        let answer = match step {
            Step::Scan => self.scan(words, from, to, guess),
            Step::Settle => self.settle(words, from, to),
            Step::Level => self.level(words, from, to),
        };
        self.mark(step, k, answer);
        answer
    }

    /// A step was taken, and answered so.
    pub fn mark(&mut self, step: Step, k: usize, answer: Answer) {
        self.chunks[k].had[step as usize] = true;
        if answer.0 != 0 {
            self.state = State::Stopped(answer);
        }
    }

    fn scan(&self, words: &mut [u64], from: usize, to: usize, guess: bool) -> Answer {
        let quote = &self.truth.quote;
        set_bits(words, self.n, Bitmap::Quotes, from, to, |i| quote[i]);
        let mut inside = vec![guess; to - from];
        for i in from + 1..to {
            inside[i - from] = inside[i - 1 - from] != quote[i - 1];
        }
        set_bits(words, self.n, Bitmap::Mask, from, to, |i| inside[i - from]);
        (0, 0)
    }

    fn settle(&self, words: &mut [u64], from: usize, to: usize) -> Answer {
        let mask = &self.truth.mask;
        set_bits(words, self.n, Bitmap::Mask, from, to, |i| mask[i]);
        match self.truth.fault {
            Some((number, place)) if place >= from && (place < to || to == self.n) => (number, place),
            _ => (0, 0),
        }
    }

    fn level(&self, words: &mut [u64], from: usize, to: usize) -> Answer {
        let t = &self.truth;
        let at = |i: usize, byte: u8, k: usize| self.record[i] == byte && !t.mask[i] && t.depth[i] == k as i64;
        for k in 1..=self.levels {
            set_bits(words, self.n, Bitmap::Colons(k), from, to, |i| at(i, b':', k));
            set_bits(words, self.n, Bitmap::Commas(k), from, to, |i| at(i, b',', k));
        }
        (0, 0)
    }

    pub fn close(&mut self, n: usize, words: &mut [u64]) -> Answer {
        if self.state == State::Closed {
            return (7, 0);
        }
        if self.other_length(n, words.len()) {
            return (9, 0);
        }
        match self.state {
            State::Stopped(fault) => {
                words.fill(0);
                self.state = State::Closed;
                fault
            }
            _ if self.chunks.iter().any(|c| !c.had[2]) => (12, 0),
            _ => {
                self.state = State::Closed;
                (0, 0)
            }
        }
    }

    /// 0 or 10, the number of chunks, and the steps that chunk k has had.
    pub fn ask(&self, k: usize) -> (u64, usize, usize) {
        match self.chunks.get(k) {
            None => (10, self.chunks.len(), 0),
            Some(c) => (0, self.chunks.len(), usize::from(c.had[0]) + 2 * usize::from(c.had[1]) + 4 * usize::from(c.had[2])),
        }
    }
}
