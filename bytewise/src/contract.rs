//! The job as its contracts describe it, byte by byte, on all inputs: for an older job, another record of the same length and
//! other words too. A call goes by what the chunks keep and by the record and the words as they are lent to it.

use crate::job::{Answer, State, Step};
use crate::rules::{escaped, get_bit, is_closer, is_opener, row, set_bits, width, Bitmap, Fault};

/// How brackets move the depth: the change, and the lowest and the highest depth met, all from 0 on.
#[derive(Clone, Copy, Default)]
struct Swing {
    net: i64,
    low: i64,
    high: i64,
}

#[derive(Clone)]
struct Chunk {
    from: usize,
    to: usize,
    scanned: bool,
    settled: bool,
    levelled: bool,
    /// The guess, and from settle on the state at the border.
    inside: bool,
    odd: bool,
    swing: Swing,
    start: i64,
}

#[derive(Clone)]
pub struct Job {
    n: usize,
    size: usize,
    levels: usize,
    state: State,
    chunks: Vec<Chunk>,
}

/// A job whose chunks, from and to, have had no step.
pub fn opened(n: usize, size: usize, levels: usize, state: State, spans: impl Iterator<Item = (usize, usize)>) -> Job {
    let fresh = |(from, to)| Chunk {
        from,
        to,
        scanned: false,
        settled: false,
        levelled: false,
        inside: false,
        odd: false,
        swing: Swing::default(),
        start: 0,
    };
    Job { n, size, levels, state, chunks: spans.map(fresh).collect() }
}

/// 1 for an opener outside strings by this mask, -1 for a closer, else 0.
fn bracket(record: &[u8], i: usize, mask: impl Fn(usize) -> bool) -> i64 {
    match record[i] {
        _ if mask(i) => 0,
        byte if is_opener(byte) => 1,
        byte if is_closer(byte) => -1,
        _ => 0,
    }
}

fn swing(record: &[u8], from: usize, to: usize, mask: impl Fn(usize) -> bool) -> Swing {
    let mut s = Swing::default();
    for i in from..to {
        s.net += bracket(record, i, &mask);
        s.low = s.low.min(s.net);
        s.high = s.high.max(s.net);
    }
    s
}

/// The first closer at depth 0 or opener at depth 64.
fn seek(record: &[u8], from: usize, to: usize, start: i64, mask: impl Fn(usize) -> bool) -> Option<Fault> {
    let mut depth = start;
    for i in from..to {
        let change = bracket(record, i, &mask);
        if change == 1 && depth == 64 {
            return Some((14, i));
        }
        if change == -1 && depth == 0 {
            return Some((13, i));
        }
        depth += change;
    }
    None
}

impl Chunk {
    fn inside_behind(&self) -> bool {
        self.inside != self.odd
    }

    fn depth_behind(&self) -> i64 {
        (self.start + self.swing.net).clamp(0, 64)
    }

    /// Of the record as lent, whatever the words held.
    fn scan(&mut self, record: &[u8], words: &mut [u64], guess: bool) {
        let (n, from, to) = (record.len(), self.from, self.to);
        let quote = |i: usize| record[i] == b'"' && !escaped(record, i);
        let mut mask = vec![guess];
        for i in from..to {
            mask.push(mask[i - from] != quote(i));
        }
        set_bits(words, n, Bitmap::Quotes, from, to, quote);
        set_bits(words, n, Bitmap::Mask, from, to, |i| mask[i - from]);
        self.inside = guess;
        self.odd = (from..to).filter(|&i| quote(i)).count() % 2 == 1;
        self.swing = swing(record, from, to, |i| mask[i - from]);
        self.scanned = true;
    }

    /// The mask as lent is turned over where the guess was wrong, at the places of the record only, and the brackets are
    /// counted by it; under a right guess neither is looked at.
    fn settle(&mut self, record: &[u8], words: &mut [u64], inside: bool, start: i64) {
        let n = record.len();
        if self.inside != inside {
            for i in self.from..self.to {
                words[row(Bitmap::Mask) * width(n) + i / 64] ^= 1 << (i % 64);
            }
            self.swing = swing(record, self.from, self.to, |i| get_bit(words, n, Bitmap::Mask, i));
        }
        self.inside = inside;
        self.start = start;
        self.settled = true;
    }

    /// The place is looked for only where the counts announce a fault, and by the mask that the words have now.
    fn fault(&self, record: &[u8], words: &[u64], last: bool) -> Option<Fault> {
        let n = record.len();
        if self.start + self.swing.low < 0 || self.start + self.swing.high > 64 {
            let found = seek(record, self.from, self.to, self.start, |i| get_bit(words, n, Bitmap::Mask, i));
            if found.is_some() {
                return found;
            }
        }
        match (last, self.inside_behind(), self.depth_behind()) {
            (true, true, _) => Some((15, n)),
            (true, false, 1..) => Some((16, n)),
            _ => None,
        }
    }

    /// By the mask as lent and the starting depth.
    fn level(&mut self, record: &[u8], words: &mut [u64], levels: usize) {
        let (n, from, to) = (record.len(), self.from, self.to);
        let mask: Vec<bool> = (from..to).map(|i| get_bit(words, n, Bitmap::Mask, i)).collect();
        let mut depth = vec![self.start];
        for i in from..to {
            depth.push(depth[i - from] + bracket(record, i, |i| mask[i - from]));
        }
        let at = |i: usize, byte: u8, k: usize| record[i] == byte && !mask[i - from] && depth[i - from] == k as i64;
        for k in 1..=levels {
            set_bits(words, n, Bitmap::Colons(k), from, to, |i| at(i, b':', k));
            set_bits(words, n, Bitmap::Commas(k), from, to, |i| at(i, b',', k));
        }
        self.levelled = true;
    }
}

impl Job {
    fn fits(&self, record: &[u8], words: &[u64]) -> bool {
        record.len() == self.n && words.len() == self.size
    }

    /// The conditions of 7 to 12; the first that holds refuses.
    fn refused(&self, step: Step, record: &[u8], words: &[u64], k: usize) -> Option<u64> {
        let before = k == 0 || self.chunks.get(k - 1).is_some_and(|c| c.settled);
        let (taken, ready) = match (self.chunks.get(k), step) {
            (None, _) => (false, false),
            (Some(c), Step::Scan) => (c.scanned, true),
            (Some(c), Step::Settle) => (c.settled, c.scanned && before),
            (Some(c), Step::Level) => (c.levelled, c.settled),
        };
        let checks = [
            (7, self.state == State::Closed),
            (8, matches!(self.state, State::Stopped(_))),
            (9, !self.fits(record, words)),
            (10, self.chunks.len() <= k),
            (11, taken),
            (12, !ready),
        ];
        checks.into_iter().find(|check| check.1).map(|check| check.0)
    }

    pub fn step(&mut self, step: Step, record: &[u8], words: &mut [u64], k: usize, guess: bool) -> Answer {
        if let Some(number) = self.refused(step, record, words, k) {
            return (number, 0);
        }
        match step {
            Step::Scan => self.chunks[k].scan(record, words, guess),
            Step::Settle => return self.settle(record, words, k),
            Step::Level => self.chunks[k].level(record, words, self.levels),
        }
        (0, 0)
    }

    fn settle(&mut self, record: &[u8], words: &mut [u64], k: usize) -> Answer {
        let (inside, start) = match k {
            0 => (false, 0),
            _ => (self.chunks[k - 1].inside_behind(), self.chunks[k - 1].depth_behind()),
        };
        let last = k + 1 == self.chunks.len();
        self.chunks[k].settle(record, words, inside, start);
        match self.chunks[k].fault(record, words, last) {
            None => (0, 0),
            Some(fault) => {
                self.state = State::Stopped(fault);
                fault
            }
        }
    }

    pub fn close(&mut self, record: &[u8], words: &mut [u64]) -> Answer {
        if self.state == State::Closed {
            return (7, 0);
        }
        if !self.fits(record, words) {
            return (9, 0);
        }
        let answer = match self.state {
            State::Stopped(fault) => fault,
            _ if self.chunks.iter().all(|c| c.levelled) => (0, 0),
            _ => return (12, 0),
        };
        if answer.0 != 0 {
            words.fill(0);
        }
        self.state = State::Closed;
        answer
    }

    /// 0 or 10, the number of chunks, and the steps that chunk k has had.
    pub fn ask(&self, k: usize) -> (u64, usize, usize) {
        let steps = |c: &Chunk| usize::from(c.scanned) + 2 * usize::from(c.settled) + 4 * usize::from(c.levelled);
        (if k < self.chunks.len() { 0 } else { 10 }, self.chunks.len(), self.chunks.get(k).map_or(0, steps))
    }
}
