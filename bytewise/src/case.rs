//! A case: the calls that `trial` reads, and the line that it must print for them.

use crate::handed::{closed, open, Handed};
use crate::job::{Answer, Step};
use crate::lines::{self, Indexed, Line};
use crate::path::{query, Found};
use crate::rules::width;

/// A call is lent one byte less of the record, or one word less.
pub const SHORT_RECORD: u8 = 2;
pub const SHORT_WORDS: u8 = 4;

/// For so many numbers of a table, bytes of a record and words `trial` has room.
pub const NUMBERS_ROOM: usize = 128;
pub const RECORD_ROOM: usize = 65_536;
pub const WORDS_ROOM: usize = 8_192;

pub struct Case {
    pub calls: Vec<u8>,
    pub line: String,
    pub record: Vec<u8>,
    pub words: Vec<u64>,
    /// The numbers of the line table.
    pub table: Vec<usize>,
    pub job: Handed,
    kept: Handed,
    digest: u64,
    /// How often each number was given.
    pub seen: [u64; 32],
}

/// The number of words for a record of n bytes.
pub fn size(n: usize, levels: usize) -> usize {
    (2 + 2 * levels) * width(n)
}

fn mix(digest: u64, word: u64) -> u64 {
    let turned = digest.rotate_left(23) ^ word;
    (turned ^ (turned >> 29)).wrapping_add(0x9E37_79B9_7F4A_7C15)
}

impl Case {
    #[allow(clippy::new_without_default)] // nobody makes one by default
    pub fn new() -> Case {
        Case {
            calls: Vec::new(),
            line: String::new(),
            record: Vec::new(),
            words: Vec::new(),
            table: Vec::new(),
            job: closed(),
            kept: closed(),
            digest: 0,
            seen: [0; 32],
        }
    }

    fn head(&mut self, letter: u8, flag: u8, levels: usize, length: usize, value: u64) {
        self.calls.push(letter);
        self.calls.push(flag);
        self.calls.extend_from_slice(&(levels as u16).to_le_bytes());
        self.calls.extend_from_slice(&(length as u32).to_le_bytes());
        self.calls.extend_from_slice(&value.to_le_bytes());
    }

    fn lent_bytes(&self, flag: u8) -> usize {
        self.record.len() - usize::from(flag & SHORT_RECORD != 0 && !self.record.is_empty())
    }

    fn lent_words(&self, flag: u8) -> usize {
        self.words.len() - usize::from(flag & SHORT_WORDS != 0 && !self.words.is_empty())
    }

    pub fn set_record(&mut self, record: &[u8]) {
        assert!(record.len() <= RECORD_ROOM, "a record of {} bytes", record.len());
        self.head(b'R', 0, 0, record.len(), 0);
        self.calls.extend_from_slice(record);
        self.record = record.to_vec();
    }

    /// So many words, with contents from a seed.
    pub fn set_words(&mut self, count: usize, seed: u64) {
        assert!(count <= WORDS_ROOM, "{count} words");
        self.head(b'W', 0, 0, count, seed);
        let mut x = seed;
        self.words.clear();
        for _ in 0..count {
            x = x.wrapping_add(0x9E37_79B9_7F4A_7C15);
            self.words.push(x ^ (x >> 31));
        }
    }

    /// The line table that is lent from now on. A case that makes one or goes by one sets it first: the program's stays.
    pub fn set_table(&mut self, numbers: &[usize]) {
        assert!(numbers.len() <= NUMBERS_ROOM, "a table of {} numbers", numbers.len());
        self.head(b'G', 0, 0, 8 * numbers.len(), 0);
        for &number in numbers {
            self.calls.extend_from_slice(&(number as u64).to_le_bytes());
        }
        self.table = numbers.to_vec();
    }

    pub fn damage(&mut self, at: usize, by: u64) {
        self.head(b'D', 0, 0, at, by);
        if at < self.words.len() {
            self.words[at] ^= by;
        }
    }

    /// A copy of the job is kept, and later handed in again.
    pub fn keep(&mut self) {
        self.head(b'K', 0, 0, 0, 0);
        self.kept = self.job.clone();
    }

    pub fn hand_in(&mut self) {
        self.head(b'H', 0, 0, 0, 0);
        self.job = self.kept.clone();
    }

    /// The words as lent go into the digest.
    fn digest_words(&mut self, lent: usize) {
        self.digest = self.words[..lent].iter().fold(self.digest, |digest, &word| mix(digest, word));
    }

    /// Of a call that may write words: its answer, and the words.
    fn told(&mut self, (number, place): Answer, lent: usize) {
        self.seen[number as usize] += 1;
        self.line.push_str(&format!(" {number}@{place}"));
        self.digest_words(lent);
    }

    /// Of a table: its number and how many lines there are, and all the numbers that are lent go into the digest.
    fn told_table(&mut self, (number, count): Answer) {
        self.seen[number as usize] += 1;
        self.line.push_str(&format!(" {number}@{count}"));
        self.digest = self.table.iter().fold(self.digest, |digest, &number| mix(digest, number as u64));
    }

    /// Of a query: where the part lies or the place it tells, its step, and the low half of a digest of the part's bytes. A
    /// refused query's part is empty.
    fn told_part(&mut self, found: Found, record: &[u8]) {
        let Found { number, start, end, step } = found;
        self.seen[number as usize] += 1;
        let part = if number == 0 { &record[start..end] } else { &record[..0] };
        let digest = part.iter().fold(0, |digest, &byte| mix(digest, u64::from(byte)));
        self.line.push_str(&format!(" {number}@{start}/{step}+{}:{:08x}", part.len(), digest as u32));
    }

    pub fn open(&mut self, flag: u8, levels: usize, cuts: &[usize]) -> Answer {
        self.head(b'O', flag, levels, 8 * cuts.len(), 0);
        for &cut in cuts {
            self.calls.extend_from_slice(&(cut as u64).to_le_bytes());
        }
        let lent = self.lent_words(flag);
        let (answer, job) = open(&self.record[..self.lent_bytes(flag)], &self.words[..lent], levels, cuts);
        self.job = job;
        self.told(answer, lent);
        answer
    }

    pub fn step(&mut self, step: Step, flag: u8, k: usize, guess: bool) -> Answer {
        let letter = match step {
            Step::Scan => b'S',
            Step::Settle => b'T',
            Step::Level => b'L',
        };
        self.head(letter, flag | u8::from(guess), 0, 0, k as u64);
        let (n, lent) = (self.lent_bytes(flag), self.lent_words(flag));
        let answer = self.job.step(step, &self.record[..n], &mut self.words[..lent], k, guess);
        self.told(answer, lent);
        answer
    }

    pub fn close(&mut self, flag: u8) -> Answer {
        self.head(b'C', flag, 0, 0, 0);
        let (n, lent) = (self.lent_bytes(flag), self.lent_words(flag));
        let answer = self.job.close(&self.record[..n], &mut self.words[..lent]);
        self.told(answer, lent);
        answer
    }

    pub fn ask(&mut self, k: usize) {
        self.head(b'A', 0, 0, 0, k as u64);
        let (number, chunks, had) = self.job.ask(k);
        self.seen[number as usize] += 1;
        self.line.push_str(&format!(" {number}@{chunks}+{had}"));
    }

    pub fn query(&mut self, flag: u8, levels: usize, path: &[u8]) -> Found {
        self.head(b'Q', flag, levels, path.len(), 0);
        self.calls.extend_from_slice(path);
        let record = self.record[..self.lent_bytes(flag)].to_vec();
        let found = query(&record, &self.words[..self.lent_words(flag)], levels, path);
        self.told_part(found, &record);
        found
    }

    /// The line table of the record.
    pub fn make_table(&mut self, flag: u8) -> Answer {
        self.head(b'N', flag, 0, 0, 0);
        let n = self.lent_bytes(flag);
        let answer = lines::table(&self.record[..n], &mut self.table);
        self.told_table(answer);
        answer
    }

    /// A line of the lent table indexed, whoever made that table.
    pub fn index_line(&mut self, flag: u8, levels: usize, line: usize) -> Indexed {
        self.head(b'I', flag, levels, 0, line as u64);
        let (n, lent) = (self.lent_bytes(flag), self.lent_words(flag));
        let indexed = lines::index(&self.record[..n], &self.table, line, &mut self.words[..lent], levels);
        let Indexed { number, place, line } = indexed;
        self.seen[number as usize] += 1;
        self.line.push_str(&format!(" {number}@{place}+{line}"));
        self.digest_words(lent);
        indexed
    }

    pub fn next_line(&mut self, flag: u8, from: usize) -> Option<Line> {
        self.head(b'F', flag, 0, 0, from as u64);
        let next = lines::next(&self.record[..self.lent_bytes(flag)], from);
        let (start, end) = next.unwrap_or((0, 0));
        self.seen[0] += 1;
        self.line.push_str(&format!(" 0@{start}+{end}"));
        next
    }

    /// A record of one byte more than the limit: its line table, then asked for `$`, then opened. It is too long to be written down.
    pub fn beyond(&mut self, levels: usize) {
        self.head(b'B', 0, levels, 0, 0);
        let record = vec![b' '; 16_777_217];
        let tabled = lines::table(&record, &mut self.table);
        self.told_table(tabled);
        self.told_part(query(&record, &self.words, levels, b"$"), &record);
        let (answer, job) = open(&record, &self.words, levels, &[64]);
        self.job = job;
        self.told(answer, self.words.len());
    }

    /// Every chunk in order, with the guesses of `guess`; then close. What the settles found, and what close answered.
    pub fn plain_run(&mut self, levels: usize, cuts: &[usize], guess: impl Fn(usize) -> bool) -> (Option<Answer>, Answer) {
        let (count, seed) = (size(self.record.len(), levels), 77 + self.record.len() as u64);
        self.set_words(count, seed);
        self.open(0, levels, cuts);
        for k in (0..=cuts.len()).rev() {
            self.step(Step::Scan, 0, k, guess(k));
        }
        let mut fault = None;
        for k in 0..=cuts.len() {
            let settled = self.step(Step::Settle, 0, k, false);
            if settled.0 >= 13 {
                fault = Some(settled);
            }
            self.step(Step::Level, 0, k, false);
        }
        (fault, self.close(0))
    }

    pub fn end(&mut self) {
        self.head(b'E', 0, 0, 0, 0);
        let digest = self.digest;
        self.line.push_str(&format!(" {digest:016x}\n"));
    }
}

/// Number and step of each query, read off a line.
#[cfg(test)]
pub fn queries(line: &str) -> Vec<(u64, usize)> {
    let told = |word: &str| {
        let (number, rest) = word.split_once('@')?;
        let (_, behind) = rest.split_once('/')?;
        let (step, _) = behind.split_once('+')?;
        Some((number.parse().ok()?, step.parse().ok()?))
    };
    line.split_whitespace().filter_map(told).collect()
}

#[cfg(test)]
mod tests {
    use super::*;

    #[test]
    fn a_query_tells_number_place_step_and_part() {
        let mut case = Case::new();
        case.set_record(b" [1,]");
        case.plain_run(1, &[], |_| false);
        let before = case.line.len();
        for path in ["$[0]", "$[1]", "$.a", "$.", "$[0][0]"] {
            case.query(0, 1, path.as_bytes());
        }
        let told: Vec<&str> = case.line[before..].split_whitespace().collect();
        assert!(told[0].starts_with("0@2/0+1:") && !told[0].ends_with(":00000000"), "{}", told[0]);
        assert_eq!(told[1..], ["29@4/1+0:00000000", "23@1/1+0:00000000", "20@2/0+0:00000000", "22@0/0+0:00000000"]);
        assert_eq!(queries(&case.line), [(0, 0), (29, 1), (23, 1), (20, 0), (22, 0)]);
    }
    #[test]
    fn what_the_calls_of_lines_tell() {
        let mut case = Case::new();
        case.set_record(b"[1]\n \n]\n");
        case.set_words(5, 1);
        case.set_table(&[7, 258, 9]);
        assert_eq!(case.calls[case.calls.len() - 40..][..8], [b'G', 0, 0, 0, 24, 0, 0, 0]);
        assert_eq!(case.calls[case.calls.len() - 16..], [2, 1, 0, 0, 0, 0, 0, 0, 9, 0, 0, 0, 0, 0, 0, 0]);
        case.make_table(0);
        case.set_table(&[0; 5]);
        case.make_table(0);
        for line in [0, 1, usize::MAX] {
            case.index_line(SHORT_WORDS, 1, line);
        }
        assert_eq!(case.calls[case.calls.len() - 16..], [b'I', 4, 1, 0, 0, 0, 0, 0, 255, 255, 255, 255, 255, 255, 255, 255]);
        for from in [1, 3, 7] {
            case.next_line(SHORT_RECORD, from);
        }
        assert_eq!(case.calls[case.calls.len() - 16..], [b'F', 2, 0, 0, 0, 0, 0, 0, 7, 0, 0, 0, 0, 0, 0, 0]);
        assert_eq!(case.line, " 31@0 0@2 0@0+0 13@0+1 1@0+0 0@1+3 0@6+7 0@0+0");
        assert_eq!((case.table, case.seen[31]), (vec![0, 3, 6, 7, 0], 1));
    }

    /// The digest goes on from the words of a line, or from the numbers of a table, each a word.
    #[test]
    fn what_goes_into_the_digest() {
        let mut case = Case::new();
        case.set_record(b"7\n");
        case.set_words(5, 1);
        case.set_table(&[5, 6, 8]);
        case.make_table(0);
        let tabled = [0, 1, 8].into_iter().fold(0, mix);
        assert_eq!(case.digest, tabled);
        case.next_line(0, 0);
        case.index_line(SHORT_WORDS, 1, 0);
        assert_eq!(case.digest, [0, 0, 0, 0].into_iter().fold(tabled, mix));
    }
}
