//! Lines: what request Three says of the line table, of a line's index by a job of its own, and of the next line.

use crate::job::{open, Answer, State, Step};
use crate::rules::width;

/// Start and end of a line, the end not included.
pub type Line = (usize, usize);

/// What the call of a line tells. Place (counted in the line) and line are 0 unless it is a fault.
#[derive(Clone, Copy, PartialEq, Debug)]
pub struct Indexed {
    pub number: u64,
    pub place: usize,
    pub line: usize,
}

pub const LIMIT: usize = 16_777_216;
const LF: u8 = 10;

/// Nothing but space, tab and CR, or nothing at all.
fn is_blank(line: &[u8]) -> bool {
    line.iter().all(|&byte| byte == b' ' || byte == b'\t' || byte == b'\r')
}

/// All lines that are not blank. Behind a last LF is an empty line, which is blank.
pub fn lines(text: &[u8]) -> Vec<Line> {
    let mut list = Vec::new();
    let mut start = 0;
    for line in text.split(|&byte| byte == LF) {
        let end = start + line.len();
        if !is_blank(line) {
            list.push((start, end));
        }
        start = end + 1;
    }
    list
}

/// How many entries a table of so many numbers has: an odd last one is in none.
pub fn entries(numbers: usize) -> usize {
    numbers / 2
}

/// The table: its number, and how many lines there are.
pub fn table(text: &[u8], numbers: &mut [usize]) -> Answer {
    if text.is_empty() {
        return (1, 0);
    }
    if text.len() > LIMIT {
        return (2, 0);
    }
    let lines = lines(text);
    if lines.len() > entries(numbers.len()) {
        return (31, 0);
    }
    for (i, &(start, end)) in lines.iter().enumerate() {
        numbers[2 * i] = start;
        numbers[2 * i + 1] = end;
    }
    (0, lines.len())
}

/// The bytes of an entry. One that is no part of the text, or behind the table, is the empty line.
pub fn bytes<'a>(text: &'a [u8], numbers: &[usize], line: usize) -> &'a [u8] {
    if line >= entries(numbers.len()) {
        return b"";
    }
    let (start, end) = (numbers[2 * line], numbers[2 * line + 1]);
    if start > end || end > text.len() {
        return b"";
    }
    &text[start..end]
}

fn index_refusal(n: usize, size: usize, levels: usize) -> Option<u64> {
    if n == 0 {
        return Some(1);
    }
    if n > LIMIT {
        return Some(2);
    }
    if !(1..=16).contains(&levels) {
        return Some(3);
    }
    if size < needed(n, levels) {
        return Some(4);
    }
    None
}

/// How many words the index of n bytes has.
fn needed(n: usize, levels: usize) -> usize {
    (2 + 2 * levels) * width(n)
}

/// A job of one chunk over the line's bytes alone.
fn run(line: &[u8], words: &mut [u64], levels: usize) -> Answer {
    let (_, mut job) = open(line, words.len(), levels, &[]);
    for step in [Step::Scan, Step::Settle, Step::Level] {
        if job.state == State::Open {
            job.step(step, words, 0, false);
        }
    }
    job.close(line.len(), words)
}

/// A line indexed in the front of the words.
pub fn index(text: &[u8], numbers: &[usize], line: usize, words: &mut [u64], levels: usize) -> Indexed {
    let bytes = bytes(text, numbers, line);
    if let Some(number) = index_refusal(bytes.len(), words.len(), levels) {
        return Indexed { number, place: 0, line: 0 };
    }
    match run(bytes, &mut words[..needed(bytes.len(), levels)], levels) {
        (0, _) => Indexed { number: 0, place: 0, line: 0 },
        (number, place) => Indexed { number, place, line },
    }
}

/// The first line that is not blank, as if one began at `from`.
pub fn next(text: &[u8], from: usize) -> Option<Line> {
    let mut start = from;
    while start < text.len() {
        let mut end = start;
        while end < text.len() && text[end] != LF {
            end += 1;
        }
        if !is_blank(&text[start..end]) {
            return Some((start, end));
        }
        start = end + 1;
    }
    None
}

#[cfg(test)]
mod tests {
    use super::*;
    use crate::byline::text;
    use crate::random::Random;
    use crate::rules;

    #[test]
    fn next_lines_one_after_another_are_the_table() {
        let mut random = Random::new(12);
        for _ in 0..3_000 {
            let text = text(&mut random);
            let mut walked = Vec::new();
            let mut from = 0;
            while let Some(line) = next(&text, from) {
                walked.push(line);
                from = line.1 + random.below(2);
            }
            assert_eq!(walked, lines(&text), "{}", text.escape_ascii());
        }
    }

    /// The bytes in no entry are LFs and blanks, each entry has a byte that is neither, and no LF.
    #[test]
    fn what_is_in_no_line() {
        let mut random = Random::new(13);
        for _ in 0..3_000 {
            let text = text(&mut random);
            let mut numbers = vec![7; 2 * text.len() + 1];
            let (number, count) = table(&text, &mut numbers);
            assert_eq!((number, numbers[2 * count]), (u64::from(text.is_empty()), 7));
            let inside = |at: usize| numbers[..2 * count].chunks(2).any(|entry| entry[0] <= at && at < entry[1]);
            assert!((0..text.len()).all(|at| inside(at) || b" \t\r\n".contains(&text[at])), "{}", text.escape_ascii());
            for line in 0..count {
                let bytes = bytes(&text, &numbers, line);
                assert!(!bytes.contains(&b'\n') && bytes.iter().any(|byte| !b" \t\r".contains(byte)), "{}", text.escape_ascii());
            }
        }
    }

    /// What one pass over a record of the line's bytes gives, in front; what is behind stays.
    #[test]
    fn a_line_is_indexed_as_a_record_of_its_bytes() {
        let mut random = Random::new(14);
        let mut faults = 0;
        for _ in 0..3_000 {
            let (text, levels, more) = (text(&mut random), 1 + random.below(16), random.below(3));
            for (line, &(start, end)) in lines(&text).iter().enumerate() {
                let (fault, index_words) = rules::index(&text[start..end], levels);
                let mut words = vec![9; index_words.len() + more];
                let mut numbers = vec![0; 2 * line];
                numbers.extend([start, end]);
                let (number, place) = fault.unwrap_or((0, 0));
                let said = Indexed { number, place, line: if fault.is_some() { line } else { 0 } };
                assert_eq!(index(&text, &numbers, line, &mut words, levels), said, "{}", text.escape_ascii());
                assert_eq!(words, [index_words, vec![9; more]].concat());
                faults += usize::from(number != 0);
            }
        }
        assert!(faults > 1_000, "only {faults} lines had a fault");
    }

    #[test]
    fn the_limit_of_a_text_and_of_a_line() {
        let mut text = vec![b'x'; LIMIT + 1];
        let mut numbers = [5; 3];
        assert_eq!((table(&text, &mut numbers), numbers), ((2, 0), [5; 3]));
        assert_eq!((table(&text[..LIMIT], &mut numbers), numbers), ((0, 1), [0, LIMIT, 5]));
        let told = |start: usize, end: usize, levels: usize| index(&text, &[start, end], 0, &mut [0; 4], levels).number;
        assert_eq!(told(0, LIMIT + 1, 0), 2);
        assert_eq!([told(1, LIMIT + 1, 0), told(1, LIMIT + 1, 1), told(0, LIMIT, 16)], [3, 4, 4]);
        // a line is within the limit wherever it lies, and a next line has none
        text.push(b']');
        assert_eq!(index(&text, &[0, 0, LIMIT, LIMIT + 2], 1, &mut [0; 4], 1), Indexed { number: 13, place: 1, line: 1 });
        assert_eq!((next(&text, 0), next(&text, LIMIT + 1)), (Some((0, LIMIT + 2)), Some((LIMIT + 1, LIMIT + 2))));
        text.fill(b' ');
        assert_eq!((table(&text, &mut []), table(&text[2..], &mut []), next(&text, 0)), ((2, 0), (0, 0), None));
    }

    #[test]
    fn a_refused_call_leaves_every_word() {
        let mut words = [9; 5];
        let calls = [(0, 1, 4), (0, 0, 3), (0, 17, 3), (0, usize::MAX, 3), (1, 1, 1), (2, 0, 1), (usize::MAX, 1, 1)];
        for (line, levels, number) in calls {
            let told = index(b"[]]", &[0, 3, 2, 4, 0], line, &mut words[..3], levels);
            assert_eq!((told, words), (Indexed { number, place: 0, line: 0 }, [9; 5]));
        }
        assert_eq!(index(b"[]]", &[0, 3], 0, &mut words, 1), Indexed { number: 13, place: 2, line: 0 });
        assert_eq!(words, [0, 0, 0, 0, 9]);
    }
}
