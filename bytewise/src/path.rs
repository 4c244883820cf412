//! Section 'Paths' as requests One and Two amend it: reading a path, the walk by the bits that are lent, and what a refusal tells.

use crate::names;
use crate::rules::{get_bit, width, Bitmap};

pub enum Step {
    Name(Vec<u8>),
    Number(u64),
}

/// What a query tells. A refusal has the empty part, and the place it tells is both start and end: of 20 in the path, of 23 to
/// 30 in the record, else 0.
#[derive(Clone, Copy, Debug, PartialEq, Eq)]
pub struct Found {
    pub number: u64,
    pub start: usize,
    pub end: usize,
    /// Of 23 to 30 the path step, from 1; of an all-blank record and all else 0.
    pub step: usize,
}

pub const fn part(start: usize, end: usize) -> Found {
    Found { number: 0, start, end, step: 0 }
}

/// A refusal that tells neither step nor place.
pub const fn refused(number: u64) -> Found {
    told(number, 0, 0)
}

/// A refusal that tells a place, and from 23 on the path step.
pub const fn told(number: u64, step: usize, place: usize) -> Found {
    Found { number, start: place, end: place, step }
}

#[derive(Clone, Copy, PartialEq)]
enum At {
    Start,
    Whole,
    Dot,
    Name,
    Bracket,
    Zero,
    Number,
}

/// Where reading goes on from a state by a byte, if it can.
fn next(at: At, byte: u8) -> Option<At> {
    let step = match byte {
        b'.' => Some(At::Dot),
        b'[' => Some(At::Bracket),
        _ => None,
    };
    match at {
        At::Start => (byte == b'$').then_some(At::Whole),
        At::Whole => step,
        At::Dot => (byte.is_ascii_alphabetic() || byte == b'_').then_some(At::Name),
        At::Name if byte.is_ascii_alphanumeric() || byte == b'_' => Some(At::Name),
        At::Name => step,
        At::Bracket if byte == b'0' => Some(At::Zero),
        At::Bracket => byte.is_ascii_digit().then_some(At::Number),
        At::Zero => (byte == b']').then_some(At::Whole),
        At::Number if byte.is_ascii_digit() => Some(At::Number),
        At::Number => (byte == b']').then_some(At::Whole),
    }
}

/// The steps, or the place of 20.
pub fn read(path: &[u8]) -> Result<Vec<Step>, usize> {
    let mut at = At::Start;
    let mut steps = Vec::new();
    for (p, &byte) in path.iter().enumerate() {
        at = next(at, byte).ok_or(p)?;
        match (at, steps.last_mut()) {
            (At::Dot, _) => steps.push(Step::Name(Vec::new())),
            (At::Bracket, _) => steps.push(Step::Number(0)),
            (At::Name, Some(Step::Name(name))) => name.push(byte),
            (At::Zero | At::Number, Some(Step::Number(m))) => *m = m.saturating_mul(10).saturating_add(u64::from(byte - b'0')),
            _ => {}
        }
    }
    if at == At::Whole || at == At::Name {
        Ok(steps)
    } else {
        Err(path.len())
    }
}

fn is_blank(byte: u8) -> bool {
    matches!(byte, b' ' | b'\t' | b'\n' | b'\r')
}

/// From the first of two places up to the other, which is not included.
type Span = (usize, usize);

/// Without blanks at its ends.
fn trim(record: &[u8], (mut a, mut e): Span) -> Span {
    while a < e && is_blank(record[a]) {
        a += 1;
    }
    while a < e && is_blank(record[e - 1]) {
        e -= 1;
    }
    (a, e)
}

/// What lies between a value's first and last byte, cut at the commas of level k.
fn items(record: &[u8], words: &[u64], k: usize, (a, e): Span) -> Vec<Span> {
    if (a + 1..e - 1).all(|i| is_blank(record[i])) {
        return Vec::new();
    }
    let mut items = Vec::new();
    let mut from = a + 1;
    for i in a + 1..e - 1 {
        if get_bit(words, record.len(), Bitmap::Commas(k), i) {
            items.push((from, i));
            from = i + 1;
        }
    }
    items.push((from, e - 1));
    items
}

/// What is left without end blanks; 29 where that is nothing.
fn value(record: &[u8], span: Span) -> Result<Span, u64> {
    let (a, e) = trim(record, span);
    if a < e {
        Ok((a, e))
    } else {
        Err(29)
    }
}

/// The value of an item that has the name. What breaks the item, in this order: 27, 28, 30, and if the item is taken 29.
fn named(record: &[u8], words: &[u64], k: usize, name: &[u8], (x, y): Span) -> Result<Option<Span>, u64> {
    let n = record.len();
    let quote = |i: usize| get_bit(words, n, Bitmap::Quotes, i);
    let colon = (x..y).find(|&i| get_bit(words, n, Bitmap::Colons(k), i)).ok_or(27u64)?;
    let (a, e) = trim(record, (x, colon));
    if e - a < 2 || !quote(a) || !quote(e - 1) || (a + 1..e - 1).any(quote) {
        return Err(28);
    }
    if !names::is(&names::read(&record[a + 1..e - 1])?, name) {
        return Ok(None);
    }
    value(record, (colon + 1, y)).map(Some)
}

/// The first item with the name. A broken one is told at the byte after the bracket or comma before it, where it begins.
fn name_step(record: &[u8], words: &[u64], k: usize, name: &[u8], within: Span) -> Result<Span, Found> {
    for item in items(record, words, k, within) {
        if let Some(value) = named(record, words, k, name, item).map_err(|number| told(number, k, item.0))? {
            return Ok(value);
        }
    }
    Err(told(25, k, within.0))
}

/// The item with the number, and no look at any other.
fn number_step(record: &[u8], words: &[u64], k: usize, m: u64, within: Span) -> Result<Span, Found> {
    match items(record, words, k, within).get(m as usize) {
        None => Err(told(26, k, within.0)),
        Some(&item) => value(record, item).map_err(|number| told(number, k, item.0)),
    }
}

/// Step k, within a value. A miss is told at the first byte of that value.
fn walk_step(record: &[u8], words: &[u64], k: usize, step: &Step, within: Span) -> Result<Span, Found> {
    let (a, e) = within;
    let framed = |first: u8, last: u8| e - a >= 2 && record[a] == first && record[e - 1] == last;
    match step {
        Step::Name(_) if !framed(b'{', b'}') => Err(told(23, k, a)),
        Step::Number(_) if !framed(b'[', b']') => Err(told(24, k, a)),
        Step::Name(name) => name_step(record, words, k, name, within),
        Step::Number(m) => number_step(record, words, k, *m, within),
    }
}

/// From the record without end blanks, a step at a time; an all-blank record has step 0, place 0.
fn walk(record: &[u8], words: &[u64], steps: &[Step]) -> Result<Span, Found> {
    let mut span = value(record, (0, record.len())).map_err(refused)?;
    for (i, step) in steps.iter().enumerate() {
        span = walk_step(record, words, i + 1, step, span)?;
    }
    Ok(span)
}

/// 1, 2, 3, 4, path length (21), 20, number size (21), 22, then the walk.
pub fn query(record: &[u8], words: &[u64], levels: usize, path: &[u8]) -> Found {
    let n = record.len();
    if n == 0 {
        return refused(1);
    }
    if n > 16_777_216 {
        return refused(2);
    }
    if !(1..=16).contains(&levels) {
        return refused(3);
    }
    if words.len() != (2 + 2 * levels) * width(n) {
        return refused(4);
    }
    if path.len() > 1024 {
        return refused(21);
    }
    let steps = match read(path) {
        Err(place) => return told(20, 0, place),
        Ok(steps) => steps,
    };
    if steps.iter().any(|s| matches!(s, Step::Number(m) if *m > 16_777_215)) {
        return refused(21);
    }
    if steps.len() > levels {
        return refused(22);
    }
    match walk(record, words, &steps) {
        Ok((start, end)) => part(start, end),
        Err(refusal) => refusal,
    }
}

/// The line that the showing program prints. For 23 to 30 it goes on printing 0 0.
pub fn line(input: &[u8]) -> String {
    let Found { number, start, end, .. } = shown(input);
    match number {
        23..=30 => format!("{number} 0 0\n"),
        _ => format!("{number} {start} {end}\n"),
    }
}

fn shown(input: &[u8]) -> Found {
    let end = input.iter().position(|&b| b == b'\n');
    let (path, record) = match end {
        Some(i) => (&input[..i], &input[i + 1..]),
        None => (input, &input[input.len()..]),
    };
    if path.len() > 1024 {
        return refused(21);
    }
    if record.len() > 16384 {
        return refused(2);
    }
    let (mut job, mut words) = {
        let words = vec![0; 10 * width(record.len())];
        let (answer, job) = crate::job::open(record, words.len(), 4, &[]);
        if answer.0 != 0 {
            return refused(answer.0);
        }
        (job, words)
    };
    for step in [crate::job::Step::Scan, crate::job::Step::Settle, crate::job::Step::Level] {
        let (number, place) = job.step(step, &mut words, 0, false);
        if number != 0 {
            return told(number, 0, place);
        }
    }
    query(record, &words, 4, path)
}
