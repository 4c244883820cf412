//! What every bit means, read off byte by byte: section 'The rules of the bits', and the faults.

/// What is wrong with a record: its number and its place.
pub type Fault = (u64, usize);

/// The unbroken run of backslashes directly before byte i has odd length.
pub fn escaped(record: &[u8], i: usize) -> bool {
    let mut run = 0;
    while run < i && record[i - 1 - run] == b'\\' {
        run += 1;
    }
    run % 2 == 1
}

pub fn is_opener(byte: u8) -> bool {
    byte == b'{' || byte == b'['
}

pub fn is_closer(byte: u8) -> bool {
    byte == b'}' || byte == b']'
}

/// The truth about a record, a byte at a time. `mask` and `depth` have one more entry, for place n.
#[derive(Clone)]
pub struct Truth {
    pub quote: Vec<bool>,
    pub mask: Vec<bool>,
    pub depth: Vec<i64>,
    pub fault: Option<Fault>,
}

pub fn truth(record: &[u8]) -> Truth {
    let n = record.len();
    let quote: Vec<bool> = (0..n).map(|i| record[i] == b'"' && !escaped(record, i)).collect();
    let mut mask = vec![false; n + 1];
    let mut depth = vec![0i64; n + 1];
    let mut fault = None;
    for i in 0..n {
        let byte = record[i];
        let mut change = 0;
        if !mask[i] && is_opener(byte) {
            change = 1;
            if depth[i] == 64 && fault.is_none() {
                fault = Some((14, i));
            }
        }
        if !mask[i] && is_closer(byte) {
            change = -1;
            if depth[i] == 0 && fault.is_none() {
                fault = Some((13, i));
            }
        }
        depth[i + 1] = depth[i] + change;
        mask[i + 1] = mask[i] != quote[i];
    }
    if fault.is_none() && mask[n] {
        fault = Some((15, n));
    }
    if fault.is_none() && depth[n] > 0 {
        fault = Some((16, n));
    }
    Truth { quote, mask, depth, fault }
}

/// W = n/64 rounded up.
pub fn width(n: usize) -> usize {
    n.div_ceil(64)
}

/// Quotes, then mask, then for k = 1 to L colons of k, commas of k.
#[derive(Clone, Copy)]
pub enum Bitmap {
    Quotes,
    Mask,
    Colons(usize),
    Commas(usize),
}

pub fn row(bitmap: Bitmap) -> usize {
    match bitmap {
        Bitmap::Quotes => 0,
        Bitmap::Mask => 1,
        Bitmap::Colons(k) => 2 + 2 * (k - 1),
        Bitmap::Commas(k) => 2 + 2 * (k - 1) + 1,
    }
}

pub fn get_bit(words: &[u64], n: usize, bitmap: Bitmap, i: usize) -> bool {
    words[row(bitmap) * width(n) + i / 64] >> (i % 64) & 1 == 1
}

/// Words whose bits are those of `bit` at the places from `from` to `to`, and 0 beyond them.
pub fn set_bits(words: &mut [u64], n: usize, bitmap: Bitmap, from: usize, to: usize, bit: impl Fn(usize) -> bool) {
    let base = row(bitmap) * width(n);
    for w in from / 64..width(to) {
        words[base + w] = 0;
    }
    for i in from..to {
        if bit(i) {
            words[base + i / 64] |= 1 << (i % 64);
        }
    }
}

/// The whole index of a record, in one pass: the words of the rules; or the first fault, and all words zero.
pub fn index(record: &[u8], levels: usize) -> (Option<Fault>, Vec<u64>) {
    let n = record.len();
    let mut words = vec![0; (2 + 2 * levels) * width(n)];
    let fault = mark(record, levels, |bitmap, i| words[row(bitmap) * width(n) + i / 64] |= 1 << (i % 64));
    if fault.is_some() {
        words.fill(0);
    }
    (fault, words)
}

/// Sets the bits one byte after another, up to the first fault.
fn mark(record: &[u8], levels: usize, mut set: impl FnMut(Bitmap, usize)) -> Option<Fault> {
    let mut inside = false;
    let mut depth = 0;
    for (i, &byte) in record.iter().enumerate() {
        if inside {
            set(Bitmap::Mask, i);
        }
        match byte {
            b'"' if !escaped(record, i) => {
                set(Bitmap::Quotes, i);
                inside = !inside;
            }
            _ if inside => {}
            b'{' | b'[' if depth == 64 => return Some((14, i)),
            b'}' | b']' if depth == 0 => return Some((13, i)),
            b'{' | b'[' => depth += 1,
            b'}' | b']' => depth -= 1,
            b':' if (1..=levels).contains(&depth) => set(Bitmap::Colons(depth), i),
            b',' if (1..=levels).contains(&depth) => set(Bitmap::Commas(depth), i),
            _ => {}
        }
    }
    match (inside, depth) {
        (true, _) => Some((15, record.len())),
        (false, 1..) => Some((16, record.len())),
        (false, 0) => None,
    }
}

#[cfg(test)]
mod tests {
    use super::*;
    use crate::cases;
    use crate::random::Random;

    /// The words bit by bit, each from the truth of its place.
    fn by_truth(record: &[u8], levels: usize) -> (Option<Fault>, Vec<u64>) {
        let (n, truth) = (record.len(), truth(record));
        let mut words = vec![0; (2 + 2 * levels) * width(n)];
        if truth.fault.is_some() {
            return (truth.fault, words);
        }
        let at = |i: usize, byte: u8, k: usize| record[i] == byte && !truth.mask[i] && truth.depth[i] == k as i64;
        set_bits(&mut words, n, Bitmap::Quotes, 0, n, |i| truth.quote[i]);
        set_bits(&mut words, n, Bitmap::Mask, 0, n, |i| truth.mask[i]);
        for k in 1..=levels {
            set_bits(&mut words, n, Bitmap::Colons(k), 0, n, |i| at(i, b':', k));
            set_bits(&mut words, n, Bitmap::Commas(k), 0, n, |i| at(i, b',', k));
        }
        (None, words)
    }

    #[test]
    fn one_pass_gives_what_the_truth_says() {
        let mut random = Random::new(5);
        let mut seen = [0; 32];
        for _ in 0..20_000 {
            let text = cases::text(&mut random);
            let levels = 1 + random.below(16);
            let indexed = index(&text.bytes, levels);
            assert_eq!(indexed, by_truth(&text.bytes, levels), "{}", String::from_utf8_lossy(&text.bytes));
            seen[indexed.0.map_or(0, |fault| fault.0 as usize)] += 1;
        }
        for number in [0, 13, 14, 15, 16] {
            assert!(seen[number] > 100, "{number} was met {} times", seen[number]);
        }
    }
}
