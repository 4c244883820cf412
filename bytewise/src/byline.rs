//! What request Three tells of lines: an LF, a byte that is not blank and the text's end at every distance from each other (the
//! proved code looks at 16 bytes at a time), every byte, tables about full, made-up entries, lines over the borders of 64 bytes
//! and beside an open job; and random texts of lines, sound and faulty.

use crate::case::{size, Case, NUMBERS_ROOM, SHORT_RECORD, SHORT_WORDS};
use crate::cases::{accepted_call, any_call, good_cuts, run_job};
use crate::job::{State, Step};
use crate::lines::lines;
use crate::random::Random;
use crate::records::{damaged, deep, json, noise};
use crate::rules::truth;

const BLANKS: &[u8] = b" \t\r";

/// What other readings of 'blank' or of 'line' would take for a blank or an end, and neighbours of those bytes.
const ODD: [&[u8]; 10] = [b"\x0b", b"\x0c", b"\0", b"\xA0", b"\xC2\x85", b"\xE2\x80\xA8", b"\x1f", b"!", b"\x8a", b"\x89"];

/// The bytes that differ in one bit from LF, and those that do from a blank and are none.
const LIKE_LF: &[u8] = b"\x0b\x08\x0e\x02\x1a\x2a\x4a\x8a";
const LIKE_BLANKS: &[u8] = b"\x21\x22\x24\x28\x30\x00\x60\xA0\x08\x0b\x01\x19\x29\x49\x89\x0c\x0f\x05\x1d\x2d\x4d\x8d";

/// Numbers of no line. Doubled in 64 bits, some are those of a line again.
const NO_LINES: [usize; 5] = [usize::MAX, usize::MAX >> 1, 1 << 63, (1 << 63) + 1, 1 << 32];

/// So many numbers that are no places of a text.
fn marks(count: usize) -> Vec<usize> {
    (0..count).map(|i| 1_000_000 + i).collect()
}

/// Blanks of each kind, and other bytes at some places.
fn spread(n: usize, places: &[(usize, u8)]) -> Vec<u8> {
    let mut text: Vec<u8> = BLANKS.iter().copied().cycle().take(n).collect();
    for &(at, byte) in places.iter().filter(|place| place.0 < n) {
        text[at] = byte;
    }
    text
}

/// No blanks, and an LF at some places.
fn full(n: usize, cuts: &[usize]) -> Vec<u8> {
    full_of(b'x', n, cuts)
}

fn full_of(byte: u8, n: usize, cuts: &[usize]) -> Vec<u8> {
    let mut text = vec![byte; n];
    for &at in cuts.iter().filter(|&&at| at < n) {
        text[at] = b'\n';
    }
    text
}

/// An LF at each place of a text of each length up to twice 16 bytes and some. The last of a length has none.
fn cut_everywhere() -> Vec<Vec<Vec<u8>>> {
    (1..=35).map(|n| (0..=n).map(|at| full(n, &[at])).collect()).collect()
}

/// Two LFs close to each other or about 16 bytes apart.
fn cut_twice() -> Vec<Vec<Vec<u8>>> {
    (0..18).map(|at| [1, 2, 3, 15, 16, 17].map(|apart| full(35, &[at, at + apart])).to_vec()).collect()
}

/// An LF at each place among bytes that are like it.
fn cut_among_likes() -> Vec<Vec<Vec<u8>>> {
    LIKE_LF.iter().map(|&byte| (0..18).map(|at| full_of(byte, 18, &[at])).collect()).collect()
}

/// One byte that is not blank at each place, or none, without LF and with a last one.
fn seen_everywhere() -> Vec<Vec<Vec<u8>>> {
    let of_length = |n: usize| {
        let alone = (0..=n).map(move |at| spread(n, &[(at, b'x')]));
        let like = move |at: usize| LIKE_BLANKS[(at + n) % LIKE_BLANKS.len()];
        let ended = (0..=n).map(move |at| spread(n + 1, &[(at, like(at)), (n, b'\n')]));
        alone.chain(ended).collect()
    };
    [1, 2, 8, 15, 16, 17, 31, 32, 33, 49].into_iter().map(of_length).collect()
}

/// One byte that is not blank before or behind an LF at each place, close to it and about 16 bytes off.
fn seen_about_a_cut() -> Vec<Vec<Vec<u8>>> {
    const FAR: [usize; 6] = [1, 2, 9, 15, 16, 17];
    let of_place = |cut: usize| {
        let before = FAR.iter().filter_map(|far| cut.checked_sub(*far));
        let behind = FAR.iter().map(|far| cut + far).filter(|&at| at < 36);
        before.chain(behind).map(|at| spread(36, &[(cut, b'\n'), (at, b'x')])).collect()
    };
    (0..36).map(of_place).collect()
}

/// The tables of texts, one after another over the numbers that the one before left.
fn tabled(texts: &[Vec<u8>], numbers: usize) -> Case {
    let mut case = Case::new();
    case.set_table(&marks(numbers));
    for text in texts {
        case.set_record(text);
        case.make_table(0);
    }
    case.end();
    case
}

fn tables() -> Vec<Case> {
    let groups = [cut_everywhere(), cut_twice(), cut_among_likes(), seen_everywhere(), seen_about_a_cut()].concat();
    groups.iter().map(|texts| tabled(texts, 6)).collect()
}

/// Each byte as a line of its own and among blanks; and each with a `1` behind it in one text, where only LF cuts.
fn every_byte() -> Case {
    let mut texts = Vec::new();
    for from in [0, 64, 128, 192] {
        texts.push((from..=from + 63).flat_map(|byte| [byte, b'\n']).collect());
        texts.push((from..=from + 63).flat_map(|byte| [b' ', byte, b'\r', b'\n']).collect());
    }
    texts.push((0..=255).flat_map(|byte| [byte, b'1']).collect());
    tabled(&texts, NUMBERS_ROOM)
}

const COUNTS: [usize; 10] = [0, 1, 2, 3, 8, 31, 32, 63, 64, 65];

/// How many numbers the tables have that so many lines are put into.
fn about(count: usize) -> impl Iterator<Item = usize> {
    ((2 * count).saturating_sub(3)..=2 * count + 3).filter(|&numbers| numbers <= NUMBERS_ROOM)
}

/// So many lines, a blank one between them, in tables of about as many entries. Where the last has no LF, the text without its
/// last byte has a line fewer.
fn about_full() -> Vec<Case> {
    let mut list = Vec::new();
    for count in COUNTS {
        let mut text = [&b"1\n".repeat(count / 2)[..], b" \r\n", &b"2\n".repeat(count.div_ceil(2))].concat();
        if count % 2 == 1 {
            text.pop();
        }
        let mut case = Case::new();
        case.set_record(&text);
        for numbers in about(count) {
            case.set_table(&marks(numbers));
            case.make_table(0);
            case.make_table(SHORT_RECORD);
        }
        case.end();
        list.push(case);
    }
    list
}

/// The next line from each place of a text, of the text without its last byte, and from far behind it.
fn walked(text: &[u8]) -> Case {
    let mut case = Case::new();
    case.set_record(text);
    for from in 0..text.len() + 2 {
        case.next_line(0, from);
    }
    for from in text.len().saturating_sub(18)..text.len() + 1 {
        case.next_line(SHORT_RECORD, from);
    }
    for from in NO_LINES {
        case.next_line(0, from);
    }
    case.end();
    case
}

fn walks() -> Vec<Case> {
    let texts = [
        Vec::new(),
        b"x".to_vec(),
        b"\n".to_vec(),
        full(50, &[]),
        full(50, &[20, 37, 49]),
        full(40, &[15, 16, 31, 32, 33]),
        spread(50, &[]),
        spread(50, &[(49, b'x')]),
        spread(51, &[(33, b'x'), (50, b'\n')]),
        spread(60, &[(9, b'\n'), (17, b'x'), (30, b'\n'), (47, b'\n'), (48, b'x')]),
        vec![b'\n'; 20],
        b"{\"a\":1}\r\n\r\n[\"x\ny\",2]\r\n \t\r\n\x0b\n\0".to_vec(),
    ];
    texts.iter().map(|text| walked(text)).collect()
}

/// Parts of a text at starts and of lengths about 16 and 64 bytes, as if they were its lines. Each is indexed over the words that
/// the one before left.
fn parts_of(text: &[u8], levels: usize) -> Case {
    let about = [0, 1, 15, 16, 17, 63, 64, 65];
    let table = about.iter().flat_map(|start| about.map(|more| [*start, start + more + 1])).flatten();
    let mut case = Case::new();
    case.set_record(text);
    case.set_table(&table.collect::<Vec<usize>>());
    case.set_words(size(66, levels), 8);
    for line in 0..=about.len() * about.len() {
        case.index_line(0, levels, line);
    }
    case.end();
    case
}

/// The parts of the first have every fault but 14; those of the last are sound where their quotes are even in number.
fn parts() -> Vec<Case> {
    let texts: [&[u8]; 3] = [b"[1,\"b:\n\",{\"c\":2}],", b"\"\\\",[\" [,\n] ", b"\"\n"];
    let long = texts.map(|text| text.iter().copied().cycle().take(131).collect::<Vec<u8>>());
    long.iter().zip([1, 2, 1]).map(|(text, levels)| parts_of(text, levels)).collect()
}

/// A line of so many bytes, or of as many as it wants at least: sound, or with the fault of a number.
fn filled(kind: usize, length: usize) -> Vec<u8> {
    let (front, behind): (&[u8], &[u8]) = match kind {
        0 => (br#"{"a":[1,"#, br#"2],"b,":""}"#),
        13 => (br#"[",""#, b",1]]"),
        15 => (br#"{"a":1,"#, br#""b\"}"#),
        16 => (br#"[["\\","#, b",2]"),
        _ => return [&b"[".repeat(65)[..], &b"]".repeat(length.saturating_sub(65))].concat(),
    };
    let blanks = length.saturating_sub(front.len() + behind.len());
    [front, &spread(blanks, &[]), behind].concat()
}

/// A line of each kind behind one that moves its start (a blank one where it is 1), and a sound one behind it.
fn moved(start: usize, length: usize) -> Case {
    let before = [full(start.saturating_sub(1), &[]), b"\n".repeat(start.min(1))].concat();
    let mut case = Case::new();
    case.set_table(&marks(7));
    case.set_words(size(length.max(66), 2), start as u64);
    for kind in [0, 13, 14, 15, 16] {
        let text = [&before[..], &filled(kind, length), b"\n[1,{\"a\":2}]"].concat();
        case.set_record(&text);
        case.make_table(0);
        for line in [2, 1, 0, 1, 0] {
            case.index_line(0, 2, line);
        }
    }
    case.end();
    case
}

fn over_borders() -> Vec<Case> {
    let starts = [0, 1, 2, 16, 17, 64, 65];
    starts.into_iter().flat_map(|start| [19, 32, 63, 64, 65, 129].map(|length| moved(start, length))).collect()
}

/// Each number before each other one: no line, levels, words, a fault; with a byte or a word less.
fn in_order() -> Case {
    let text = b"{\"a\":1}\n[2]]\n[3,4]";
    let mut case = Case::new();
    case.set_record(text);
    case.set_words(4, 12);
    case.set_table(&[0, 7, 8, 12, 13, 18, 13, 19, 5, 5, 5, 4, 0, 18, 0, 17, 9]);
    for flag in [0, SHORT_RECORD, SHORT_WORDS, SHORT_RECORD | SHORT_WORDS] {
        for levels in [0, 1, 2, 17] {
            for line in (0..10).chain(NO_LINES) {
                case.index_line(flag, levels, line);
            }
        }
    }
    case.end();
    case
}

/// An open job over the whole text goes on between the lines, which have jobs of their own.
fn beside_a_job() -> Case {
    let text = b"{\"a\":[1,\n2],\"b\":\"}\n{\",\"c\":[\n]}\n[3,4]\n";
    let mut case = Case::new();
    case.set_record(text);
    case.set_table(&marks(12));
    case.set_words(size(text.len(), 2), 9);
    case.make_table(0);
    case.open(0, 2, &[]);
    for (line, step) in [Step::Scan, Step::Settle, Step::Level].into_iter().enumerate() {
        case.index_line(0, 2, line + 3);
        case.ask(0);
        case.step(step, 0, 0, false);
        case.index_line(0, 1, line);
    }
    case.close(0);
    case.end();
    case
}

/// Lines of a thousand bytes and more, with one byte between them and an end behind them.
fn long_lines() -> Case {
    let text = [&filled(0, 1_022)[..], b"7", &filled(0, 1_025), &filled(13, 2_040), b"\r"].join(&b'\n');
    let mut case = Case::new();
    case.set_record(&text);
    case.set_table(&marks(11));
    case.set_words(size(2_040, 1), 6);
    case.make_table(0);
    for line in (0..5).rev() {
        case.index_line(0, 1, line);
    }
    case.end();
    case
}

fn listed() -> impl Iterator<Item = Case> {
    let one_each = vec![every_byte(), in_order(), beside_a_job(), long_lines()];
    [tables(), one_each, about_full(), walks(), parts(), over_borders()].into_iter().flatten()
}

/// A line, most often of JSON. In some there is an LF that cuts it.
fn line(random: &mut Random) -> Vec<u8> {
    let room = *random.pick(&[4, 12, 30, 60, 60, 120, 250, 600]);
    let mut text = json(random, room);
    text.bytes.iter_mut().filter(|byte| **byte == b'\n').for_each(|byte| *byte = b' ');
    match random.below(16) {
        0 | 1 => damaged(random, text).bytes,
        2 => json(random, room).bytes,
        3 | 4 => cut_in_a_string(random, text.bytes),
        5 => {
            let (depth, extra) = (63 + random.below(4), *random.pick(&[0, 0, 1, -1]));
            deep(random, depth, extra).bytes
        }
        6 => {
            let length = random.below(80);
            noise(random, length).bytes
        }
        7 | 8 => blank(random),
        9 | 10 => seen_late(random),
        11 => full(random.below(150), &[]),
        _ => text.bytes,
    }
}

/// An LF at a place inside a string, if it has one.
fn cut_in_a_string(random: &mut Random, mut line: Vec<u8>) -> Vec<u8> {
    let mask = truth(&line).mask;
    let inside: Vec<usize> = (0..line.len()).filter(|&i| mask[i]).collect();
    if !inside.is_empty() {
        line.insert(*random.pick(&inside), b'\n');
    }
    line
}

fn blank(random: &mut Random) -> Vec<u8> {
    let most = *random.pick(&[1, 4, 20, 70]);
    (0..random.below(most)).map(|_| *random.pick(BLANKS)).collect()
}

/// Some bytes that are not blank among blanks.
fn seen_late(random: &mut Random) -> Vec<u8> {
    let byte: &[u8] = if random.chance(1, 2) { *random.pick(&ODD) } else { b"7" };
    [&blank(random)[..], byte, &blank(random)].concat()
}

/// Lines of every kind, with ends of one kind or of all, the last with or without its own.
pub fn text(random: &mut Random) -> Vec<u8> {
    let (count, ends) = (*random.pick(&[1, 2, 3, 4, 6, 9, 14]), random.below(4));
    let mut text = Vec::new();
    for _ in 0..count {
        if text.len() < 2_000 {
            text.extend(line(random));
            let end: &[u8] = match ends {
                0 => b"\r\n",
                1 => *random.pick(&[&b"\n"[..], b"\r\n", b"\n\n", b"\n \t\n", b"\r\r\n\n\n"]),
                _ => b"\n",
            };
            text.extend_from_slice(end);
        }
    }
    match random.below(6) {
        0 | 1 => text.truncate(text.len() - 1),
        2 => text.extend(blank(random)),
        _ => {}
    }
    text
}

/// A table for so many lines: as many entries, one fewer, or more; with half an entry behind, or without.
fn numbers(random: &mut Random, n: usize, count: usize) -> Vec<usize> {
    let entries = match random.below(8) {
        0 => count.saturating_sub(1),
        1 => count.saturating_sub(2),
        2 | 3 => count + 1 + random.below(4),
        _ => count,
    };
    let length = (2 * entries + usize::from(random.chance(1, 4))).min(NUMBERS_ROOM);
    (0..length).map(|_| number(random, n)).collect()
}

/// Most are places of the text.
fn number(random: &mut Random, n: usize) -> usize {
    match random.below(8) {
        0 => n,
        1 => n + 1 + random.below(3),
        2 => *random.pick(&NO_LINES),
        _ => random.below(n + 1),
    }
}

/// Entries that no table call gave, most of them parts of the text.
fn made_up(random: &mut Random, n: usize) -> Vec<usize> {
    let mut numbers: Vec<usize> = (0..random.below(20)).map(|_| number(random, n)).collect();
    for entry in numbers.chunks_exact_mut(2) {
        if random.chance(3, 4) {
            entry.sort();
        }
    }
    numbers
}

/// The lines in any order and some again; some of no number in the table, with other levels, or with a byte or a word less.
fn index_lines(random: &mut Random, case: &mut Case, levels: usize) {
    let entries = case.table.len() / 2;
    let mut order: Vec<usize> = (0..entries).collect();
    for i in 1..entries {
        order.swap(i, random.below(i + 1));
    }
    order.truncate(12);
    for _ in 0..2 {
        let line = match random.below(4) {
            0 => entries + random.below(2),
            1 => *random.pick(&NO_LINES),
            _ => random.below(entries + 1),
        };
        order.insert(random.below(order.len() + 1), line);
    }
    for line in order {
        let levels = if random.chance(1, 8) { *random.pick(&[0, 1, 2, 3, 16, 17, 65535]) } else { levels };
        let flag = if random.chance(1, 8) { *random.pick(&[SHORT_RECORD, SHORT_WORDS, SHORT_RECORD | SHORT_WORDS]) } else { 0 };
        case.index_line(flag, levels, line);
        if case.job.state() != State::Closed {
            accepted_call(random, case);
        }
    }
}

/// Next lines one after another from the text's front, and from some places.
fn walk(random: &mut Random, case: &mut Case) {
    let mut from = 0;
    for _ in 0..6 {
        let Some((_, end)) = case.next_line(0, from) else { break };
        from = end + random.below(2);
    }
    for _ in 0..3 {
        let flag = *random.pick(&[0, 0, SHORT_RECORD]);
        let from = number(random, case.record.len());
        case.next_line(flag, from);
    }
}

/// Enough words for the longest line, or only for some; in a few cases as many as a job over the whole text wants, and that job.
fn lend_words(random: &mut Random, case: &mut Case, levels: usize) {
    let lengths: Vec<usize> = lines(&case.record).iter().map(|(start, end)| end - start).collect();
    let longest = lengths.iter().copied().max().unwrap_or(0);
    let seed = random.next();
    match random.below(8) {
        0 => {
            let cuts = good_cuts(random, case.record.len());
            case.set_words(size(case.record.len(), levels), seed);
            case.open(0, levels, &cuts);
        }
        1 | 2 if !lengths.is_empty() => case.set_words(size(*random.pick(&lengths), levels), seed),
        3 | 4 => case.set_words(size(longest, levels) + random.below(6), seed),
        _ => case.set_words(size(longest, levels), seed),
    }
}

fn random_case(random: &mut Random) -> Case {
    let text = if random.chance(1, 60) { Vec::new() } else { text(random) };
    let (n, levels) = (text.len(), *random.pick(&[1, 1, 2, 2, 3, 4, 8, 16]));
    let mut case = Case::new();
    case.set_record(&text);
    lend_words(random, &mut case, levels);
    let count = lines(&text).len();
    case.set_table(&numbers(random, n, count));
    let flag = *random.pick(&[0, 0, 0, SHORT_RECORD]);
    if case.make_table(flag).0 != 0 && random.chance(1, 2) {
        case.set_table(&numbers(random, n, count + 1));
        case.make_table(0);
    }
    index_lines(random, &mut case, levels);
    walk(random, &mut case);
    match random.below(6) {
        0 | 1 => {
            case.set_table(&made_up(random, n));
            index_lines(random, &mut case, levels);
        }
        2 => {
            let other = self::text(random);
            case.set_record(&other);
            index_lines(random, &mut case, levels);
        }
        _ => {}
    }
    if case.job.state() != State::Closed {
        case.set_record(&text);
        run_job(random, &mut case);
        any_call(random, &mut case);
    }
    case.end();
    case
}

/// The lists, and so many random ones, each from a seed of its own. No number is drawn from those of the other cases.
pub fn all(seed: u64, count: usize) -> impl Iterator<Item = Case> {
    let mut random = Random::new(!seed.reverse_bits());
    listed().chain((0..count).map(move |_| random_case(&mut Random::new(random.next()))))
}

#[cfg(test)]
mod tests {
    use super::*;
    use std::collections::BTreeSet;

    /// How often the cases give each number.
    fn seen(cases: impl Iterator<Item = Case>) -> [u64; 32] {
        cases.fold([0; 32], |sum, case| std::array::from_fn(|number| sum[number] + case.seen[number]))
    }

    /// Of each line of the texts: its length, what is behind it, and where its first byte stands that is not blank.
    fn shapes(texts: impl Iterator<Item = Vec<u8>>) -> Vec<(usize, usize, usize)> {
        let shape = |text: &[u8], (start, end): (usize, usize)| {
            let first = text[start..end].iter().position(|byte| !BLANKS.contains(byte));
            (end - start, text.len() - end, first.expect("a byte that is not blank"))
        };
        texts.flat_map(|text| lines(&text).into_iter().map(|line| shape(&text, line)).collect::<Vec<_>>()).collect()
    }

    #[test]
    fn an_end_at_every_distance() {
        let shapes = shapes(cut_everywhere().concat().into_iter());
        for length in 1..=34 {
            for behind in 0..=35 - length {
                assert!(shapes.contains(&(length, behind, 0)), "no line of {length} bytes has {behind} behind it");
            }
        }
        let twice = cut_twice().concat();
        let lengths: BTreeSet<usize> = twice.iter().flat_map(|text| lines(text)).map(|(start, end)| end - start).collect();
        assert_eq!(lengths, (1..=33).collect());
    }

    #[test]
    fn a_first_byte_at_every_place() {
        let alone = shapes(seen_everywhere().concat().into_iter());
        for length in [1, 2, 8, 15, 16, 17, 31, 32, 33, 49] {
            for behind in 0..=1 {
                let firsts: Vec<usize> = alone.iter().filter(|one| (one.0, one.1) == (length, behind)).map(|one| one.2).collect();
                assert_eq!(firsts, (0..length).collect::<Vec<_>>(), "{length} bytes and {behind} behind them");
            }
        }
        // a blank line and one that is not, in either order
        for text in seen_about_a_cut().concat() {
            assert_eq!((lines(&text).len(), text.split(|&byte| byte == b'\n').count()), (1, 2));
        }
    }

    /// All but tab, LF, CR and space are lines.
    #[test]
    fn every_byte_is_a_line_or_none() {
        assert!(every_byte().line.starts_with(" 0@60 0@60 0@64 0@64 0@64 0@64 0@64 0@64 0@2 "), "{}", every_byte().line);
    }

    #[test]
    fn tables_are_refused_where_they_are_short() {
        for (count, case) in COUNTS.into_iter().zip(about_full()) {
            let told: Vec<&str> = case.line.split_whitespace().collect();
            for (i, numbers) in about(count).enumerate() {
                for (lines, told) in [(count, told[2 * i]), (count - count % 2, told[2 * i + 1])] {
                    let said = if lines > numbers / 2 { "31@0".to_string() } else { format!("0@{lines}") };
                    assert_eq!(told, said, "{lines} lines in {numbers} numbers");
                }
            }
        }
    }

    /// Each fault is told twice, whatever the line is behind, and no other line has one.
    #[test]
    fn lines_of_each_kind() {
        for case in over_borders() {
            assert_eq!([13, 14, 15, 16].map(|number| case.seen[number]), [2; 4], "{}", case.line);
        }
    }

    /// Of 64 parts and a number behind the table.
    #[test]
    fn parts_sound_and_faulty() {
        let [first, _, last] = &parts()[..] else { panic!("three texts") };
        assert!([0, 13, 15, 16].iter().all(|&number| first.seen[number] >= 5), "{}", first.line);
        // 16 and 64 bytes have 8 and 32 quotes, from any of the 8 starts; 1, 17 and 65 have 0, 8 and 32 from the 5 odd ones
        assert_eq!((last.seen[0], last.seen[15]), (2 * 8 + 3 * 5, 33), "{}", last.line);
    }

    #[test]
    fn random_cases_meet_every_number() {
        let mut random = Random::new(7);
        let seen = seen((0..2_000).map(|_| random_case(&mut random)));
        for number in [0, 1, 3, 4, 13, 14, 15, 16, 31] {
            assert!(seen[number] >= 100, "{number} was given {} times", seen[number]);
        }
    }

    #[test]
    fn random_lines_end_at_every_distance() {
        let mut random = Random::new(3);
        let shapes = shapes((0..6_000).map(|_| text(&mut random)));
        let missing = |met: BTreeSet<(usize, usize)>| 256 - met.len();
        assert_eq!(missing(shapes.iter().map(|one| (one.0 % 16, one.1 % 16)).collect()), 0, "length and what is behind, of 16");
        let lengths: BTreeSet<usize> = shapes.iter().map(|one| one.0).collect();
        let firsts: BTreeSet<usize> = shapes.iter().map(|one| one.2).collect();
        assert!((1..=300).all(|length| lengths.contains(&length)), "{lengths:?}");
        assert!((0..=48).all(|first| firsts.contains(&first)), "{firsts:?}");
    }
}
