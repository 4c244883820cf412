//! Random records, cuts, guesses and orders, lists of calls that stray, and texts of lines: what the safe face gives,
//! beside bytewise.

use std::ops::Range;

use bytewise::case::size;
use bytewise::cases::{good_cuts, text};
use bytewise::job::{self, Answer, Step};
use bytewise::lines::Indexed;
use bytewise::random::Random;
use bytewise::records::{self, Text};
use bytewise::{byline, lines, path, rules, spelt};
use told::line_told;
use wararish::plan::{self, Guesses, Order};
use wararish::{line_in, next_line, table_in, words_needed};
use wararish::{Call, Index, LineIndex, Lines, LinesError, Report, LIMIT};

mod told;

const CASES: usize = 100_000;
const TEXTS_OF_LINES: usize = 40_000;

/// Numbers of no line and places of no text. Doubled in 64 bits, some are those of a line again.
const FAR: [usize; 5] = [usize::MAX, usize::MAX >> 1, 1 << 63, (1 << 63) + 1, 1 << 32];

/// How often each number was given.
type Seen = [u64; 32];

/// What bytewise says of the calls, and what it leaves in the words.
fn run(record: &[u8], words: &mut [u64], levels: usize, cuts: &[usize], calls: &[Call]) -> Answer {
    let (answer, mut job) = job::open(record, words.len(), levels, cuts);
    if answer.0 != 0 {
        return answer;
    }
    for call in calls {
        let chunk = usize::from(call.byte() / 4);
        let (step, guess) = match call.byte() % 4 {
            0 => (Step::Scan, false),
            1 => (Step::Scan, true),
            2 => (Step::Settle, false),
            _ => (Step::Level, false),
        };
        if job.step_refusal(step, record.len(), words.len(), chunk).is_none() {
            job.step(step, words, chunk, guess);
        }
    }
    job.close(record.len(), words)
}

fn any_text(random: &mut Random) -> Text {
    match random.below(60) {
        0 => Text { bytes: Vec::new(), paths: vec![b"$".to_vec()] },
        1..=6 => spelt::text(random),
        _ => text(random),
    }
}

fn any_cuts(random: &mut Random, n: usize) -> Vec<usize> {
    let mut cuts = good_cuts(random, n);
    match random.below(40) {
        0 => cuts.push(*random.pick(&[0, 1, n, usize::MAX, 64])),
        1 => cuts = (1..65 + random.below(3)).map(|k| 64 * k).collect(),
        2 => cuts.insert(0, random.below(200)),
        3 => cuts = plan::even_cuts(n, random.below(64)),
        _ => {}
    }
    cuts
}

fn any_call(random: &mut Random, chunks: usize) -> Call {
    let chunk = if random.chance(1, 10) { random.below(64) } else { random.below(chunks) };
    match random.below(3) {
        0 => Call::scan(chunk, random.chance(1, 2)),
        1 => Call::settle(chunk),
        _ => Call::level(chunk),
    }
}

/// A list that leaves out no step; then calls strewn between, or taken out.
fn any_calls(random: &mut Random, chunks: usize) -> Vec<Call> {
    let guesses = *random.pick(&[Guesses::Outside, Guesses::Inside, Guesses::Random]);
    let order = *random.pick(&[Order::Forward, Order::Backward, Order::Random]);
    let mut calls = plan::calls(chunks, guesses, order, random.next());
    match random.below(6) {
        0 => {
            for _ in 0..1 + random.below(8) {
                let at = random.below(calls.len() + 1);
                calls.insert(at, any_call(random, chunks.min(64)));
            }
        }
        1 => {
            let at = random.below(calls.len());
            calls.remove(at);
        }
        2 => calls = (0..random.below(4 * chunks)).map(|_| any_call(random, chunks.min(64))).collect(),
        _ => {}
    }
    calls
}

fn ask_paths(random: &mut Random, index: &Index, paths: &[Vec<u8>], seen: &mut Seen) {
    for _ in 0..3 {
        let path = records::path(random, paths);
        let found = path::query(index.record(), index.words(), index.levels(), &path);
        seen[found.number as usize] += 1;
        match index.ask(&path) {
            Ok(part) => assert_eq!((found.number, part), (0, &index.record()[found.start..found.end])),
            Err(error) => assert_eq!(path::told(error.number(), error.step(), error.place()), found),
        }
    }
}

fn check_case(random: &mut Random, seen: &mut Seen) {
    let text = any_text(random);
    let (record, n) = (&text.bytes[..], text.bytes.len());
    let levels = *random.pick(&[1, 1, 2, 3, 4, 5, 8, 15, 16, 1, 2, 3, 4, 4, 4, 4, 4, 0, 17, usize::MAX]);
    let cuts = any_cuts(random, n);
    let calls = any_calls(random, cuts.len() + 1);
    let lent: Vec<u64> = (0..words_needed(levels, n)).map(|_| random.next()).collect();
    let mut words = lent.clone();
    let (number, place) = run(record, &mut words, levels, &cuts, &calls);
    seen[number as usize] += 1;
    match Report::new(record).index_in(lent, levels, &cuts, &calls) {
        Ok(index) => {
            assert_eq!((0, 0, &words[..]), (number, place, index.words()));
            assert_eq!(rules::index(record, levels).1, words);
            ask_paths(random, &index, &text.paths, seen);
        }
        Err(unindexed) => {
            let error = unindexed.error();
            assert_eq!((error.number(), error.place(), unindexed.words()), (number, place, &words[..]));
        }
    }
    check_plain(record, levels, &cuts, number, place);
}

/// The plain index of the same, where the calls left out no step.
fn check_plain(record: &[u8], levels: usize, cuts: &[usize], number: u64, place: usize) {
    let plain = Report::new(record).index(levels, cuts);
    match plain {
        _ if number == 12 => assert!(!matches!(plain, Err(error) if error.number() < 13)),
        Ok(index) => assert_eq!((number, index.words()), (0, &rules::index(record, levels).1[..])),
        Err(error) => assert_eq!((error.number(), error.place()), (number, place)),
    }
}

fn seen_at_least(times: u64, seen: &Seen, numbers: &[usize]) {
    for &number in numbers {
        assert!(seen[number] >= times, "{number} was given {} times: {seen:?}", seen[number]);
    }
}

#[test]
fn random_cases() {
    let mut random = Random::new(11);
    let mut seen: Seen = [0; 32];
    for _ in 0..CASES {
        check_case(&mut random, &mut seen);
    }
    seen_at_least(15, &seen, &[0, 1, 3, 5, 6, 12, 13, 14, 15, 16, 20, 21, 22, 23, 24, 25, 26, 27, 28, 29, 30]);
}

/// Above the limit, and levels beyond all measure: refused, and nothing is allocated for it.
#[test]
fn beyond_the_limits() {
    let record = vec![b' '; LIMIT + 1];
    for levels in [0, 1, 16, usize::MAX] {
        let unindexed = Report::new(&record).index_in(vec![7; 3], levels, &[1, 2], &[]).unwrap_err();
        assert_eq!((unindexed.error().number(), unindexed.words().len()), (2, 0));
        assert_eq!(Report::new(&record).index(levels, &[]).unwrap_err().number(), 2);
    }
    let limit = &record[..LIMIT];
    assert_eq!(Report::new(limit).index(usize::MAX, &[]).unwrap_err().number(), 3);
    let blank = Report::new(limit).index(1, &[]).unwrap().ask(b"$").unwrap_err();
    assert_eq!((blank.number(), blank.step(), blank.place()), (29, 0, 0));
}

/// What is lent for a text of lines: of the table so many numbers, and of the words as many as a call says. Neither is
/// cleared between calls.
struct Lent<'t> {
    text: &'t [u8],
    paths: &'t [Vec<u8>],
    table: Vec<usize>,
    numbers: usize,
    words: Vec<u64>,
}

/// How often each number was given by tables, by lines and by queries.
#[derive(Default)]
struct LinesSeen {
    tables: Seen,
    lines: Seen,
    asked: Seen,
}

/// Records with the paths to their values, a line each. In a few texts the records keep their own line feeds, which cut
/// them.
fn records_by_line(random: &mut Random) -> Text {
    let mut text = Text { bytes: Vec::new(), paths: Vec::new() };
    let cut = random.chance(1, 8);
    for _ in 0..1 + random.below(3) {
        let record = any_text(random);
        text.bytes.extend(record.bytes.iter().map(|&byte| if byte == b'\n' && !cut { b' ' } else { byte }));
        text.bytes.push(b'\n');
        text.paths.extend(record.paths);
    }
    text.bytes.truncate(text.bytes.len() - random.below(2));
    text
}

fn text_of_lines(random: &mut Random) -> Text {
    match random.below(60) {
        0 => Text { bytes: Vec::new(), paths: vec![b"$".to_vec()] },
        1..=20 => records_by_line(random),
        _ => Text { bytes: byline::text(random), paths: vec![b"$".to_vec()] },
    }
}

/// The text among other bytes, which must not matter, and where it lies there.
fn amid(random: &mut Random, text: &[u8]) -> (Vec<u8>, Range<usize>) {
    let others = b"\n\"[]x \\";
    let before: Vec<u8> = (0..random.below(18)).map(|_| *random.pick(others)).collect();
    let behind: Vec<u8> = (0..random.below(40)).map(|_| *random.pick(others)).collect();
    let span = before.len()..before.len() + text.len();
    ([&before, text, &behind].concat(), span)
}

/// Most are places of a text of n bytes.
fn any_place(random: &mut Random, n: usize) -> usize {
    match random.below(12) {
        0 => n,
        1 => n + 1 + random.below(3),
        2 => *random.pick(&FAR),
        _ => random.below(n + 1),
    }
}

/// A table for all lines, for fewer or for more, with half an entry at its end or without; and words for any part of
/// the text.
fn lend<'t>(random: &mut Random, text: &'t [u8], paths: &'t [Vec<u8>]) -> Lent<'t> {
    let whole = 2 * lines::lines(text).len();
    let numbers = match random.below(8) {
        0 => random.below(whole + 1),
        1 => whole.saturating_sub(1 + random.below(2)),
        2 => whole + 1,
        3 => whole + 2 + random.below(8),
        _ => whole,
    };
    let table = (0..whole + 10).map(|_| any_place(random, text.len())).collect();
    let words = (0..size(text.len(), 16) + 6).map(|_| random.next()).collect();
    Lent { text, paths, table, numbers, words }
}

/// Entries that no table call gave, most of them parts of the text.
fn make_up(random: &mut Random, lent: &mut Lent) {
    lent.numbers = random.below(lent.table.len() + 1);
    for entry in lent.table.chunks_mut(2) {
        entry.fill_with(|| any_place(random, lent.text.len()));
        if random.chance(3, 4) {
            entry.sort();
        }
    }
}

fn check_table(lent: &mut Lent, seen: &mut Seen) {
    let mut table = lent.table.clone();
    let answer = lines::table(lent.text, &mut table[..lent.numbers]);
    seen[answer.0 as usize] += 1;
    let told = table_in(lent.text, &mut lent.table[..lent.numbers]);
    let told = told.map_or_else(|error| (error.number(), 0), |count| (0, count));
    assert_eq!((told, &lent.table), (answer, &table), "{} numbers, {}", lent.numbers, lent.text.escape_ascii());
}

/// A path into a record: into an array by a number, into an object by what stands between quotes.
fn path_into(random: &mut Random, index: &LineIndex) -> Vec<u8> {
    let in_name = |byte: &u8| byte.is_ascii_alphanumeric() || *byte == b'_';
    let parts = index.record().split(|&byte| byte == b'"');
    let names: Vec<&[u8]> = parts.filter(|part| !part.is_empty() && part.iter().all(in_name)).collect();
    let mut path = b"$".to_vec();
    for _ in 0..random.below(8) {
        let found = path::query(index.record(), index.words(), index.levels(), &path);
        match index.record().get(found.start) {
            Some(b'[') if found.number == 0 => path.extend(format!("[{}]", random.below(4)).into_bytes()),
            Some(b'{') if found.number == 0 && !names.is_empty() => path.extend([b".", *random.pick(&names)].concat()),
            _ => break,
        }
    }
    path
}

fn ask_line(random: &mut Random, index: &LineIndex, paths: &[Vec<u8>], seen: &mut Seen) {
    for _ in 0..2 {
        let path = match random.below(4) {
            0 => records::path(random, paths),
            1 => {
                let inner = path_into(random, index);
                records::path(random, &[inner])
            }
            _ => path_into(random, index),
        };
        let found = path::query(index.record(), index.words(), index.levels(), &path);
        seen[found.number as usize] += 1;
        let told = match index.find(&path) {
            Ok(part) => path::part(part.start, part.end),
            Err(error) => path::told(error.number(), error.step(), error.place()),
        };
        assert_eq!(told, found, "{} of {}", path.escape_ascii(), index.record().escape_ascii());
        assert_eq!(index.ask(&path).ok(), (found.number == 0).then(|| &index.record()[found.start..found.end]));
    }
}

/// A line in the front of so many words, and some paths of it.
fn check_line(random: &mut Random, lent: &mut Lent, line: usize, levels: usize, room: usize, seen: &mut LinesSeen) {
    let (text, table) = (lent.text, &lent.table[..lent.numbers]);
    let mut words = lent.words.clone();
    let said = lines::index(text, table, line, &mut words[..room], levels);
    seen.lines[said.number as usize] += 1;
    let indexed = line_in(text, table, line, levels, &mut lent.words[..room]);
    let of_line = || format!("line {line} of {table:?}, {levels} levels, {room} words, {}", text.escape_ascii());
    assert_eq!(line_told(&indexed), said, "{}", of_line());
    if let Ok(index) = indexed {
        let record = lines::bytes(text, table, line);
        let front = &words[..size(record.len(), levels)];
        assert_eq!((index.line(), index.levels()), (line, levels));
        assert_eq!((index.record(), index.words()), (record, front), "{}", of_line());
        ask_line(random, &index, lent.paths, &mut seen.asked);
    }
    assert!(lent.words == words, "other words than bytewise has: {}", of_line());
}

/// All entries in any order, some of them again, and numbers of no entry.
fn any_order(random: &mut Random, entries: usize) -> Vec<usize> {
    let mut order: Vec<usize> = (0..entries).collect();
    for i in 1..entries {
        order.swap(i, random.below(i + 1));
    }
    for _ in 0..2 {
        let line = match random.below(4) {
            0 => entries + random.below(2),
            1 => *random.pick(&FAR),
            _ => random.below(entries + 1),
        };
        order.insert(random.below(order.len() + 1), line);
    }
    order
}

/// As many words as are needed, fewer, or more: up to all there are.
fn any_room(random: &mut Random, needed: usize, all: usize) -> usize {
    match random.below(8) {
        0 => needed.saturating_sub(1),
        1 => random.below(needed + 1),
        2 | 3 => needed,
        4 | 5 => needed + random.below(7),
        _ => all,
    }
}

fn check_entries(random: &mut Random, lent: &mut Lent, seen: &mut LinesSeen) {
    let table = lent.table.clone();
    let most_often = *random.pick(&[1, 1, 2, 2, 3, 4, 8, 16]);
    for line in any_order(random, lent.numbers / 2) {
        let levels = if random.chance(1, 4) { *random.pick(&[0, 1, 2, 5, 15, 16, 17, usize::MAX]) } else { most_often };
        let n = lines::bytes(lent.text, &table[..lent.numbers], line).len();
        let room = any_room(random, size(n, levels.min(16)), lent.words.len());
        check_line(random, lent, line, levels, room, seen);
    }
    assert_eq!(lent.table, table);
}

/// Next lines from some places, and one after another from the front: those are the lines of a table.
fn check_next(random: &mut Random, text: &[u8]) {
    for _ in 0..8 {
        let from = any_place(random, text.len());
        let told = next_line(text, from).map(|line| (line.start, line.end));
        assert_eq!(told, lines::next(text, from), "from {from} of {}", text.escape_ascii());
    }
    let (mut walked, mut from) = (Vec::new(), 0);
    while let Some(line) = next_line(text, from) {
        walked.extend([line.start, line.end]);
        from = line.end + random.below(2);
    }
    let listed: Vec<usize> = lines::lines(text).iter().flat_map(|&(start, end)| [start, end]).collect();
    assert_eq!(walked, listed, "{}", text.escape_ascii());
    match Lines::new(text) {
        Ok(lines) => assert_eq!(lines.table(), listed, "{}", text.escape_ascii()),
        Err(error) => assert_eq!((error.number(), text.len()), (1, 0)),
    }
}

fn check_text_of_lines(random: &mut Random, seen: &mut LinesSeen) {
    let text = text_of_lines(random);
    let (around, span) = amid(random, &text.bytes);
    let mut lent = lend(random, &around[span], &text.paths);
    check_table(&mut lent, &mut seen.tables);
    check_entries(random, &mut lent, seen);
    check_next(random, lent.text);
    if random.chance(1, 4) {
        make_up(random, &mut lent);
        check_entries(random, &mut lent, seen);
    }
}

#[test]
fn random_texts_of_lines() {
    let mut random = Random::new(31);
    let mut seen = LinesSeen::default();
    for _ in 0..TEXTS_OF_LINES {
        check_text_of_lines(&mut random, &mut seen);
    }
    seen_at_least(500, &seen.tables, &[0, 1, 31]);
    seen_at_least(2_000, &seen.lines, &[0, 1, 3, 4, 13, 14, 15, 16]);
    seen_at_least(50, &seen.asked, &[0, 20, 21, 22, 23, 24, 25, 26, 27, 28, 29, 30]);
}

/// One byte above the limit: blanks, and an object at the end.
fn above_the_limit() -> Vec<u8> {
    let mut text = vec![b' '; LIMIT + 1];
    text[LIMIT - 6..].copy_from_slice(br#"{"a":1}"#);
    text
}

/// A text above the limit has no table. What a line of it is refused for is of its own bytes, and a next line has no
/// limit.
#[test]
fn lines_beyond_the_limits() {
    let text = above_the_limit();
    let mut table = [0, LIMIT + 1, LIMIT - 6, LIMIT + 1, 9, 9, 0, LIMIT + 2, 7];
    let lent = table;
    assert_eq!((table_in(&text, &mut table).map_err(LinesError::number), table), (Err(2), lent));
    assert_eq!((lines::table(&text, &mut table), table), ((2, 0), lent));
    assert_eq!(Lines::new(&text).unwrap_err().number(), 2);
    let mut words = [7; 6];
    for levels in [0, 1, 16, 17, usize::MAX] {
        // all bytes, none, and no part of the text
        for (line, number) in [(0, 2), (2, 1), (3, 1)] {
            let told = line_told(&line_in(&text, &table, line, levels, &mut words));
            assert_eq!((told, words), (Indexed { number, place: 0, line: 0 }, [7; 6]));
            assert_eq!(lines::index(&text, &table, line, &mut words, levels), told);
        }
    }
    let part = line_in(&text, &table, 1, 1, &mut words).unwrap();
    assert_eq!((part.words(), part.find(b"$.a")), (&[10, 12, 16, 0][..], Ok(5..6)));
    assert_eq!(words, [10, 12, 16, 0, 7, 7]);
    assert_eq!(next_line(&text, 0), Some(0..LIMIT + 1));
    assert_eq!(next_line(&text, LIMIT), Some(LIMIT..LIMIT + 1));
}

/// A line as long as a record may be.
#[test]
fn a_line_of_the_limit() {
    let text = above_the_limit();
    let table = [1, LIMIT + 1];
    let mut words = vec![7; size(LIMIT, 1) + 1];
    for (levels, number) in [(0, 3), (2, 4), (16, 4), (17, 3)] {
        let told = line_told(&line_in(&text, &table, 0, levels, &mut words));
        assert_eq!(told, Indexed { number, place: 0, line: 0 });
        assert_eq!(lines::index(&text, &table, 0, &mut words, levels), told);
    }
    let index = line_in(&text, &table, 0, 1, &mut words).unwrap();
    assert_eq!(index.find(b"$.a"), Ok(LIMIT - 2..LIMIT - 1));
    assert!(index.words() == rules::index(&text[1..], 1).1, "other words than bytewise has");
    assert_eq!(words[size(LIMIT, 1)], 7);
}
