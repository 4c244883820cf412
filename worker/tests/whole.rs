//! Reports of 16 MiB: one digest, whatever the cuts, the guesses and the order; and texts of so many bytes, line by line.

use std::collections::HashSet;

use bytewise::rules;
use wararish::plan::{self, Guesses, Order};
use wararish::sample::{self, Style};
use wararish::{digest, next_line, table_in, Lines, Report, LIMIT};

const LEVELS: usize = 4;
const ALL_GUESSES: [Guesses; 3] = [Guesses::Outside, Guesses::Inside, Guesses::Random];
const ORDERS: [Order; 3] = [Order::Forward, Order::Backward, Order::Random];

/// The digests of a record by every plan, in one buffer that is lent again and again.
fn digests(record: &[u8], chunk_counts: &[usize]) -> HashSet<String> {
    let mut words: Vec<u64> = Vec::new();
    let mut digests = HashSet::new();
    for &chunks in chunk_counts {
        let cuts = plan::even_cuts(record.len(), chunks - 1);
        assert_eq!(cuts.len(), chunks - 1);
        for (seed, (guesses, order)) in ALL_GUESSES.iter().flat_map(|g| ORDERS.map(|o| (*g, o))).enumerate() {
            let calls = plan::calls(chunks, guesses, order, seed as u64);
            // what an earlier run left must not matter, nor what it was
            words.iter_mut().for_each(|word| *word = !*word);
            let index = Report::new(record).index_in(words, LEVELS, &cuts, &calls).unwrap();
            digests.insert(digest::sha256(index.words()));
            words = index.into_words();
        }
    }
    digests
}

#[test]
fn one_digest_for_every_plan() {
    let record = sample::report(Style::Strings, LIMIT);
    let (fault, words) = rules::index(&record, LEVELS);
    assert_eq!(fault, None);
    assert_eq!(digests(&record, &[1, 2, 7, 64]), HashSet::from([digest::sha256(&words)]));
}

#[test]
fn the_words_of_bytewise_and_parts_of_the_record_itself() {
    let record = sample::report(Style::Indented, LIMIT);
    let index = Report::new(&record).index(LEVELS, &plan::even_cuts(LIMIT, 7)).unwrap();
    assert!(index.words() == rules::index(&record, LEVELS).1, "other words than bytewise has");
    let last = sample::frames(Style::Indented, LIMIT) - 1;
    let part = index.ask(format!("$.frames[{last}].timecode").as_bytes()).unwrap();
    let place = part.as_ptr() as usize - record.as_ptr() as usize;
    assert!(record.as_ptr_range().contains(&part.as_ptr()), "the part lies in the record's own memory");
    assert_eq!(&record[place..place + part.len()], part);
    assert_eq!((part.len(), part[0], part[part.len() - 1]), (13, b'"', b'"'));
    let miss = index.ask(format!("$.frames[{}]", last + 1).as_bytes()).unwrap_err();
    let frames = index.find(b"$.frames").unwrap();
    assert_eq!((miss.number(), miss.step(), miss.place()), (26, 2, frames.start));
}

#[test]
fn a_name_of_escapes_is_read_whole() {
    let (start, end) = (&b"{\""[..], &b"\":1,\"a\":2}"[..]);
    let escapes = (LIMIT - start.len() - end.len()) / 6;
    let mut record = [start, &b"\\u0061".repeat(escapes), end].concat();
    let index = Report::new(&record).index(LEVELS, &[]).unwrap();
    assert_eq!(index.find(b"$.a").unwrap(), record.len() - 2..record.len() - 1);
    // the last digit of the last escape
    let digit = record.len() - end.len() - 1;
    record[digit] = b'g';
    let broken = Report::new(&record).index(LEVELS, &[]).unwrap().ask(b"$.a").unwrap_err();
    assert_eq!((broken.number(), broken.step(), broken.place()), (30, 1, 1));
}

#[test]
fn a_fault_in_the_last_byte_leaves_every_word_zero() {
    let mut record = sample::report(Style::Compact, LIMIT);
    record[LIMIT - 1] = b' ';
    for chunks in [1, 64] {
        let cuts = plan::even_cuts(LIMIT, chunks - 1);
        let calls = plan::calls(chunks, Guesses::Random, Order::Random, 3);
        let unindexed = Report::new(&record).index_in(Vec::new(), LEVELS, &cuts, &calls).unwrap_err();
        assert_eq!((unindexed.error().number(), unindexed.error().place()), (16, LIMIT));
        assert!(unindexed.words().len() == 10 * LIMIT / 64 && unindexed.words().iter().all(|&word| word == 0));
    }
}

#[test]
fn a_text_of_lines_gives_the_words_of_each_line_alone() {
    let text = sample::lines(LIMIT);
    let lines = Lines::new(&text).unwrap();
    assert!(lines.len() > 50_000, "{} lines", lines.len());
    let mut words = vec![!0; lines.words_needed(LEVELS)];
    let mut from = 0;
    for line in 0..lines.len() {
        assert_eq!(next_line(&text, from), Some(lines.span(line)));
        from = lines.span(line).end;
        let index = lines.index_in(line, LEVELS, &mut words).unwrap();
        assert_eq!(index.words(), rules::index(lines.line(line), LEVELS).1, "line {line}");
        assert_eq!(index.ask(b"$.frame").unwrap(), line.to_string().as_bytes());
    }
    assert_eq!(next_line(&text, from), None);
}

#[test]
fn a_fault_in_one_line_of_many_is_its_own() {
    let mut text = sample::lines(LIMIT);
    let faulty = Lines::new(&text).unwrap().len() - 2;
    let span = Lines::new(&text).unwrap().span(faulty);
    text[span.end - 1] = b' ';
    let lines = Lines::new(&text).unwrap();
    let mut words = vec![!0; lines.words_needed(LEVELS)];
    let told = (faulty - 1..lines.len()).map(|line| match lines.index_in(line, LEVELS, &mut words) {
        Ok(index) => (line, 0, index.find(b"$.frame").unwrap().start),
        Err(error) => (error.line, error.number(), error.place()),
    });
    let expected = [(faulty - 1, 0, 9), (faulty, 16, span.len()), (faulty + 1, 0, 9)];
    assert_eq!(told.collect::<Vec<_>>(), expected);
}

#[test]
fn as_many_lines_as_there_can_be() {
    let text = b"7\n".repeat(LIMIT / 2);
    let mut table = vec![9; LIMIT + 1];
    assert_eq!(table_in(&text, &mut table), Ok(LIMIT / 2));
    assert!((0..LIMIT / 2).all(|line| table[2 * line..][..2] == [2 * line, 2 * line + 1]) && table[LIMIT] == 9);
    table.fill(9);
    let error = table_in(&text, &mut table[..LIMIT - 1]).unwrap_err();
    assert!(error.number() == 31 && table.iter().all(|&number| number == 9));
    assert_eq!(Lines::new(&text).unwrap().len(), LIMIT / 2);
}
