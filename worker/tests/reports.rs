//! The reports of the documents through the safe face, with the documents' own numbers as bytewise has copied them.

use bytewise::line_reports::{self, LineCall, LineReport};
use bytewise::path::{self, Found};
use bytewise::reports::{self, Report as Said};
use told::line_told;
use wararish::{line_in, next_line, table_in, Call, Index, IndexError, Report};

mod told;

/// Scans from the last chunk to the first, with the guesses of a number's bits; then settle and level.
fn calls(chunks: usize, guesses: u64) -> Vec<Call> {
    let scans = (0..chunks).rev().map(|k| Call::scan(k, guesses >> k & 1 == 1));
    scans.chain((0..chunks).flat_map(|k| [Call::settle(k), Call::level(k)])).collect()
}

/// What a query tells: where the part lies, or number, step and place.
fn found(index: &Index, path: &str) -> Found {
    match index.find(path.as_bytes()) {
        Ok(part) => path::part(part.start, part.end),
        Err(error) => path::told(error.number(), error.step(), error.place()),
    }
}

/// Checks an index against what is said, and tells how many literals there were.
fn check(said: &Said, indexed: Result<Index, IndexError>) -> usize {
    let fault = indexed.as_ref().err().map(|error| (error.number(), error.place()));
    assert_eq!(fault, said.fault, "report {}", said.name);
    let Ok(index) = indexed else { return 1 };
    let wide = said.record.len().div_ceil(64);
    for &((name, row), words) in said.words {
        assert_eq!(index.words()[row * wide..][..wide], *words, "report {}: {name}", said.name);
    }
    for &(path, told) in said.paths {
        assert_eq!(found(&index, path), told, "report {}: {path}", said.name);
    }
    1 + said.words.len() + said.paths.len()
}

#[test]
fn every_report_by_every_guess_and_in_the_plain_order() {
    let mut literals = 0;
    for said in reports::all() {
        let report = Report::new(&said.record);
        for guesses in 0..said.guesses {
            let calls = calls(said.cuts.len() + 1, guesses);
            literals += check(&said, report.index_by(said.levels, said.cuts, &calls));
        }
        literals += check(&said, report.index(said.levels, said.cuts));
    }
    assert!(literals > 600, "the table has lost reports: {literals} literals");
}

/// Checks one line: what it tells, its own words, and that all others are as they were. Two literals.
fn check_line(said: &LineReport, table: &[usize], call: &LineCall, words: &mut [u64]) -> usize {
    let (name, line) = (said.name, call.line);
    let left = [call.front, &words[call.front.len()..]].concat();
    let indexed = line_in(&said.text, table, line, call.levels, &mut words[..call.words]);
    assert_eq!(line_told(&indexed), call.told, "report {name}: line {line}");
    if let Ok(index) = indexed {
        assert_eq!((index.line(), index.words()), (line, call.front), "report {name}: line {line}");
    }
    assert_eq!(words, left, "report {name}: what line {line} leaves");
    2
}

/// Checks a text's table and its lines, over the words that the lines before left, and tells how many literals there
/// were.
fn check_lines(said: &LineReport, words: &mut [u64]) -> usize {
    let mut table = said.lent.clone();
    let mut literals = 0;
    if let Some((answer, numbers)) = said.made {
        let told = table_in(&said.text, &mut table).map_or_else(|error| (error.number(), 0), |count| (0, count));
        assert_eq!((told, &table[..]), (answer, numbers), "report {}: the table", said.name);
        literals += 2;
    }
    literals + said.calls.iter().map(|call| check_line(said, &table, call, words)).sum::<usize>()
}

/// All lines of all texts, in the front of one buffer.
#[test]
fn every_table_and_every_line() {
    let room = line_reports::all().flat_map(|said| said.calls).map(|call| call.words).max().unwrap();
    let mut words: Vec<u64> = (0..room as u64 + 3).map(|word| !word).collect();
    let literals: usize = line_reports::all().map(|said| check_lines(&said, &mut words)).sum();
    assert!(literals >= 430, "the tables have lost reports: {literals} literals");
}

#[test]
fn every_next_line() {
    let mut literals = 0;
    for &(text, from, said) in line_reports::all_next() {
        let told = next_line(text, from).map(|line| (line.start, line.end));
        assert_eq!(told, said, "from {from} of \"{}\"", text.escape_ascii());
        literals += 1;
    }
    assert!(literals >= 34, "the table has lost next lines: {literals} literals");
}
