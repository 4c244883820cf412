//! What the programs of this repository must answer, found byte by byte: from the documents alone for every run that they speak
//! of, and from the contracts where a run strays. The literal numbers of the documents are asserted at every start.
//!
//!   bytewise cases SEED COUNT CALLS LINES [beyond]   writes the calls of the listed cases, of COUNT random ones, of an
//!                                                    eighth as many that stray, as many with names spelt anew and as many
//!                                                    of texts of lines, and the lines that `trial` must print for them;
//!                                                    tells what it made. `beyond`: with a record above the limit, too
//!   bytewise inputs SEED COUNT FOLDER                writes inputs for `show`, N.input, and its lines, N.line

use bytewise::{cases, path, reports};
use std::fs::File;
use std::io::{BufWriter, Write};

/// The numbers of the table, and those that no answer had. 2 wants a record above the limit.
const NUMBERS: [usize; 29] = [0, 1, 2, 3, 4, 5, 6, 7, 8, 9, 10, 11, 12, 13, 14, 15, 16, 20, 21, 22, 23, 24, 25, 26, 27, 28, 29, 30, 31];

fn missing(seen: &[u64; 32], beyond: bool) -> Vec<usize> {
    NUMBERS.into_iter().filter(|&number| (beyond || number != 2) && seen[number] == 0).collect()
}

fn write_cases(seed: u64, count: usize, calls: &str, lines: &str, beyond: bool) -> std::io::Result<bool> {
    let mut calls = BufWriter::new(File::create(calls)?);
    let mut lines = BufWriter::new(File::create(lines)?);
    let mut seen = [0u64; 32];
    let mut made = 0u64;
    for case in cases::all(seed, count, beyond) {
        calls.write_all(&case.calls)?;
        lines.write_all(case.line.as_bytes())?;
        for (number, times) in case.seen.iter().enumerate() {
            seen[number] += times;
        }
        made += 1;
    }
    calls.flush()?;
    lines.flush()?;
    let told: Vec<String> = NUMBERS.into_iter().map(|number| format!("{number}: {}", seen[number])).collect();
    println!("{made} cases, {} answers; of each number {}", seen.iter().sum::<u64>(), told.join(", "));
    let missing = missing(&seen, beyond);
    if !missing.is_empty() {
        println!("no answer has the number {missing:?}");
    }
    Ok(missing.is_empty())
}

fn write_inputs(seed: u64, count: usize, folder: &str) -> std::io::Result<bool> {
    let inputs = cases::inputs(seed, count);
    for (i, input) in inputs.iter().enumerate() {
        std::fs::write(format!("{folder}/{i}.input"), input)?;
        std::fs::write(format!("{folder}/{i}.line"), path::line(input))?;
    }
    println!("{} inputs", inputs.len());
    Ok(true)
}

fn main() {
    reports::check();
    let words: Vec<String> = std::env::args().skip(1).collect();
    let words: Vec<&str> = words.iter().map(String::as_str).collect();
    let number = |word: &str| word.parse::<u64>().ok();
    let done = match words[..] {
        ["cases", seed, count, calls, lines, ref rest @ ..] if matches!(rest, [] | ["beyond"]) => match (number(seed), number(count)) {
            (Some(seed), Some(count)) => write_cases(seed, count as usize, calls, lines, !rest.is_empty()),
            _ => Ok(false),
        },
        ["inputs", seed, count, folder] => match (number(seed), number(count)) {
            (Some(seed), Some(count)) => write_inputs(seed, count as usize, folder),
            _ => Ok(false),
        },
        _ => {
            eprintln!("usage: bytewise cases SEED COUNT CALLS LINES [beyond] | bytewise inputs SEED COUNT FOLDER");
            Ok(false)
        }
    };
    match done {
        Ok(true) => {}
        Ok(false) => std::process::exit(1),
        Err(why) => {
            eprintln!("bytewise: {why}");
            std::process::exit(1);
        }
    }
}
