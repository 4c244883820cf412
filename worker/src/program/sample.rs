//! `wararish sample`: a made report.

use std::io::Write;

use wararish::sample::{report, Style, SMALLEST};
use wararish::LIMIT;

use super::arguments::{number, wrong, Arguments, Known};
use super::out::out;
use super::status::{Status, Stop};

pub const OPTIONS: &[Known] = &[("--style", true), ("--size", true)];

/// A report is made in memory, so there is a largest.
const LARGEST: usize = 1 << 30;

pub fn run(arguments: Arguments) -> Result<Status, Stop> {
    let style = arguments.read_as("--style", Style::Compact, "compact, indented or strings", style)?;
    let size = arguments.read_as("--size", LIMIT, "a number of bytes, 512 to 1,073,741,824", size)?;
    if let Some(word) = arguments.rest.first() {
        return Err(wrong(format!("sample takes options only, and not '{}'", word.to_string_lossy())));
    }
    let mut out = out();
    out.write_all(&report(style, size))?;
    out.flush()?;
    Ok(Status::Done)
}

fn style(text: &str) -> Option<Style> {
    match text {
        "compact" => Some(Style::Compact),
        "indented" => Some(Style::Indented),
        "strings" => Some(Style::Strings),
        _ => None,
    }
}

fn size(text: &str) -> Option<usize> {
    number(text).filter(|size| (SMALLEST..=LARGEST).contains(size))
}
