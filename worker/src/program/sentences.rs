//! Messages about records, lines and paths: a sentence with its number, the bytes at its place, and a caret below.

use std::fmt::Display;

use wararish::lines::line_feeds;
use wararish::{AskError, IndexError, LineError, LinesError, Where};

use super::reading::Input;
use super::steps;

/// How many bytes are shown before a place, and behind it.
const ASIDE: usize = 30;

/// How many bytes of a path a sentence shows.
const SHOWN: usize = 60;

/// Every byte takes one column, so that the caret stands right.
fn printable(bytes: &[u8]) -> String {
    bytes.iter().map(|&byte| if matches!(byte, b' '..=b'~') { byte as char } else { '.' }).collect()
}

/// Why a record has no index.
pub fn of_record(input: &Input, error: IndexError) -> String {
    let (name, number) = (&input.name, error.number());
    if !error.is_fault() {
        return format!("{name}: {error} ({number})");
    }
    let (place, window) = in_record(&input.record, error.place());
    format!("{name}: {error}, {place} ({number})\n{window}")
}

/// Why a text has no table of lines.
pub fn of_text(input: &Input, error: LinesError) -> String {
    format!("{}: {error} ({})", input.name, error.number())
}

/// Why a path leads nowhere in a record. That a record is blank all through needs no bytes to be seen.
pub fn of_path(path: &[u8], record: &[u8], error: AskError) -> String {
    let (why, window) = match error {
        AskError::NoPath(place) => (error.to_string(), window(path, place)),
        AskError::Miss(kind, at) => of_step(path, record, kind, at),
        AskError::Broken(kind, at) if at.step > 0 => of_step(path, record, kind, at),
        _ => return format!("{}: {error} ({})", shown(path), error.number()),
    };
    format!("{}: {why} ({})\n{window}", shown(path), error.number())
}

/// What a step of a path meets in the record, and the bytes there.
fn of_step(path: &[u8], record: &[u8], kind: impl Display, at: Where) -> (String, String) {
    let step = shown(steps::text(path, at.step));
    let (place, window) = in_record(record, at.place);
    (format!("step {}, {step}: {kind}, at byte {}, {place}", at.step, at.place), window)
}

/// A line of a text that a message is about: what the text is called, the line's number in the table, its bytes, and its
/// number in the text, blank lines counted, from 1.
pub struct LineOf<'a> {
    pub name: &'a str,
    pub line: usize,
    pub record: &'a [u8],
    pub number: usize,
}

impl LineOf<'_> {
    /// Why it has no index.
    pub fn has_fault(&self, error: LineError) -> String {
        let number = error.number();
        if !error.is_fault() {
            return format!("{}: {error} ({number})", self.name);
        }
        let (place, window) = self.in_text(error.place());
        format!("{}: {error}, {place} ({number})\n{window}", self.name)
    }

    /// Why a path leads nowhere in it.
    pub fn has_not(&self, path: &[u8], error: AskError) -> String {
        let about = format!("{}: line {} of the table: {}", self.name, self.line, shown(path));
        let (kind, at): (&dyn Display, Where) = match &error {
            AskError::Miss(kind, at) => (kind, *at),
            AskError::Broken(kind, at) if at.step > 0 => (kind, *at),
            _ => return format!("{about}: {error} ({})", error.number()),
        };
        let step = shown(steps::text(path, at.step));
        let (place, window) = self.in_text(at.place);
        let sentence = format!("step {}, {step}: {kind}, at byte {} of the line, {place}", at.step, at.place);
        format!("{about}: {sentence} ({})\n{window}", error.number())
    }

    /// Where a place of the line is in the text, as an editor tells it, and the bytes there.
    fn in_text(&self, place: usize) -> (String, String) {
        (format!("line {}, column {} of the text", self.number, place + 1), window(self.record, place))
    }
}

/// How many lines there are up to a place. The places rise, so that many messages need one pass over the text.
pub struct LineCount {
    place: usize,
    feeds: usize,
}

impl LineCount {
    pub fn new() -> LineCount {
        LineCount { place: 0, feeds: 0 }
    }

    /// The number of the line that a place is in, from 1.
    pub fn up_to(&mut self, text: &[u8], place: usize) -> usize {
        self.feeds += line_feeds(&text[self.place..place]);
        self.place = place;
        1 + self.feeds
    }
}

/// A path, or a step of one, as a sentence shows it.
fn shown(path: &[u8]) -> String {
    if path.len() <= SHOWN {
        return printable(path);
    }
    printable(&path[..SHOWN - 2]) + ".."
}

/// The bytes around a place, which may be the end of them, and a caret below it.
fn window(bytes: &[u8], place: usize) -> String {
    let from = place.saturating_sub(ASIDE);
    let to = bytes.len().min(place + ASIDE);
    format!("  {}\n  {:>width$}", printable(&bytes[from..to]), '^', width = place - from + 1)
}

/// A line of a record: its number from 1, where it begins, and how far it is shown.
struct Line {
    number: usize,
    start: usize,
    end: usize,
}

/// The line of a place, up to its line feed. The record's end is in the line of the last byte, also of a line feed. A broken
/// item may begin with blanks and line feeds: what stands behind them is shown too.
fn line_of(record: &[u8], place: usize) -> Line {
    let at_end = place == record.len();
    let before = &record[..if at_end { place.saturating_sub(1) } else { place }];
    let feeds = line_feeds(before);
    // a long record of one line is not looked through from behind
    let start = if feeds == 0 { 0 } else { before.iter().rposition(|&byte| byte == b'\n').map_or(0, |i| i + 1) };
    let behind = &record[place..record.len().min(place + ASIDE)];
    let blanks = behind.iter().take_while(|byte| matches!(byte, b' ' | b'\t' | b'\n' | b'\r')).count();
    let rest = behind[blanks..].iter().position(|&byte| byte == b'\n').map_or(behind.len(), |i| blanks + i);
    Line { number: 1 + feeds, start, end: place + rest }
}

/// Where a place of the record is, in lines and columns (from 1, a column a byte), and the bytes there.
fn in_record(record: &[u8], place: usize) -> (String, String) {
    let line = line_of(record, place);
    let column = place - line.start;
    (format!("line {}, column {}", line.number, column + 1), window(&record[line.start..line.end], column))
}

#[cfg(test)]
mod tests {
    use super::*;

    #[test]
    fn a_place_is_shown_in_its_line() {
        let shown = |record: &[u8], place| in_record(record, place);
        assert_eq!(shown(b"]", 0), ("line 1, column 1".into(), "  ]\n  ^".into()));
        assert_eq!(shown(b"[\n[]]]\n", 4), ("line 2, column 3".into(), "  []]]\n    ^".into()));
        assert_eq!(shown(b"[1,\"\xc3\xa9\t", 7), ("line 1, column 8".into(), "  [1,\"...\n         ^".into()));
        assert_eq!(shown(b"[\n[\n", 4), ("line 2, column 3".into(), "  [.\n    ^".into()));
        assert_eq!(shown(b"[\n\n]]", 4), ("line 3, column 2".into(), "  ]]\n   ^".into()));
        assert_eq!(shown(b"{ \n  x\n}", 1), ("line 1, column 2".into(), "  { .  x\n   ^".into()));
        assert_eq!(shown(b"[1, \r\n\n", 3), ("line 1, column 4".into(), "  [1, ...\n     ^".into()));
    }

    #[test]
    fn lines_are_counted_in_a_long_record() {
        let record = [&[b'\n'; 1000][..], b"x\n", &[b'x'; 1000]].concat();
        for (place, told) in [(127, (128, 1)), (256, (257, 1)), (1001, (1001, 2)), (1500, (1002, 499))] {
            assert_eq!(in_record(&record, place).0, format!("line {}, column {}", told.0, told.1));
        }
    }

    #[test]
    fn a_window_has_thirty_bytes_before_and_behind() {
        let line: Vec<u8> = (b'!'..=b'~').collect();
        let (_, shown) = in_record(&line, 50);
        assert_eq!(shown, format!("  {}\n  {}^", printable(&line[20..80]), " ".repeat(30)));
        let (_, shown) = in_record(&line, line.len());
        assert_eq!(shown, format!("  {}\n  {}^", printable(&line[line.len() - 30..]), " ".repeat(30)));
    }

    #[test]
    fn a_long_path_is_cut_short() {
        assert_eq!(shown(&[b'$'; 60]), "$".repeat(60));
        assert_eq!(shown(&[b'$'; 61]), "$".repeat(58) + "..");
        assert_eq!(shown(b"$.\x1b\xff"), "$...");
    }
}
