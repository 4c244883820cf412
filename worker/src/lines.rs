//! A text with a report in each line: the table of its lines, and the index of each by itself, in words that are lent to
//! one line after another. Neither the text nor a line of it is copied.

use std::fmt;
use std::ops::Range;

use crate::errors::{AskError, IndexError, LineError, LinesError};
use crate::face;
use crate::report::{find, words_needed, LIMIT};

/// A text and the table of its lines: of all that are not blank. Lines are cut at line feeds, in strings too, and the line
/// feed is in no line. A carriage return before it is, for nothing is trimmed. A last line needs no line feed.
///
/// ```
/// use wararish::Lines;
///
/// let lines = Lines::new(b"{\"rate\":24}\n{\"rate\":25]}\n\n{\"rate\":26}\n")?;
/// let mut words = vec![0; lines.words_needed(1)];
/// let rates: Vec<Option<&[u8]>> = (0..lines.len())
///     .map(|line| lines.index_in(line, 1, &mut words).ok()?.ask(b"$.rate").ok())
///     .collect();
/// assert_eq!(rates, [Some(&b"24"[..]), None, Some(b"26")]);
///
/// let fault = lines.index_in(1, 1, &mut words).unwrap_err();
/// assert_eq!((fault.line, fault.number(), fault.place()), (1, 13, 11));
/// # Ok::<(), wararish::LinesError>(())
/// ```
#[derive(Clone)]
pub struct Lines<'t> {
    text: &'t [u8],
    /// Two numbers a line: where it starts and where it ends.
    table: Vec<usize>,
}

/// The index of one line, in the front of the words that were lent for it. As long as it is there, they are lent to no other.
#[derive(Clone, Copy)]
pub struct LineIndex<'t, 'w> {
    line: usize,
    record: &'t [u8],
    words: &'w [u64],
    levels: usize,
}

/// How many numbers a table for this text needs at most, two a line; none where the text is refused. Two lines have a line
/// feed between them, and each has a byte.
pub fn table_needed(text: &[u8]) -> usize {
    if text.is_empty() || text.len() > LIMIT {
        return 0;
    }
    2 * (1 + line_feeds(text).min(text.len() / 2))
}

/// How many line feeds there are, in parts that a byte can count, which is fast: a text may be long.
pub fn line_feeds(bytes: &[u8]) -> usize {
    let few = |part: &[u8]| part.iter().fold(0u8, |feeds, &byte| feeds.wrapping_add(u8::from(byte == b'\n')));
    bytes.chunks(128).map(|part| usize::from(few(part))).sum()
}

/// Makes the table of a text's lines in numbers that are lent, and tells how many lines there are: line `i` starts at number
/// `2i` and ends before number `2i + 1`. What stands behind stays, and after a refusal all of it.
pub fn table_in(text: &[u8], table: &mut [usize]) -> Result<usize, LinesError> {
    let (number, count) = face::table(text, table);
    LinesError::told(number)?;
    Ok(count)
}

/// Indexes a line of a table by itself, in the front of the words. They need not be cleared, and may be more than the line
/// needs: those behind stay. An entry that is no part of the text, or a number behind the table, is an empty line.
pub fn line_in<'t, 'w>(
    text: &'t [u8],
    table: &[usize],
    line: usize,
    levels: usize,
    words: &'w mut [u64],
) -> Result<LineIndex<'t, 'w>, LineError> {
    let (number, place) = face::line(text, table, line, words, levels);
    IndexError::told(number, place).map_err(|error| LineError { line, error })?;
    let record = &text[span(table, line)];
    Ok(LineIndex { line, record, words: &words[..words_needed(levels, record.len())], levels })
}

/// The first line that is not blank from a place on, without a table. A line is taken to begin at the place: to walk all
/// lines, begin at 0 and go on where the last one ends.
///
/// ```
/// use std::iter::successors;
/// use wararish::next_line;
///
/// let text = b"[1]\n \n[2]";
/// let lines = successors(next_line(text, 0), |line| next_line(text, line.end));
/// assert_eq!(lines.collect::<Vec<_>>(), [0..3, 6..9]);
/// ```
pub fn next_line(text: &[u8], from: usize) -> Option<Range<usize>> {
    face::next_line(text, from)
}

fn span(table: &[usize], line: usize) -> Range<usize> {
    table[2 * line]..table[2 * line + 1]
}

impl<'t> Lines<'t> {
    /// With a table that has room for all lines, so 31 cannot come.
    pub fn new(text: &'t [u8]) -> Result<Lines<'t>, LinesError> {
        let mut table = vec![0; table_needed(text)];
        let count = table_in(text, &mut table)?;
        table.truncate(2 * count);
        Ok(Lines { text, table })
    }

    pub fn text(&self) -> &'t [u8] {
        self.text
    }

    /// Two numbers a line: where it starts and where it ends.
    pub fn table(&self) -> &[usize] {
        &self.table
    }

    pub fn len(&self) -> usize {
        self.table.len() / 2
    }

    /// All lines are blank.
    pub fn is_empty(&self) -> bool {
        self.table.is_empty()
    }

    /// Where a line lies in the text. Panics where there is no line of this number, as `line` does.
    pub fn span(&self, line: usize) -> Range<usize> {
        assert!(line < self.len(), "there are {} lines, so none has the number {line}", self.len());
        span(&self.table, line)
    }

    pub fn line(&self, line: usize) -> &'t [u8] {
        &self.text[self.span(line)]
    }

    /// All of them, in their order.
    pub fn iter(&self) -> impl ExactSizeIterator<Item = &'t [u8]> + '_ {
        (0..self.len()).map(|line| self.line(line))
    }

    /// How many words suffice for each line: those of the longest.
    pub fn words_needed(&self, levels: usize) -> usize {
        words_needed(levels, self.iter().map(<[u8]>::len).max().unwrap_or(0))
    }

    /// Indexes a line by itself, in the front of the words, which are lent to one line after another and need not be
    /// cleared. What it gives, and what an error tells, is that of a report of the line's bytes alone.
    pub fn index_in<'w>(
        &self,
        line: usize,
        levels: usize,
        words: &'w mut [u64],
    ) -> Result<LineIndex<'t, 'w>, LineError> {
        line_in(self.text, &self.table, line, levels, words)
    }
}

impl<'t, 'w> LineIndex<'t, 'w> {
    /// The part of the line that the path leads to, as `Index::ask` has it.
    pub fn ask(&self, path: &[u8]) -> Result<&'t [u8], AskError> {
        Ok(&self.record[self.find(path)?])
    }

    /// Where that part lies in the line.
    pub fn find(&self, path: &[u8]) -> Result<Range<usize>, AskError> {
        find(self.record, self.words, self.levels, path)
    }

    /// The line's number in the table, from 0.
    pub fn line(&self) -> usize {
        self.line
    }

    /// The line's bytes.
    pub fn record(&self) -> &'t [u8] {
        self.record
    }

    /// The line's own words, and none of those behind.
    pub fn words(&self) -> &'w [u64] {
        self.words
    }

    pub fn levels(&self) -> usize {
        self.levels
    }
}

// As those of a report: only how many there are is told.

impl fmt::Debug for Lines<'_> {
    fn fmt(&self, f: &mut fmt::Formatter) -> fmt::Result {
        write!(f, "Lines, {} of {} bytes", self.len(), self.text.len())
    }
}

impl fmt::Debug for LineIndex<'_, '_> {
    fn fmt(&self, f: &mut fmt::Formatter) -> fmt::Result {
        let (bytes, words) = (self.record.len(), self.words.len());
        write!(f, "LineIndex {} of {bytes} bytes, {} levels, {words} words", self.line, self.levels)
    }
}

#[cfg(test)]
mod tests {
    use super::*;
    use crate::report::Report;

    fn table(text: &[u8]) -> Vec<usize> {
        Lines::new(text).unwrap().table().to_vec()
    }

    #[test]
    fn lines_are_cut_at_line_feeds_and_blank_ones_left_out() {
        assert_eq!(table(b"[1]\n[2]\n"), [0, 3, 4, 7]);
        assert_eq!(table(b"[1]\n[2]"), [0, 3, 4, 7], "a last line needs no line feed");
        assert_eq!(table(b"[1]\r\n\r\n [2] \r\n"), [0, 4, 7, 13], "nothing is trimmed");
        assert_eq!(table(b"\n\n \t\r\nx"), [6, 7]);
        assert_eq!(table(b"[\"a\nb\"]\n[2]"), [0, 3, 4, 7, 8, 11], "in a string too");
        assert_eq!(table(b"[1]\r[2]\x0b\x0c\0"), [0, 10], "a carriage return alone ends no line");
        assert_eq!(table(b"\x0b\n\x0c\n\0\n\xa0"), [0, 1, 2, 3, 4, 5, 6, 7], "and these are no blanks");
        for blank in [&b" "[..], b"\n", b"\r\n\t\n  \n", &[b'\n'; 1000]] {
            let lines = Lines::new(blank).unwrap();
            assert_eq!((lines.is_empty(), lines.len(), lines.iter().len()), (true, 0, 0));
            assert_eq!((lines.words_needed(4), lines.table()), (0, &[][..]));
        }
    }

    #[test]
    fn a_table_has_room_for_every_line() {
        let texts: [&[u8]; 7] = [b"1", b"1\n", b"1\n2", b"\n1", b"1\n2\n", &[b'\n'; 300], &b"1\n".repeat(300)];
        for text in texts {
            let lines = Lines::new(text).unwrap();
            assert!(2 * lines.len() <= table_needed(text), "{text:?}");
            assert!(table_needed(text) <= text.len() + 2, "{text:?}");
        }
        assert_eq!((table_needed(b""), table_needed(&vec![b'\n'; LIMIT + 1])), (0, 0));
        assert_eq!(table_needed(&vec![b'\n'; LIMIT]), LIMIT + 2);
    }

    #[test]
    fn a_text_is_refused_for_its_size_alone() {
        assert_eq!(Lines::new(b"").unwrap_err(), LinesError::Empty);
        let mut text = vec![b' '; LIMIT + 1];
        assert_eq!(Lines::new(&text).unwrap_err(), LinesError::TooLong);
        text.pop();
        assert_eq!(Lines::new(&text).unwrap().len(), 0);
    }

    #[test]
    fn a_lent_table_keeps_what_stands_behind_and_after_a_refusal_all() {
        let text = b"[1]\n\n[2]\n";
        let mut table = [9; 7];
        assert_eq!(table_in(text, &mut table), Ok(2));
        assert_eq!(table, [0, 3, 5, 8, 9, 9, 9]);
        for room in 0..4 {
            let mut table = vec![9; room];
            let error = table_in(text, &mut table).unwrap_err();
            assert_eq!((error.number(), table), (31, vec![9; room]));
        }
        assert_eq!(table_in(b" \n", &mut []), Ok(0), "blank lines need no table");
        let mut table = [9; 3];
        assert_eq!(table_in(b"", &mut table).unwrap_err().number(), 1);
        assert_eq!(table, [9; 3]);
    }

    /// What a report of a line's bytes alone comes to: its words, or number and place.
    fn alone(line: &[u8], levels: usize) -> Result<Vec<u64>, (u64, usize)> {
        match Report::new(line).index(levels, &[]) {
            Ok(index) => Ok(index.into_words()),
            Err(error) => Err((error.number(), error.place())),
        }
    }

    #[test]
    fn each_line_is_indexed_as_a_report_of_its_own() {
        let long = format!("{{\"a\":[{}],\"b\":7}}", "1,".repeat(90));
        let deep = "[".repeat(65);
        let text = ["[1,{\"b\":2}]\r", "]", "", &long, "[\"a", "b\"]", &deep, "{", "{\"b\":3}"].join("\n");
        let lines = Lines::new(text.as_bytes()).unwrap();
        assert_eq!(lines.len(), 8);
        for levels in [1, 4, 16] {
            let mut words: Vec<u64> = (0..lines.words_needed(levels)).map(|word| !(word as u64)).collect();
            for line in [2, 0, 1, 3, 4, 5, 7, 6, 0, 2] {
                let before = words.clone();
                let needed = words_needed(levels, lines.line(line).len());
                let told = match lines.index_in(line, levels, &mut words) {
                    Ok(index) => Ok(index.words().to_vec()),
                    Err(error) => Err((error.number(), error.place())),
                };
                assert_eq!(told, alone(lines.line(line), levels), "line {line}");
                assert_eq!(words[..needed], told.unwrap_or(vec![0; needed]), "line {line}");
                assert_eq!(words[needed..], before[needed..], "the words behind stay, line {line}");
            }
        }
    }

    #[test]
    fn a_line_is_asked_for_parts_of_the_text_itself() {
        let text = b" {\"a\":[1,20]} \n{\"a\":[3]}";
        let lines = Lines::new(text).unwrap();
        let mut words = vec![0; lines.words_needed(2)];
        let index = lines.index_in(1, 2, &mut words).unwrap();
        assert_eq!((index.line(), index.levels(), index.record()), (1, 2, &b"{\"a\":[3]}"[..]));
        assert_eq!(index.find(b"$.a[0]"), Ok(6..7));
        let miss = index.ask(b"$.a[1]").unwrap_err();
        assert_eq!((miss.number(), miss.step(), miss.place()), (26, 2, 5));
        let part = lines.index_in(0, 2, &mut words).unwrap().ask(b"$.a[1]").unwrap();
        assert_eq!((part, part.as_ptr()), (&b"20"[..], text[9..].as_ptr()));
    }

    #[test]
    fn a_line_is_refused_without_a_word_written() {
        let text = b"[1]\n[2]";
        let refused = |table: &[usize], line, levels, room| {
            let mut words = vec![7; room];
            let error = line_in(text, table, line, levels, &mut words).unwrap_err();
            assert_eq!((error.line, error.place(), words), (line, 0, vec![7; room]));
            error.number()
        };
        let table = [0, 3, 4, 7];
        assert_eq!([refused(&table, 2, 1, 4), refused(&table, usize::MAX, 1, 4)], [1, 1], "behind the table");
        for (start, end) in [(1, 1), (3, 2), (0, 8), (8, 9), (usize::MAX, usize::MAX), (usize::MAX, 1)] {
            assert_eq!(refused(&[start, end], 0, 1, 4), 1, "{start} to {end}");
        }
        assert_eq!(refused(&[0, 3, 4], 1, 1, 4), 1, "an odd last number is no line");
        assert_eq!([refused(&table, 0, 0, 4), refused(&table, 0, 17, 99)], [3, 3]);
        assert_eq!([refused(&table, 1, 1, 3), refused(&table, 1, 4, 9), refused(&table, 1, 1, 0)], [4, 4, 4]);
        let mut words = [7; 5];
        let whole = line_in(text, &[9, 9, 0, 7], 1, 1, &mut words).unwrap();
        assert_eq!((whole.record(), whole.words().len()), (&text[..], 4), "an entry may be any part of the text");
    }

    #[test]
    fn the_next_line_needs_no_table() {
        let text = b"\n[1]\r\n \n[2]";
        let all: Vec<_> = (0..=text.len() + 1).map(|from| next_line(text, from)).collect();
        let last = Some(8..11);
        let expected = [&[Some(1..5), Some(1..5), Some(2..5), Some(3..5)][..], &vec![last.clone(); 5]].concat();
        assert_eq!(all[..9], expected);
        assert_eq!(all[9..], [Some(9..11), Some(10..11), None, None]);
        assert_eq!([next_line(b"", 0), next_line(text, usize::MAX), next_line(b" \n\t", 0)], [None, None, None]);
    }

    #[test]
    #[should_panic(expected = "there are 1 lines, so none has the number 1")]
    fn no_line_behind_the_last() {
        Lines::new(b"1\n").unwrap().line(1);
    }
}
