//! A report and its index: the record is borrowed and never copied, the words are held once.

use std::error::Error;
use std::fmt;
use std::ops::Range;

use crate::calls::Call;
use crate::errors::{AskError, IndexError};
use crate::face;

/// The longest record, in bytes.
pub const LIMIT: usize = 16_777_216;

/// The most levels that an index can have.
pub const LEVELS: usize = 16;

/// How many words the index of a record of `n` bytes has; none where the levels or the length are refused.
pub fn words_needed(levels: usize, n: usize) -> usize {
    if (1..=LEVELS).contains(&levels) && n <= LIMIT {
        (2 + 2 * levels) * n.div_ceil(64)
    } else {
        0
    }
}

/// A record that an index can be made for.
#[derive(Clone, Copy)]
pub struct Report<'r> {
    record: &'r [u8],
}

/// The index of a sound record.
pub struct Index<'r> {
    record: &'r [u8],
    words: Vec<u64>,
    levels: usize,
}

/// A report that got no index: why, and the words that were lent. After a fault they are all zero.
pub struct Unindexed {
    error: IndexError,
    words: Vec<u64>,
}

impl<'r> Report<'r> {
    pub fn new(record: &'r [u8]) -> Report<'r> {
        Report { record }
    }

    pub fn record(&self) -> &'r [u8] {
        self.record
    }

    /// Cut at these places, every chunk scanned as if it began outside a string, from the last to the first.
    pub fn index(&self, levels: usize, cuts: &[usize]) -> Result<Index<'r>, IndexError> {
        Ok(self.made_in(Vec::new(), levels, |words| face::index(self.record, words, levels, cuts))?)
    }

    /// As `index`, by a list of calls. Every list that leaves out no step gives the same words, or the same fault.
    pub fn index_by(&self, levels: usize, cuts: &[usize], calls: &[Call]) -> Result<Index<'r>, IndexError> {
        Ok(self.index_in(Vec::new(), levels, cuts, calls)?)
    }

    /// As `index_by`, in the words of an earlier index. They need not be cleared, nor be as many as are needed.
    pub fn index_in(
        &self,
        words: Vec<u64>,
        levels: usize,
        cuts: &[usize],
        calls: &[Call],
    ) -> Result<Index<'r>, Unindexed> {
        self.made_in(words, levels, |words| face::run(self.record, words, levels, cuts, calls))
    }

    fn made_in(
        &self,
        lent: Vec<u64>,
        levels: usize,
        make: impl FnOnce(&mut [u64]) -> face::Told,
    ) -> Result<Index<'r>, Unindexed> {
        let mut words = fitted(lent, words_needed(levels, self.record.len()));
        let (number, place) = make(&mut words);
        match IndexError::told(number, place) {
            Ok(()) => Ok(Index { record: self.record, words, levels }),
            Err(error) => Err(Unindexed { error, words }),
        }
    }
}

/// So many words: those lent where they have room. New ones come from the system as zero, without a pass over them.
fn fitted(mut lent: Vec<u64>, needed: usize) -> Vec<u64> {
    if lent.capacity() < needed {
        return vec![0; needed];
    }
    lent.resize(needed, 0);
    lent
}

/// Where a path leads to in a record, by the words of its index.
pub(crate) fn find(record: &[u8], words: &[u64], levels: usize, path: &[u8]) -> Result<Range<usize>, AskError> {
    let told = face::query(record, words, levels, path);
    AskError::told(told.number, told.place, told.step)?;
    Ok(told.place..told.place + told.size)
}

impl<'r> Index<'r> {
    /// The part of the record that the path leads to. Names are compared by their characters, with their escapes read;
    /// of equal ones the first counts.
    pub fn ask(&self, path: &[u8]) -> Result<&'r [u8], AskError> {
        Ok(&self.record[self.find(path)?])
    }

    /// Where that part lies in the record.
    pub fn find(&self, path: &[u8]) -> Result<Range<usize>, AskError> {
        find(self.record, &self.words, self.levels, path)
    }

    pub fn record(&self) -> &'r [u8] {
        self.record
    }

    pub fn words(&self) -> &[u64] {
        &self.words
    }

    pub fn levels(&self) -> usize {
        self.levels
    }

    /// The words, to be lent again.
    pub fn into_words(self) -> Vec<u64> {
        self.words
    }
}

impl Unindexed {
    pub fn error(&self) -> IndexError {
        self.error
    }

    pub fn words(&self) -> &[u64] {
        &self.words
    }

    /// The words, to be lent again.
    pub fn into_words(self) -> Vec<u64> {
        self.words
    }
}

impl From<Unindexed> for IndexError {
    fn from(unindexed: Unindexed) -> IndexError {
        unindexed.error
    }
}

impl fmt::Display for Unindexed {
    fn fmt(&self, f: &mut fmt::Formatter) -> fmt::Result {
        self.error.fmt(f)
    }
}

impl Error for Unindexed {
    fn source(&self) -> Option<&(dyn Error + 'static)> {
        Some(&self.error)
    }
}

// These three may hold millions of bytes and words: only how many is told.

impl fmt::Debug for Report<'_> {
    fn fmt(&self, f: &mut fmt::Formatter) -> fmt::Result {
        write!(f, "Report of {} bytes", self.record.len())
    }
}

impl fmt::Debug for Index<'_> {
    fn fmt(&self, f: &mut fmt::Formatter) -> fmt::Result {
        write!(f, "Index of {} bytes, {} levels, {} words", self.record.len(), self.levels, self.words.len())
    }
}

impl fmt::Debug for Unindexed {
    fn fmt(&self, f: &mut fmt::Formatter) -> fmt::Result {
        write!(f, "Unindexed, {:?}, {} words", self.error, self.words.len())
    }
}

#[cfg(test)]
mod tests {
    use super::*;

    #[test]
    fn words_are_counted_within_the_limits_only() {
        assert_eq!(words_needed(1, 1), 4);
        assert_eq!(words_needed(4, 65), 20);
        assert_eq!(words_needed(16, LIMIT), 34 * 262_144);
        for (levels, n) in [(0, 1), (17, 1), (usize::MAX, 1), (1, LIMIT + 1), (16, usize::MAX), (1, 0)] {
            assert_eq!(words_needed(levels, n), 0);
        }
    }

    #[test]
    fn lent_words_are_used_where_they_have_room() {
        let lent = vec![7; 100];
        let place = lent.as_ptr();
        let fewer = fitted(lent, 20);
        assert_eq!((fewer.as_ptr(), fewer.len()), (place, 20));
        let again = fitted(fewer, 100);
        assert_eq!((again.as_ptr(), again.len()), (place, 100));
        assert_eq!(fitted(again, 101), vec![0; 101]);
    }
}
