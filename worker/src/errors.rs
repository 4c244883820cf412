//! What an index, a path and a table of lines can be refused for: the numbers of the scope's table, as types that print as
//! sentences.

use std::error::Error;
use std::fmt;

/// What is wrong with a record that is not sound.
#[derive(Clone, Copy, Debug, PartialEq, Eq)]
#[non_exhaustive]
pub enum FaultKind {
    /// 13: a closer outside all strings, with no bracket open.
    NothingOpen,
    /// 14: an opener outside all strings, with 64 brackets open.
    TooDeep,
    /// 15: a string is open at the end of the record.
    StringOpen,
    /// 16: a bracket is open at the end of the record.
    BracketOpen,
}

/// Why a report has no index: a fault of the record, or a refusal of what was asked.
#[derive(Clone, Copy, Debug, PartialEq, Eq)]
#[non_exhaustive]
pub enum IndexError {
    /// 1
    Empty,
    /// 2
    TooLong,
    /// 3
    Levels,
    /// 4: a line needs more words than are lent. A report never has it: the library lends as many as are needed.
    Words,
    /// 5
    TooManyCuts,
    /// 6, with the number of the first bad cut, from 0.
    Cut(usize),
    /// 12: the list of calls leaves out a step, so the job cannot be closed.
    StepLeftOut,
    /// 13 to 16: the record's first fault, and its place in the record.
    Fault(FaultKind, usize),
}

/// Why a text has no table of lines.
#[derive(Clone, Copy, Debug, PartialEq, Eq)]
#[non_exhaustive]
pub enum LinesError {
    /// 1
    Empty,
    /// 2
    TooLong,
    /// 31: more lines than the lent table has entries.
    TooManyLines,
}

/// Why a line of a table has no index. Nothing of it depends on another line.
#[derive(Clone, Copy, Debug, PartialEq, Eq)]
pub struct LineError {
    /// The line's number in the table, from 0.
    pub line: usize,
    /// 1 to 4, or the line's first fault, whose place is counted in the line.
    pub error: IndexError,
}

/// What a step misses in the value it works in.
#[derive(Clone, Copy, Debug, PartialEq, Eq)]
#[non_exhaustive]
pub enum MissKind {
    /// 23: a name is asked of what is not an object.
    NotAnObject,
    /// 24: a number is asked of what is not an array.
    NotAnArray,
    /// 25
    NoSuchName,
    /// 26
    NoSuchNumber,
}

/// What is wrong with an item that a step meets.
#[derive(Clone, Copy, Debug, PartialEq, Eq)]
#[non_exhaustive]
pub enum BrokenKind {
    /// 27: an object's item without a colon.
    NoColon,
    /// 28: what stands before its colon is no quoted string.
    BadName,
    /// 29: the item is taken, and its value is empty; or the record is blank all through.
    EmptyValue,
    /// 30: its name has an escape that RFC 8259 has not, or an unpaired surrogate. Checked before 29.
    BadEscape,
}

/// Where the walk along a path ends.
#[derive(Clone, Copy, Debug, PartialEq, Eq)]
pub struct Where {
    /// The step of the path, from 1; 0 where the record is blank all through, since no step is taken then.
    pub step: usize,
    /// In the record: of a miss the first byte of the value that the step works in, of a broken item the byte behind the
    /// bracket or comma before it.
    pub place: usize,
}

/// Why a path leads to no part of the record.
#[derive(Clone, Copy, Debug, PartialEq, Eq)]
#[non_exhaustive]
pub enum AskError {
    /// 20, with the place in the path from which on it is none.
    NoPath(usize),
    /// 21
    PathTooLarge,
    /// 22
    TooManySteps,
    /// 23 to 26: the record has no such part.
    Miss(MissKind, Where),
    /// 27 to 30: the walk meets a broken item.
    Broken(BrokenKind, Where),
}

impl FaultKind {
    pub fn number(self) -> u64 {
        match self {
            FaultKind::NothingOpen => 13,
            FaultKind::TooDeep => 14,
            FaultKind::StringOpen => 15,
            FaultKind::BracketOpen => 16,
        }
    }
}

impl MissKind {
    pub fn number(self) -> u64 {
        match self {
            MissKind::NotAnObject => 23,
            MissKind::NotAnArray => 24,
            MissKind::NoSuchName => 25,
            MissKind::NoSuchNumber => 26,
        }
    }
}

impl BrokenKind {
    pub fn number(self) -> u64 {
        match self {
            BrokenKind::NoColon => 27,
            BrokenKind::BadName => 28,
            BrokenKind::EmptyValue => 29,
            BrokenKind::BadEscape => 30,
        }
    }
}

impl IndexError {
    /// What the close, or the opening's refusal, told: nothing where it is done.
    pub(crate) fn told(number: u64, place: usize) -> Result<(), IndexError> {
        Err(match number {
            0 => return Ok(()),
            1 => IndexError::Empty,
            2 => IndexError::TooLong,
            3 => IndexError::Levels,
            4 => IndexError::Words,
            5 => IndexError::TooManyCuts,
            6 => IndexError::Cut(place),
            12 => IndexError::StepLeftOut,
            13 => IndexError::Fault(FaultKind::NothingOpen, place),
            14 => IndexError::Fault(FaultKind::TooDeep, place),
            15 => IndexError::Fault(FaultKind::StringOpen, place),
            16 => IndexError::Fault(FaultKind::BracketOpen, place),
            _ => unreachable!("an opening and a close tell 0 to 6 or 12 to 16, not {number}"),
        })
    }

    pub fn number(self) -> u64 {
        match self {
            IndexError::Empty => 1,
            IndexError::TooLong => 2,
            IndexError::Levels => 3,
            IndexError::Words => 4,
            IndexError::TooManyCuts => 5,
            IndexError::Cut(_) => 6,
            IndexError::StepLeftOut => 12,
            IndexError::Fault(kind, _) => kind.number(),
        }
    }

    /// A fault's place in the record, or the number of the bad cut; else 0.
    pub fn place(self) -> usize {
        match self {
            IndexError::Cut(place) | IndexError::Fault(_, place) => place,
            _ => 0,
        }
    }

    pub fn is_fault(self) -> bool {
        matches!(self, IndexError::Fault(..))
    }
}

impl LinesError {
    /// What the making of a table told: nothing where it is done.
    pub(crate) fn told(number: u64) -> Result<(), LinesError> {
        Err(match number {
            0 => return Ok(()),
            1 => LinesError::Empty,
            2 => LinesError::TooLong,
            31 => LinesError::TooManyLines,
            _ => unreachable!("a table is made, or refused with 1, 2 or 31, not {number}"),
        })
    }

    pub fn number(self) -> u64 {
        match self {
            LinesError::Empty => 1,
            LinesError::TooLong => 2,
            LinesError::TooManyLines => 31,
        }
    }
}

impl LineError {
    pub fn number(self) -> u64 {
        self.error.number()
    }

    /// A fault's place in the line; else 0.
    pub fn place(self) -> usize {
        self.error.place()
    }

    pub fn is_fault(self) -> bool {
        self.error.is_fault()
    }
}

impl AskError {
    /// What a query over an index told: nothing where it has found a part.
    pub(crate) fn told(number: u64, place: usize, step: usize) -> Result<(), AskError> {
        let at = Where { step, place };
        Err(match number {
            0 => return Ok(()),
            20 => AskError::NoPath(place),
            21 => AskError::PathTooLarge,
            22 => AskError::TooManySteps,
            23 => AskError::Miss(MissKind::NotAnObject, at),
            24 => AskError::Miss(MissKind::NotAnArray, at),
            25 => AskError::Miss(MissKind::NoSuchName, at),
            26 => AskError::Miss(MissKind::NoSuchNumber, at),
            27 => AskError::Broken(BrokenKind::NoColon, at),
            28 => AskError::Broken(BrokenKind::BadName, at),
            29 => AskError::Broken(BrokenKind::EmptyValue, at),
            30 => AskError::Broken(BrokenKind::BadEscape, at),
            _ => unreachable!("a query over an index tells 0 or 20 to 30, not {number}"),
        })
    }

    pub fn number(self) -> u64 {
        match self {
            AskError::NoPath(_) => 20,
            AskError::PathTooLarge => 21,
            AskError::TooManySteps => 22,
            AskError::Miss(kind, _) => kind.number(),
            AskError::Broken(kind, _) => kind.number(),
        }
    }

    /// For 20 the place in the path, for 23 to 30 the place in the record; else 0.
    pub fn place(self) -> usize {
        match self {
            AskError::NoPath(place) => place,
            AskError::Miss(_, at) | AskError::Broken(_, at) => at.place,
            _ => 0,
        }
    }

    /// For 23 to 30 the step of the path, from 1; else 0, and where the record is blank all through.
    pub fn step(self) -> usize {
        match self {
            AskError::Miss(_, at) | AskError::Broken(_, at) => at.step,
            _ => 0,
        }
    }

    /// The path is good, and the record has no such part (23 to 26).
    pub fn is_miss(self) -> bool {
        matches!(self, AskError::Miss(..))
    }

    /// The walk met an item that is broken, or the record is blank all through (27 to 30).
    pub fn is_broken_item(self) -> bool {
        matches!(self, AskError::Broken(..))
    }

    /// The path itself is refused (20 to 22).
    pub fn is_refusal(self) -> bool {
        matches!(self, AskError::NoPath(_) | AskError::PathTooLarge | AskError::TooManySteps)
    }
}

impl fmt::Display for FaultKind {
    fn fmt(&self, f: &mut fmt::Formatter) -> fmt::Result {
        f.write_str(match self {
            FaultKind::NothingOpen => "a bracket is closed that was not opened",
            FaultKind::TooDeep => "a bracket is opened where 64 are open",
            FaultKind::StringOpen => "a string is open at the end of the record",
            FaultKind::BracketOpen => "a bracket is open at the end of the record",
        })
    }
}

impl fmt::Display for MissKind {
    fn fmt(&self, f: &mut fmt::Formatter) -> fmt::Result {
        f.write_str(match self {
            MissKind::NotAnObject => "the value is not an object",
            MissKind::NotAnArray => "the value is not an array",
            MissKind::NoSuchName => "the object has no such name",
            MissKind::NoSuchNumber => "the array has no such number",
        })
    }
}

impl fmt::Display for BrokenKind {
    fn fmt(&self, f: &mut fmt::Formatter) -> fmt::Result {
        f.write_str(match self {
            BrokenKind::NoColon => "a broken item without a colon",
            BrokenKind::BadName => "a broken item whose name is no quoted string",
            BrokenKind::EmptyValue => "a broken item whose value is empty",
            BrokenKind::BadEscape => "a broken item whose name has a bad escape or an unpaired surrogate",
        })
    }
}

impl fmt::Display for IndexError {
    fn fmt(&self, f: &mut fmt::Formatter) -> fmt::Result {
        match self {
            IndexError::Empty => f.write_str("the record is empty"),
            IndexError::TooLong => f.write_str("the record is above 16,777,216 bytes"),
            IndexError::Levels => f.write_str("the levels are not 1 to 16"),
            IndexError::Words => f.write_str("the lent words are not as many as are needed"),
            IndexError::TooManyCuts => f.write_str("there are more than 63 cuts"),
            IndexError::Cut(place) => {
                write!(f, "cut {place} (from 0) is no multiple of 64 inside the record and above the cut before it")
            }
            IndexError::StepLeftOut => f.write_str("the calls leave out a step"),
            IndexError::Fault(kind, place) => write!(f, "{kind}, at byte {place}"),
        }
    }
}

impl fmt::Display for LinesError {
    fn fmt(&self, f: &mut fmt::Formatter) -> fmt::Result {
        f.write_str(match self {
            LinesError::Empty => "the text is empty",
            LinesError::TooLong => "the text is above 16,777,216 bytes",
            LinesError::TooManyLines => "the text has more lines than the table has entries",
        })
    }
}

/// A sentence about a line says so: whoever reads it may think of the whole text as the record.
impl fmt::Display for LineError {
    fn fmt(&self, f: &mut fmt::Formatter) -> fmt::Result {
        write!(f, "line {} of the table: ", self.line)?;
        match self.error {
            IndexError::Empty => f.write_str("it is empty, or there is no such line"),
            IndexError::TooLong => f.write_str("it is above 16,777,216 bytes"),
            IndexError::Words => f.write_str("it needs more words than are lent"),
            IndexError::Fault(kind, place) => {
                match kind {
                    FaultKind::StringOpen => f.write_str("a string is open at the end of the line")?,
                    FaultKind::BracketOpen => f.write_str("a bracket is open at the end of the line")?,
                    FaultKind::NothingOpen | FaultKind::TooDeep => kind.fmt(f)?,
                }
                write!(f, ", at byte {place} of the line")
            }
            other => other.fmt(f),
        }
    }
}

impl fmt::Display for AskError {
    fn fmt(&self, f: &mut fmt::Formatter) -> fmt::Result {
        match self {
            AskError::NoPath(place) => write!(f, "this is no path, from byte {place} of it on"),
            AskError::PathTooLarge => f.write_str("the path is above 1,024 bytes, or a number in it above 16,777,215"),
            AskError::TooManySteps => f.write_str("the path has more steps than the index has levels"),
            AskError::Broken(_, Where { step: 0, .. }) => f.write_str("the record is blank all through"),
            AskError::Miss(kind, Where { step, place }) => write!(f, "step {step}: {kind}, at byte {place}"),
            AskError::Broken(kind, Where { step, place }) => write!(f, "step {step}: {kind}, at byte {place}"),
        }
    }
}

impl Error for IndexError {}
impl Error for AskError {}
impl Error for LinesError {}
impl Error for LineError {}

#[cfg(test)]
mod tests {
    use super::*;

    #[test]
    fn every_number_maps_to_a_variant_that_tells_it() {
        for number in [1, 2, 3, 4, 5, 6, 12, 13, 14, 15, 16] {
            let error = IndexError::told(number, 9).unwrap_err();
            assert_eq!(error.number(), number);
            assert_eq!(error.place(), if number == 6 || number > 12 { 9 } else { 0 });
            assert_eq!(error.is_fault(), number > 12);
        }
        for number in 20..=30 {
            let error = AskError::told(number, 9, 3).unwrap_err();
            let walked = number > 22;
            assert_eq!(error.number(), number);
            assert_eq!(error.place(), if number == 20 || walked { 9 } else { 0 });
            assert_eq!(error.step(), if walked { 3 } else { 0 });
            let kind = (error.is_refusal(), error.is_miss(), error.is_broken_item());
            assert_eq!(kind, (!walked, (23..27).contains(&number), number > 26));
        }
        assert_eq!((IndexError::told(0, 0), AskError::told(0, 3, 0)), (Ok(()), Ok(())));
    }

    #[test]
    fn a_sentence_tells_the_step_and_the_place() {
        let sentence = |number| AskError::told(number, 9, 3).unwrap_err().to_string();
        let whys = [
            "the value is not an object",
            "the value is not an array",
            "the object has no such name",
            "the array has no such number",
            "a broken item without a colon",
            "a broken item whose name is no quoted string",
            "a broken item whose value is empty",
            "a broken item whose name has a bad escape or an unpaired surrogate",
        ];
        for (number, why) in (23..).zip(whys) {
            assert_eq!(sentence(number), format!("step 3: {why}, at byte 9"));
        }
        assert_eq!(AskError::told(29, 0, 0).unwrap_err().to_string(), "the record is blank all through");
    }

    #[test]
    fn every_number_of_a_table_maps_to_a_variant_that_tells_it() {
        let sentences = [
            (1, "the text is empty"),
            (2, "the text is above 16,777,216 bytes"),
            (31, "the text has more lines than the table has entries"),
        ];
        for (number, sentence) in sentences {
            let error = LinesError::told(number).unwrap_err();
            assert_eq!((error.number(), error.to_string().as_str()), (number, sentence));
        }
        assert_eq!(LinesError::told(0), Ok(()));
    }

    #[test]
    fn a_sentence_about_a_line_tells_its_number() {
        let sentences = [
            (1, "it is empty, or there is no such line"),
            (2, "it is above 16,777,216 bytes"),
            (3, "the levels are not 1 to 16"),
            (4, "it needs more words than are lent"),
            (13, "a bracket is closed that was not opened, at byte 9 of the line"),
            (14, "a bracket is opened where 64 are open, at byte 9 of the line"),
            (15, "a string is open at the end of the line, at byte 9 of the line"),
            (16, "a bracket is open at the end of the line, at byte 9 of the line"),
        ];
        for (number, sentence) in sentences {
            let error = LineError { line: 7, error: IndexError::told(number, 9).unwrap_err() };
            assert_eq!(error.to_string(), format!("line 7 of the table: {sentence}"));
            assert_eq!((error.number(), error.place()), (number, if number > 12 { 9 } else { 0 }));
            assert_eq!(error.is_fault(), number > 12);
        }
    }

    #[test]
    #[should_panic(expected = "not 7")]
    fn a_close_of_an_open_job_never_tells_that_it_is_closed() {
        let _ = IndexError::told(7, 0);
    }
}
