//! What a path comes to in a record, and how that is printed.

use std::io::{self, Write};
use std::ops::Range;

use wararish::{AskError, IndexError};

use super::arguments::Arguments;
use super::json::write_string;
use super::status::Stop;

/// What is printed for a path.
#[derive(Clone, Copy, PartialEq, Eq)]
pub enum Form {
    Value,
    Where,
    Json,
}

impl Form {
    pub fn read(arguments: &Arguments) -> Result<Form, Stop> {
        arguments.not_both("--where", "--json")?;
        Ok(match (arguments.has("--where"), arguments.has("--json")) {
            (false, false) => Form::Value,
            (true, _) => Form::Where,
            (_, true) => Form::Json,
        })
    }
}

/// Its number, where the part lies or the number's place twice, the step, the part, and a sentence.
pub struct Answer<'r> {
    number: u64,
    start: usize,
    end: usize,
    step: usize,
    part: Option<&'r [u8]>,
    message: String,
}

impl<'r> Answer<'r> {
    pub fn found(record: &'r [u8], place: Range<usize>) -> Answer<'r> {
        let (start, end) = (place.start, place.end);
        Answer { number: 0, start, end, step: 0, part: Some(&record[place]), message: "found".into() }
    }

    pub fn not_found(error: AskError) -> Answer<'r> {
        Answer::refused(error.number(), error.place(), error.step(), error.to_string())
    }

    /// The record has no index.
    pub fn unindexed(error: IndexError) -> Answer<'r> {
        Answer::refused(error.number(), error.place(), 0, error.to_string())
    }

    fn refused(number: u64, place: usize, step: usize, message: String) -> Answer<'r> {
        Answer { number, start: place, end: place, step, part: None, message }
    }

    /// The value's bytes: none where there is no value.
    pub fn write_value(&self, out: &mut impl Write) -> io::Result<()> {
        out.write_all(self.part.unwrap_or_default())
    }

    pub fn write_where(&self, out: &mut impl Write) -> io::Result<()> {
        write!(out, "{} {} {} {}", self.number, self.start, self.end, self.step)
    }

    /// The members of an object, without its brackets.
    pub fn write_members(&self, out: &mut impl Write, path: &[u8]) -> io::Result<()> {
        out.write_all(b"\"path\":")?;
        write_string(out, &String::from_utf8_lossy(path))?;
        write!(out, ",\"number\":{},\"start\":{},\"end\":{},", self.number, self.start, self.end)?;
        write!(out, "\"step\":{},\"value\":", self.step)?;
        match self.part.map(std::str::from_utf8) {
            Some(Ok(text)) => write_string(out, text)?,
            _ => out.write_all(b"null")?,
        }
        out.write_all(b",\"message\":")?;
        write_string(out, &self.message)
    }
}
