//! `wararish lines`: a record a line, each indexed by itself and asked for the same path.

use std::ffi::OsString;
use std::io::{self, Write};
use std::ops::Range;
use std::os::unix::ffi::OsStrExt;

use wararish::{AskError, LineError, Lines, Report, LEVELS};

use super::answer::{Answer, Form};
use super::arguments::{number, wrong, Arguments, Known};
use super::out::out;
use super::reading::{self, Input};
use super::sentences::{self, LineCount, LineOf};
use super::status::{say, Status, Stop};
use super::steps;

pub const OPTIONS: &[Known] = &[("--levels", true), ("--where", false), ("--json", false)];

/// What is asked of each line: a path, or only whether it is sound.
struct Question<'a> {
    path: Option<&'a [u8]>,
    form: Form,
    levels: usize,
}

/// Why a line has no value.
enum Trouble {
    Line(LineError),
    Path(AskError),
}

/// Where the value lies in its line. Without a path there is none to find, and a sound line has 0 to 0.
type Answered = Result<Range<usize>, Trouble>;

pub fn run(arguments: Arguments) -> Result<Status, Stop> {
    let (file, path) = operands(&arguments.rest)?;
    let question = Question::read(&arguments, path)?;
    let input = reading::read(file)?;
    match Lines::new(&input.record) {
        Ok(lines) => {
            let mut out = out();
            let status = answer_each(&mut out, &input, &lines, &question)?;
            out.flush()?;
            Ok(status)
        }
        Err(error) => {
            say(&sentences::of_text(&input, error));
            Ok(Status::Fault)
        }
    }
}

/// FILE, and PATH where there is one.
fn operands(words: &[OsString]) -> Result<(&OsString, Option<&[u8]>), Stop> {
    match words {
        [] => Err(wrong("FILE is missing".into())),
        [file] => Ok((file, None)),
        [file, path] => Ok((file, Some(path.as_bytes()))),
        [_, _, more, ..] => {
            Err(wrong(format!("there is one FILE and one PATH, so '{}' is too much", more.to_string_lossy())))
        }
    }
}

fn levels(text: &str) -> Option<usize> {
    number(text).filter(|levels| (1..=LEVELS).contains(levels))
}

fn answer_each(out: &mut impl Write, input: &Input, lines: &Lines, question: &Question) -> io::Result<Status> {
    let mut words = vec![0; lines.words_needed(question.levels)];
    let mut counted = LineCount::new();
    let mut status = Status::Done;
    for line in 0..lines.len() {
        let answer = question.put(lines, line, &mut words);
        question.write(out, lines, line, &answer)?;
        if let Err(trouble) = answer {
            // the rows of the lines before it come before its message
            out.flush()?;
            let number = counted.up_to(lines.text(), lines.span(line).start);
            let place = LineOf { name: &input.name, line, record: lines.line(line), number };
            status = status.max(trouble.say(&place, question.path));
        }
    }
    Ok(status)
}

impl<'a> Question<'a> {
    /// Refuses what no line can be asked, so that it is told once and not for each.
    fn read(arguments: &Arguments, path: Option<&'a [u8]>) -> Result<Question<'a>, Stop> {
        let form = Form::read(arguments)?;
        if form == Form::Where && path.is_none() {
            return Err(wrong("--where needs a PATH".into()));
        }
        let levels = arguments.read_as("--levels", steps::levels(path.as_slice()), "a number, 1 to 16", levels)?;
        if let Some(path) = path {
            let any = Report::new(b"0").index(levels, &[]).expect("a digit is a sound record");
            match any.find(path) {
                Err(error) if error.is_refusal() => return Err(wrong(sentences::of_path(path, any.record(), error))),
                _ => {}
            }
        }
        Ok(Question { path, form, levels })
    }

    fn put(&self, lines: &Lines, line: usize, words: &mut [u64]) -> Answered {
        let index = lines.index_in(line, self.levels, words).map_err(Trouble::Line)?;
        match self.path {
            Some(path) => index.find(path).map_err(Trouble::Path),
            None => Ok(0..0),
        }
    }

    fn write(&self, out: &mut impl Write, lines: &Lines, line: usize, answer: &Answered) -> io::Result<()> {
        if self.form == Form::Json {
            let Range { start, end } = lines.span(line);
            write!(out, "{{\"line\":{line},\"line_start\":{start},\"line_end\":{end},")?;
        }
        match self.path {
            Some(path) => self.write_answer(out, path, &told(lines.line(line), answer))?,
            None => self.write_verdict(out, line, answer)?,
        }
        out.write_all(if self.form == Form::Json { b"}\n" } else { b"\n" })
    }

    fn write_answer(&self, out: &mut impl Write, path: &[u8], answer: &Answer) -> io::Result<()> {
        match self.form {
            Form::Value => answer.write_value(out),
            Form::Where => answer.write_where(out),
            Form::Json => answer.write_members(out, path),
        }
    }

    fn write_verdict(&self, out: &mut impl Write, line: usize, answer: &Answered) -> io::Result<()> {
        let (number, place) = match answer {
            Err(Trouble::Line(error)) => (error.number(), error.place()),
            _ => (0, 0),
        };
        match (self.form, number) {
            (Form::Json, 0) => write!(out, "\"number\":0,\"place\":0,\"verdict\":\"sound\""),
            (Form::Json, _) => {
                write!(out, "\"number\":{number},\"place\":{place},\"verdict\":\"fault {number} at {place}\"")
            }
            (_, 0) => write!(out, "{line} sound"),
            _ => write!(out, "{line} faulty {number} {place}"),
        }
    }
}

/// What `ask` would tell of the line's bytes alone.
fn told<'r>(record: &'r [u8], answer: &Answered) -> Answer<'r> {
    match answer {
        Ok(place) => Answer::found(record, place.clone()),
        Err(Trouble::Line(fault)) => Answer::unindexed(fault.error),
        Err(Trouble::Path(error)) => Answer::not_found(*error),
    }
}

impl Trouble {
    fn say(&self, place: &LineOf, path: Option<&[u8]>) -> Status {
        match *self {
            Trouble::Line(error) => {
                say(&place.has_fault(error));
                error.error.into()
            }
            Trouble::Path(error) => {
                say(&place.has_not(path.unwrap_or_default(), error));
                error.into()
            }
        }
    }
}
