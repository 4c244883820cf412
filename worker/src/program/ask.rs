//! `wararish ask`: one index, many paths.

use std::ffi::OsString;
use std::io::{self, Write};
use std::os::unix::ffi::OsStrExt;

use wararish::{Index, Report};

use super::answer::{Answer, Form};
use super::arguments::{wrong, Arguments, Known};
use super::out::out;
use super::progress::Progress;
use super::reading;
use super::sentences;
use super::status::{say, Status, Stop};
use super::steps;

pub const OPTIONS: &[Known] = &[("--where", false), ("--json", false)];

pub fn run(mut arguments: Arguments) -> Result<Status, Stop> {
    let form = Form::read(&arguments)?;
    let file = arguments.rest.pop().ok_or_else(|| wrong("PATH and FILE are missing".into()))?;
    let paths: Vec<&[u8]> = arguments.rest.iter().map(|path| path.as_bytes()).collect();
    if paths.is_empty() {
        return Err(wrong("PATH or FILE is missing: wararish ask PATH.. FILE".into()));
    }
    answer(&paths, &file, form)
}

fn answer(paths: &[&[u8]], file: &OsString, form: Form) -> Result<Status, Stop> {
    let input = reading::read(file)?;
    let progress = Progress::of("indexing");
    progress.set(input.record.len());
    let indexed = Report::new(&input.record).index(steps::levels(paths), &[]);
    drop(progress);
    let mut out = out();
    let status = match indexed {
        Ok(index) => ask_each(&mut out, &index, paths, form)?,
        Err(error) => {
            for path in paths {
                write(&mut out, path, form, &Answer::unindexed(error))?;
            }
            out.flush()?;
            say(&sentences::of_record(&input, error));
            error.into()
        }
    };
    out.flush()?;
    Ok(status)
}

fn ask_each(out: &mut impl Write, index: &Index, paths: &[&[u8]], form: Form) -> io::Result<Status> {
    let mut status = Status::Done;
    for path in paths {
        match index.find(path) {
            Ok(place) => write(out, path, form, &Answer::found(index.record(), place))?,
            Err(error) => {
                write(out, path, form, &Answer::not_found(error))?;
                // the lines of the paths before it come before its message
                out.flush()?;
                say(&sentences::of_path(path, index.record(), error));
                status = status.max(error.into());
            }
        }
    }
    Ok(status)
}

fn write(out: &mut impl Write, path: &[u8], form: Form, answer: &Answer) -> io::Result<()> {
    match form {
        Form::Value => answer.write_value(out)?,
        Form::Where => answer.write_where(out)?,
        Form::Json => {
            out.write_all(b"{")?;
            answer.write_members(out, path)?;
            out.write_all(b"}")?;
        }
    }
    out.write_all(b"\n")
}
