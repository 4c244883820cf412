//! The commands, and how they end.

mod answer;
mod arguments;
mod ask;
mod help;
mod index;
mod json;
mod lines;
mod out;
mod progress;
mod reading;
mod sample;
mod sentences;
mod status;
mod steps;

use std::ffi::OsString;
use std::io::{self, Write};

use arguments::{Arguments, Known};
use status::{say, Status, Stop};

/// Does what the arguments ask for.
pub fn run(arguments: Vec<OsString>) -> Status {
    match dispatch(arguments) {
        Ok(status) => status,
        Err(stop) => {
            say(&stop.to_string());
            stop.status()
        }
    }
}

fn dispatch(mut arguments: Vec<OsString>) -> Result<Status, Stop> {
    if arguments.is_empty() {
        let _ = io::stderr().write_all(help::PROGRAM.as_bytes());
        return Ok(Status::Use);
    }
    let command = arguments.remove(0);
    match command.to_str() {
        Some("ask") => commanded(help::ASK, ask::OPTIONS, arguments, ask::run),
        Some("index") => commanded(help::INDEX, index::OPTIONS, arguments, index::run),
        Some("lines") => commanded(help::LINES, lines::OPTIONS, arguments, lines::run),
        Some("sample") => commanded(help::SAMPLE, sample::OPTIONS, arguments, sample::run),
        Some("--help" | "-h") => print(help::PROGRAM),
        Some("--version" | "-V") => print(concat!("wararish ", env!("CARGO_PKG_VERSION"), "\n")),
        _ => Err(Stop::Use(format!("there is no command '{}'; wararish --help tells them", command.to_string_lossy()))),
    }
}

fn commanded(
    help: &str,
    options: &'static [Known],
    words: Vec<OsString>,
    command: fn(Arguments) -> Result<Status, Stop>,
) -> Result<Status, Stop> {
    match Arguments::read(options, words)? {
        Some(arguments) => command(arguments),
        None => print(help),
    }
}

fn print(text: &str) -> Result<Status, Stop> {
    let mut out = out::out();
    out.write_all(text.as_bytes())?;
    out.flush()?;
    Ok(Status::Done)
}
