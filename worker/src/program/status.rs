//! The exit status, and sentences on standard error.

use std::fmt;
use std::io::{self, Write};
use std::process::ExitCode;

use wararish::{AskError, IndexError};

/// In rising order: of several answers, the greatest counts.
#[derive(Clone, Copy, Debug, PartialEq, Eq, PartialOrd, Ord)]
pub enum Status {
    /// Found, sound.
    Done = 0,
    Miss = 1,
    /// A fault of the record, a broken item, an empty record or one above the limit.
    Fault = 2,
    /// Wrong use: arguments that cannot be.
    Use = 64,
    /// The file cannot be read.
    Input = 66,
    /// The results cannot be written.
    Output = 74,
}

impl From<Status> for ExitCode {
    fn from(status: Status) -> ExitCode {
        ExitCode::from(status as u8)
    }
}

impl From<IndexError> for Status {
    fn from(error: IndexError) -> Status {
        match error {
            IndexError::Empty | IndexError::TooLong => Status::Fault,
            _ if error.is_fault() => Status::Fault,
            _ => Status::Use,
        }
    }
}

impl From<AskError> for Status {
    fn from(error: AskError) -> Status {
        if error.is_miss() {
            Status::Miss
        } else if error.is_refusal() {
            Status::Use
        } else {
            Status::Fault
        }
    }
}

/// Why a command ends before its results.
pub enum Stop {
    Use(String),
    Input(String),
    Output(io::Error),
}

impl Stop {
    pub fn status(&self) -> Status {
        match self {
            Stop::Use(_) => Status::Use,
            Stop::Input(_) => Status::Input,
            Stop::Output(_) => Status::Output,
        }
    }
}

impl From<io::Error> for Stop {
    fn from(why: io::Error) -> Stop {
        Stop::Output(why)
    }
}

impl fmt::Display for Stop {
    fn fmt(&self, f: &mut fmt::Formatter) -> fmt::Result {
        match self {
            Stop::Use(why) | Stop::Input(why) => f.write_str(why),
            Stop::Output(why) => write!(f, "the results cannot be written: {why}"),
        }
    }
}

/// A message. Where standard error is closed there is nobody to tell.
pub fn say(sentence: &str) {
    let _ = writeln!(io::stderr(), "wararish: {sentence}");
}
