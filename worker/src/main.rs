//! The program `wararish`: asks reports, and texts line by line, for paths, indexes them, and makes some to try.
#![deny(unsafe_code)]

mod program;

use std::process::ExitCode;

fn main() -> ExitCode {
    program::run(std::env::args_os().skip(1).collect()).into()
}
