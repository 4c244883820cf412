//! Reading the record, whole, into one buffer.

use std::ffi::OsString;
use std::fs::File;
use std::io::{self, ErrorKind, IsTerminal, Read};
use std::path::Path;

use wararish::LIMIT;

use super::progress::Progress;
use super::status::Stop;

/// A record, and what it is called in messages.
pub struct Input {
    pub name: String,
    pub record: Vec<u8>,
}

/// Reads a file, a pipe, or standard input for `-`: at most one byte above the limit, for then the index refuses it.
pub fn read(file: &OsString) -> Result<Input, Stop> {
    let name = if file == "-" { "standard input".into() } else { Path::new(file).display().to_string() };
    match read_bytes(file) {
        Ok(record) => Ok(Input { name, record }),
        Err(why) => Err(Stop::Input(format!("{name} cannot be read: {why}"))),
    }
}

fn read_bytes(file: &OsString) -> io::Result<Vec<u8>> {
    if file == "-" {
        let input = io::stdin();
        // who types the record sees how far it is
        let progress = if input.is_terminal() { Progress::unseen() } else { Progress::of("reading") };
        return read_all(input.lock(), &progress);
    }
    let progress = Progress::of("reading");
    let input = File::open(file)?;
    if input.metadata()?.is_dir() {
        return Err(io::Error::other("it is a directory"));
    }
    read_all(input, &progress)
}

/// The buffer has room for all that can come, so nothing moves; memory that no byte is read into costs nothing.
fn read_all(mut input: impl Read, progress: &Progress) -> io::Result<Vec<u8>> {
    let mut record = vec![0; LIMIT + 1];
    let mut filled = 0;
    while filled < record.len() {
        match input.read(&mut record[filled..]) {
            Ok(0) => break,
            Ok(more) => filled += more,
            Err(why) if why.kind() == ErrorKind::Interrupted => {}
            Err(why) => return Err(why),
        }
        progress.set(filled);
    }
    record.truncate(filled);
    Ok(record)
}
