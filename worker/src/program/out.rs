//! Standard output, which may be closed before all is written.

use std::io::{self, BufWriter, ErrorKind, StdoutLock, Write};

/// Whoever closes it has read enough: what comes then is dropped, and the command ends as it would have.
pub struct Out(StdoutLock<'static>);

pub fn out() -> BufWriter<Out> {
    BufWriter::new(Out(io::stdout().lock()))
}

fn unless_closed<T>(written: io::Result<T>, dropped: T) -> io::Result<T> {
    match written {
        Err(why) if why.kind() == ErrorKind::BrokenPipe => Ok(dropped),
        written => written,
    }
}

impl Write for Out {
    fn write(&mut self, bytes: &[u8]) -> io::Result<usize> {
        unless_closed(self.0.write(bytes), bytes.len())
    }

    fn flush(&mut self) -> io::Result<()> {
        unless_closed(self.0.flush(), ())
    }
}
