//! Progress on a terminal, for work that takes above a second.

use std::io::{self, IsTerminal, Write};
use std::sync::atomic::{AtomicUsize, Ordering};
use std::sync::mpsc::{self, RecvTimeoutError, Sender};
use std::sync::Arc;
use std::thread::{self, JoinHandle};
use std::time::{Duration, Instant};

/// How long nothing is said, and then how often.
const QUIET: Duration = Duration::from_secs(1);
const OFTEN: Duration = Duration::from_millis(200);

/// Watches a piece of work until it is dropped; then the line is cleared.
pub struct Progress {
    bytes: Arc<AtomicUsize>,
    watcher: Option<(Sender<()>, JoinHandle<()>)>,
}

impl Progress {
    /// Says `doing` and the bytes so far, to a terminal; else nobody watches.
    pub fn of(doing: &'static str) -> Progress {
        let mut progress = Progress::unseen();
        if io::stderr().is_terminal() {
            let bytes = Arc::clone(&progress.bytes);
            let (end, ended) = mpsc::channel::<()>();
            let goes_on = move |wait| ended.recv_timeout(wait) == Err(RecvTimeoutError::Timeout);
            progress.watcher = Some((end, thread::spawn(move || watch(doing, &bytes, goes_on))));
        }
        progress
    }

    pub fn unseen() -> Progress {
        Progress { bytes: Arc::new(AtomicUsize::new(0)), watcher: None }
    }

    pub fn set(&self, bytes: usize) {
        self.bytes.store(bytes, Ordering::Relaxed);
    }
}

impl Drop for Progress {
    fn drop(&mut self) {
        if let Some((end, watcher)) = self.watcher.take() {
            drop(end);
            let _ = watcher.join();
        }
    }
}

/// Rewrites one line, as long as the work goes on.
fn watch(doing: &str, bytes: &AtomicUsize, goes_on: impl Fn(Duration) -> bool) {
    let start = Instant::now();
    if !goes_on(QUIET) {
        return;
    }
    let mut out = io::stderr();
    loop {
        let (bytes, seconds) = (bytes.load(Ordering::Relaxed), start.elapsed().as_secs());
        let _ = write!(out, "\r\x1b[Kwararish: {doing}, {bytes} bytes, {seconds} s");
        if !goes_on(OFTEN) {
            break;
        }
    }
    let _ = write!(out, "\r\x1b[K");
}
