//! Progress on a terminal: how much is verified, and how fast.

use std::io::{self, IsTerminal, Write};
use std::time::{Duration, Instant};

/// The least time between two changes of the line.
const PAUSE: Duration = Duration::from_millis(100);

/// A line on standard error that is written over and over. Where that is no terminal nothing is shown.
pub struct Progress {
    shows: bool,
    start: Instant,
    last: Option<Instant>,
}

impl Progress {
    pub fn new(wanted: bool) -> Self {
        let shows = wanted && io::stderr().is_terminal();
        Progress { shows, start: Instant::now(), last: None }
    }

    /// What is done before anything is verified, where that may take a while.
    pub fn say(&mut self, what: &str) {
        if self.shows {
            self.last = Some(Instant::now());
            self.put(&format!("\r{what} ..\x1b[K"));
        }
    }

    /// So many bytes are verified now.
    pub fn show(&mut self, bytes: u64) {
        if !self.shows || self.last.is_some_and(|last| last.elapsed() < PAUSE) {
            return;
        }
        self.last = Some(Instant::now());
        let mebibytes = bytes as f64 / f64::from(1 << 20);
        let rate = mebibytes / self.start.elapsed().as_secs_f64().max(0.001);
        self.put(&format!("\r{mebibytes:.1} MiB verified, {rate:.1} MiB/s\x1b[K"));
    }

    /// Takes the line away.
    pub fn clear(&mut self) {
        if self.last.take().is_some() {
            self.put("\r\x1b[K");
        }
    }

    /// A terminal that is gone is no reason to stop.
    fn put(&self, text: &str) {
        let mut out = io::stderr();
        let _ = out.write_all(text.as_bytes()).and_then(|()| out.flush());
    }
}
