//! How far the work is, on standard error, for long work and where that is a terminal.

use std::io::{stderr, IsTerminal, Write};
use std::time::{Duration, Instant};

/// Nothing is said for so long, and then only so often.
const PATIENCE: Duration = Duration::from_secs(2);
const OFTEN: Duration = Duration::from_millis(300);

pub struct Progress {
    /// When the next line is due; never where standard error is no terminal.
    due: Option<Instant>,
    shown: bool,
}

impl Progress {
    pub fn new() -> Self {
        Progress { due: stderr().is_terminal().then(|| Instant::now() + PATIENCE), shown: false }
    }

    /// Says how far the work is, if it is time to.
    pub fn tell(&mut self, what: impl FnOnce() -> String) {
        let now = Instant::now();
        if self.due.is_some_and(|due| due <= now) {
            // A terminal that is gone is no reason to stop.
            let _ = write!(stderr(), "\r\x1b[K{}", what());
            self.due = Some(now + OFTEN);
            self.shown = true;
        }
    }
}

impl Drop for Progress {
    /// Takes the line away.
    fn drop(&mut self) {
        if self.shown {
            let _ = write!(stderr(), "\r\x1b[K");
        }
    }
}
