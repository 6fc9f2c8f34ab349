//! A line on standard error that tells how far a long command is, for a person at a terminal only.

use std::io::{self, IsTerminal, Write};
use std::time::{Duration, Instant};

/// How long a line stands before the next.
const PACE: Duration = Duration::from_millis(100);

/// The columns of a line, on any terminal.
const COLUMNS: usize = 79;

/// A line that is shown while a command works, and taken away when it ends.
#[derive(Debug)]
pub struct Progress {
    terminal: bool,
    next: Instant,
}

impl Progress {
    pub fn new() -> Progress {
        Progress { terminal: io::stderr().is_terminal(), next: Instant::now() }
    }

    /// Shows the words at once.
    pub fn say(&mut self, words: &str) {
        if self.terminal {
            let _ = write!(io::stderr(), "\r{words:<COLUMNS$.COLUMNS$}\r").and_then(|()| io::stderr().flush());
        }
    }

    /// Shows the words if the last ones have stood for a while.
    pub fn tell(&mut self, words: impl FnOnce() -> String) {
        if self.terminal && Instant::now() >= self.next {
            self.next = Instant::now() + PACE;
            self.say(&words());
        }
    }
}

impl Drop for Progress {
    fn drop(&mut self) {
        if self.terminal {
            let _ = write!(io::stderr(), "\r{:COLUMNS$}\r", "").and_then(|()| io::stderr().flush());
        }
    }
}
