//! The progress of a long job, on standard error.

use std::io::{IsTerminal, Write};
use std::time::{Duration, Instant};

/// How long a job on a terminal runs before it shows anything.
const QUIET: Duration = Duration::from_secs(1);

/// The least time between two lines on the same subject.
const PAUSE: Duration = Duration::from_millis(250);

/// The state of the progress line.
pub struct Progress {
    /// when the first line may be shown; None: never
    from: Option<Instant>,
    terminal: bool,
    last: Option<Instant>,
    what: String,
}

impl Progress {
    /// Shows progress from the start where that is asked for, and after a second on a terminal.
    pub fn new(asked: bool) -> Progress {
        let terminal = std::io::stderr().is_terminal();
        let now = Instant::now();
        let from = match (asked, terminal) {
            (true, _) => Some(now),
            (false, true) => Some(now + QUIET),
            (false, false) => None,
        };
        Progress { from, terminal, last: None, what: String::new() }
    }

    /// Shows how many are done, unless the last line is recent and on the same subject.
    pub fn show(&mut self, what: &str, done: usize, all: usize) {
        let Some(from) = self.from else {
            return;
        };
        let now = Instant::now();
        let recent = self.last.is_some_and(|last| now < last + PAUSE);
        if now < from || recent && what == self.what {
            return;
        }
        self.last = Some(now);
        self.what = what.to_string();
        self.write(&format!("vayemuku: {what}: {done} of {all}"));
    }

    /// Writes a line, over the last one on a terminal.
    fn write(&self, line: &str) {
        let mut to = std::io::stderr();
        // progress that no one reads is not a problem
        let _ = match self.terminal {
            true => write!(to, "\r{line}\x1b[K").and_then(|_| to.flush()),
            false => writeln!(to, "{line}"),
        };
    }

    /// Clears the line on a terminal.
    pub fn finish(&mut self) {
        if self.terminal && self.last.take().is_some() {
            let _ = write!(std::io::stderr(), "\r\x1b[K");
        }
        self.from = None;
    }
}

impl Drop for Progress {
    fn drop(&mut self) {
        self.finish();
    }
}
