//! Problems: what standard error says, and the status.

use std::fmt::Display;
use std::io::{ErrorKind, Write};
use std::process::ExitCode;

/// Why the program stops.
#[derive(Debug, PartialEq)]
pub enum Problem {
    /// The command line is not valid: status 2.
    Usage(String),
    /// A file cannot be read or written, or has wrong contents: status 3.
    File(String),
    /// A call refused, and then the list could not be written: status 3; the refusal comes first.
    Unwritten(Vec<String>),
    /// A call refused: status 4; lines may follow the first.
    Refused(Vec<String>),
}

impl Problem {
    /// A problem with a file.
    pub fn with_file(name: &str, why: impl Display) -> Problem {
        Problem::File(format!("{name}: {why}"))
    }

    /// The refusal of a call, for a file.
    pub fn refused(name: &str, why: impl Display) -> Problem {
        Problem::Refused(vec![format!("{name}: {why}")])
    }

    /// The problem of a list that could not be written after the refusal that these lines describe.
    pub fn after(self, mut refused: Vec<String>) -> Problem {
        refused.extend(self.lines());
        Problem::Unwritten(refused)
    }

    /// The lines on standard error.
    fn lines(self) -> Vec<String> {
        match self {
            Problem::Usage(why) => vec![format!("{why}; see `vayemuku help`")],
            Problem::File(why) => vec![why],
            Problem::Unwritten(lines) | Problem::Refused(lines) => lines,
        }
    }

    /// Writes the lines, and gives the status.
    pub fn report(self) -> ExitCode {
        let status = match self {
            Problem::Usage(_) => 2,
            Problem::File(_) | Problem::Unwritten(_) => 3,
            Problem::Refused(_) => 4,
        };
        self.lines().into_iter().for_each(warn);
        ExitCode::from(status)
    }
}

/// Writes a line on standard error.
pub fn warn(line: impl Display) {
    // where standard error cannot be written, nothing can be reported
    let _ = writeln!(std::io::stderr(), "vayemuku: {line}");
}

/// Writes a line on standard output.
pub fn say(line: impl Display) -> Result<(), Problem> {
    match writeln!(std::io::stdout(), "{line}") {
        // a reader that has closed its end is not a problem
        Err(why) if why.kind() != ErrorKind::BrokenPipe => Err(Problem::with_file("standard output", why)),
        _ => Ok(()),
    }
}
