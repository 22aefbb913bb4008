//! Why a run didn't do what it was asked, what it says then, and its exit status.

use logbook::Refusal;
use std::fmt;
use std::io::{self, ErrorKind, Write};
use std::path::{Path, PathBuf};
use std::process::ExitCode;

const REFUSED: u8 = 1;
const WRONG: u8 = 2;

#[derive(Debug)]
pub enum Trouble {
    /// A refusal of the library.
    Refused(Refusal),
    /// A refusal that the output already says.
    Listed,
    /// The arguments aren't those of a command; how they should be.
    Usage(String),
    /// A file can't be read, made or replaced.
    File(PathBuf, io::Error),
    /// Standard output can't be written.
    Output(io::Error),
}

impl Trouble {
    pub fn file(path: &Path, error: io::Error) -> Trouble {
        Trouble::File(path.to_path_buf(), error)
    }

    /// Says it on standard error, where there is something to say, and answers the exit status.
    pub fn say(&self) -> ExitCode {
        if self.is_quiet() {
            return self.status();
        }
        remark(self);
        self.status()
    }

    /// A reader that has closed the pipe wants no more, and no complaint either.
    fn is_closed_pipe(&self) -> bool {
        matches!(self, Trouble::Output(error) if error.kind() == ErrorKind::BrokenPipe)
    }

    fn is_quiet(&self) -> bool {
        self.is_closed_pipe() || matches!(self, Trouble::Listed)
    }

    fn status(&self) -> ExitCode {
        match self {
            Trouble::Refused(_) | Trouble::Listed => ExitCode::from(REFUSED),
            _ if self.is_closed_pipe() => ExitCode::SUCCESS,
            _ => ExitCode::from(WRONG),
        }
    }
}

/// Says a sentence on standard error.
pub fn remark(sentence: &dyn fmt::Display) {
    // Nothing is left to be done where standard error can't be written.
    let _ = writeln!(io::stderr(), "logbook: {sentence}");
}

impl fmt::Display for Trouble {
    fn fmt(&self, out: &mut fmt::Formatter<'_>) -> fmt::Result {
        match self {
            Trouble::Refused(refusal) => refusal.fmt(out),
            Trouble::Listed => Ok(()),
            Trouble::Usage(advice) => out.write_str(advice),
            Trouble::File(path, error) => write!(out, "{}: {error}", path.display()),
            Trouble::Output(error) => write!(out, "standard output: {error}"),
        }
    }
}

impl From<Refusal> for Trouble {
    fn from(refusal: Refusal) -> Trouble {
        Trouble::Refused(refusal)
    }
}
