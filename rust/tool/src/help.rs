//! The help texts.

use crate::commands::{Command, COMMANDS};
use std::io::{self, Write};

const FILES: &str = "\
A file that is changed is replaced as a whole: a crash at any moment leaves the old one or the new
one. Where FILE is a link, the file that it leads to is replaced. Two changes of one file take
turns: the second waits for the first one's lock (flock). The new file keeps the old one's
permissions; further names (hard links) keep the old file.
";

const STATUS: &str = "\
Exit status: 0 done; 1 refused by the library, with the refusal's number and place on standard
error; 2 wrong usage, or trouble with a file. Who closes the pipe that is written to gets no error.
";

/// The help of the whole tool.
pub fn tool(out: &mut dyn Write) -> io::Result<()> {
    writeln!(out, "logbook: Lozizol 0.5 logbooks in files\n")?;
    for command in COMMANDS {
        writeln!(out, "  logbook {}", command.usage)?;
        writeln!(out, "      {}", command.summary)?;
    }
    writeln!(out, "\n`logbook COMMAND --help` says more of a command.\n")?;
    write!(out, "{FILES}\n{STATUS}")
}

/// The help of one command.
pub fn command(command: &Command, out: &mut dyn Write) -> io::Result<()> {
    writeln!(out, "usage: logbook {}\n", command.usage)?;
    writeln!(out, "This {}.", command.summary)?;
    write!(out, "{}", command.details)?;
    if command.is_change {
        write!(out, "\n{FILES}")?;
    }
    write!(out, "\n{STATUS}")
}
