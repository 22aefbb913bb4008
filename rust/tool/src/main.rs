//! `logbook`: starts, lists, changes and shows Lozizol 0.5 logbooks in files, and moves their shots
//! to another epoch, over the proved library. `logbook --help` has the commands.

mod arguments;
mod commands;
mod declared;
mod file;
mod help;
mod shift;
mod show;
mod trouble;
mod uuid;

use std::env;
use std::io::{self, BufWriter, Write};
use std::process::ExitCode;
use trouble::Trouble;

fn main() -> ExitCode {
    let mut out = BufWriter::new(io::stdout().lock());
    let done = commands::run(env::args_os().skip(1), &mut out);
    let flushed = out.flush().map_err(Trouble::Output);
    match done.and(flushed) {
        Ok(()) => ExitCode::SUCCESS,
        Err(trouble) => trouble.say(),
    }
}
