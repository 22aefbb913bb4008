//! How often each call gave each result or refusal.

use std::fmt;

/// The calls, in the order of a tally's rows.
pub const CALLS: [&str; 8] = [
    "start", "append", "assign", "erase", "wipe", "step", "list", "move",
];
/// The column of a 7 that is due to the request; 7 itself is one of the walk.
pub const FULL_FOR_REQUEST: usize = 17;
/// Column 0 is a result, 1 to 16 are the refusals of these calls; 4 was withdrawn.
pub const COLUMNS: usize = FULL_FOR_REQUEST + 1;

/// Counts by call and column.
#[derive(Clone, Default)]
pub struct Tally {
    counts: [[u64; COLUMNS]; CALLS.len()],
    /// Steps that met a type or an assigned number of five to nine bytes.
    pub great: u64,
}

impl Tally {
    /// Counts a call.
    pub fn count(&mut self, call: usize, column: usize) {
        self.counts[call][column] += 1;
    }

    /// Takes over what another one counted.
    pub fn join(&mut self, other: Tally) {
        for (row, others) in self.counts.iter_mut().zip(other.counts) {
            for (count, more) in row.iter_mut().zip(others) {
                *count += more;
            }
        }
        self.great += other.great;
    }

    /// All calls counted.
    pub fn calls(&self) -> u64 {
        self.counts.iter().flatten().sum()
    }

    /// How often this call came to this column.
    pub fn of(&self, call: usize, column: usize) -> u64 {
        self.counts[call][column]
    }
}

impl fmt::Display for Tally {
    fn fmt(&self, out: &mut fmt::Formatter<'_>) -> fmt::Result {
        write!(out, "{:>8}", "")?;
        for column in 0..COLUMNS {
            match column {
                0 => write!(out, "{:>9}", "done")?,
                FULL_FOR_REQUEST => write!(out, "{:>9}", "7 asked")?,
                _ => write!(out, "{column:>9}")?,
            }
        }
        for (call, row) in CALLS.iter().zip(&self.counts) {
            write!(out, "\n{call:>8}")?;
            for count in row {
                write!(out, "{count:>9}")?;
            }
        }
        write!(
            out,
            "\nsteps that met a number of five to nine bytes: {}",
            self.great
        )
    }
}
