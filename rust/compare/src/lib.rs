//! Holds the proved logbook library (`logbook::raw`) against the independent
//! reader (`reader`), call by call.
//!
//! [`books`] and [`hostile`] make logbooks, [`requests`] and [`readings`] make
//! what is asked of them, [`sides`] asks both implementations in one form, and
//! [`case`] compares what comes back. [`shifts`] does all of this for the shift,
//! which takes no logbook. [`calls`], [`series`], [`slow`], [`files`] and [`shifts`] have
//! the runs that the tests and the example `small` share, [`records`] those of
//! single records; [`shapes`] is for the benchmarks.
//!
//! `LOGBOOK_SEED` and `LOGBOOK_ROUNDS` (a multiplier) make other and longer
//! runs. The tests print what they counted: `cargo test --release -- --nocapture`.

#![forbid(unsafe_code)]

pub mod books;
pub mod calls;
pub mod case;
pub mod files;
pub mod hostile;
pub mod pieces;
pub mod random;
pub mod readings;
pub mod records;
pub mod requests;
pub mod series;
pub mod settings;
pub mod shapes;
pub mod shifts;
pub mod sides;
pub mod slow;
pub mod tally;
