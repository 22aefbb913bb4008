//! A safe interface to the proved logbook library for Lozizol 0.5.
//!
//! A logbook is a sequence of records in a buffer that the caller lends. Each record has a type
//! number, and the number means the URI that the latest assignment before the record gives it.
//! [`Logbook`] starts a logbook or takes one up, appends entries by URI, assigns type numbers,
//! erases entries and wipes what is left of them; [`items`], [`entries`] and [`Reading`] read one,
//! [`SlowReading`] in three moves a record; [`listing`] lists one as text; [`shift()`] moves a shot
//! to another epoch.
//!
//! ```
//! use logbook::{Logbook, Place, Refusal};
//!
//! let mut buffer = [0; 1024];
//! let mut log = Logbook::start(&mut buffer, &[7; 16], &[0; 60])?;
//! log.append("urn:ep:2010", "P7")?;
//! log.assign(2, "urn:ep:2017")?; // from here on number 2 means 2017
//! log.append("urn:ep:2017", "P8")?;
//!
//! for entry in log.entries() {
//!     let entry = entry?;
//!     println!("{} {}", entry.place, String::from_utf8_lossy(entry.uri));
//! }
//!
//! // Taken up later, from the same bytes and used length.
//! let used = log.used();
//! let mut log = Logbook::open(&mut buffer, used)?;
//! log.erase(Place(123))?; // P7; P8 keeps its place, its URI and its data
//! log.wipe_all(Place(123))?;
//! # Ok::<(), Refusal>(())
//! ```
//!
//! Every call takes any bytes and any request, and ends with its result or with one of eighteen
//! [refusals](Refusal); a refused call changes nothing. What a call answers and stores is proved of
//! the static library; this crate only hands arguments and answers through. [`raw`] has the
//! library's own structs and calls, and all of the crate's unsafe code.
//!
//! A [`Place`] counts bytes from the buffer's start, an [`EntryNumber`] counts live entries. They
//! are two types, so that one is never taken for the other.
//!
//! To build a program over this crate, run `rt lib` in the repository's `crates/logbook_c` first,
//! or name the folder of `liblogbook_c.a` in `LOGBOOK_LIB_DIR`.

#![warn(missing_docs)]
#![deny(unsafe_code)]

mod listing;
mod log;
#[allow(unsafe_code)]
pub mod raw;
mod reading;
mod refusal;
mod shift;
mod slow;

pub use listing::{listing, write_listing, Listing};
pub use log::Logbook;
pub use raw::{Motion, Point, Triple};
pub use reading::{check, entries, items, Declared, Entry, Item, Items, Kind, Reading, Summary};
pub use refusal::Refusal;
pub use shift::{shift, Epoch, ParseEpochError, Shifted};
pub use slow::{SizeHeld, SlowReading, Taken, TypeHeld};

use std::fmt;

/// A place in a buffer: bytes from its start, which is place 0.
#[derive(Clone, Copy, PartialEq, Eq, PartialOrd, Ord, Hash, Debug)]
pub struct Place(pub usize);

/// The number of a live entry. The header is 1.
#[derive(Clone, Copy, PartialEq, Eq, PartialOrd, Ord, Hash, Debug)]
pub struct EntryNumber(pub usize);

impl fmt::Display for Place {
    fn fmt(&self, out: &mut fmt::Formatter<'_>) -> fmt::Result {
        self.0.fmt(out)
    }
}

impl fmt::Display for EntryNumber {
    fn fmt(&self, out: &mut fmt::Formatter<'_>) -> fmt::Result {
        self.0.fmt(out)
    }
}
