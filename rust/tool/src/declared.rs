//! The listing, with the record that declared each entry's type number.

use crate::trouble::Trouble;
use logbook::{Declared, EntryNumber, Place};
use std::io::{self, Write};

/// What is written where there is no such record.
const NONE: Declared = Declared {
    place: Place(0),
    number: EntryNumber(0),
};

/// Writes the listing of a file, the lines of its entries with two columns more.
pub fn list(bytes: &[u8], out: &mut dyn Write) -> Result<(), Trouble> {
    let listing = logbook::listing(bytes);
    let text = listing.strip_suffix(b"\n").unwrap_or(&listing);
    let mut entries = logbook::entries(bytes);
    let mut ended = false;
    for line in text.split(|byte| *byte == b'\n') {
        let declared = match line.first() {
            Some(b'0'..=b'9') => entries.next().and_then(Result::ok),
            _ => None,
        };
        ended = line.starts_with(b"end");
        let declared = declared.map(|entry| entry.declared.unwrap_or(NONE));
        self::line(line, declared, out).map_err(Trouble::Output)?;
    }
    if ended {
        Ok(())
    } else {
        Err(Trouble::Listed)
    }
}

fn line(line: &[u8], declared: Option<Declared>, out: &mut dyn Write) -> io::Result<()> {
    out.write_all(line)?;
    if let Some(Declared { place, number }) = declared {
        write!(out, "\t{place}\t{number}")?;
    }
    out.write_all(b"\n")
}
