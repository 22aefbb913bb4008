//! What the tests share.

use logbook::{Logbook, Refusal};

pub const UUID: [u8; 16] = *b"\x5b\x0c\x7f\x1e\x93\xd2\x4a\x68\x8e\x17\xc6\x4f\x20\xa9\xd3\xb5";
pub const FREE: [u8; 60] = *b"Survey morning, meadow lane, class rover                    ";

/// The morning's file: two shots under number 2, which is reassigned between them.
pub fn morning(buffer: &mut [u8]) -> Result<Logbook<'_>, Refusal> {
    let mut log = Logbook::start(buffer, &UUID, &FREE)?;
    log.append("urn:ep:2010", "P7")?;
    log.assign(2, "urn:ep:2017")?;
    log.append("urn:ep:2017", "P8")?;
    Ok(log)
}
