//! The listing of a file as text.

use crate::raw;
use std::io;

/// Room for the listing's lines, several of the longest at a time.
const ROOM: usize = 16 * raw::LINE_LIMIT;

/// The listing of a file, written piece by piece into lent buffers.
///
/// ```
/// let mut listing = logbook::Listing::new(b"");
/// let mut out = [0; 320];
/// let length = listing.fill(&mut out);
/// assert_eq!(&out[..length], b"refused\t2\t0\n");
/// assert!(listing.is_over());
/// ```
#[derive(Clone, Debug)]
pub struct Listing<'b> {
    file: &'b [u8],
    reading: raw::Reading,
    over: bool,
}

impl<'b> Listing<'b> {
    /// The listing of the logbook that fills these bytes, from its first line.
    pub fn new(file: &'b [u8]) -> Listing<'b> {
        Listing {
            file,
            reading: raw::fresh(),
            over: false,
        }
    }

    /// Writes the next whole lines to the front of `out`, as long as 320 bytes are left there, and
    /// answers how many bytes were written. So a buffer of fewer than 320 bytes gets none.
    pub fn fill(&mut self, out: &mut [u8]) -> usize {
        if self.over {
            return 0;
        }
        let listed = raw::list(self.reading, self.file, out);
        self.reading = listed.reading;
        self.over = listed.over != 0;
        listed.length
    }

    /// Whether the last line has been written.
    pub fn is_over(&self) -> bool {
        self.over
    }
}

/// The listing of the logbook that fills these bytes: a line for each live entry with its place,
/// number, URI and data length, then `end` and the used length, or `refused`, number and place. A
/// file of more than 65,536 bytes gets `refused`, 1 and 0.
///
/// ```
/// let mut buffer = [0; 200];
/// let mut log = logbook::Logbook::start(&mut buffer, &[7; 16], &[0; 60])?;
/// log.append("urn:ep:2010", "P7")?;
/// assert_eq!(
///     logbook::listing(log.bytes()),
///     b"0\t1\turn:lozizol:header\t107\n\
///       109\t2\turn:lozizol:type\t12\n\
///       123\t3\turn:ep:2010\t2\n\
///       end\t127\n"
/// );
/// # Ok::<(), logbook::Refusal>(())
/// ```
pub fn listing(file: &[u8]) -> Vec<u8> {
    let mut text = Vec::new();
    // A Vec takes everything: there is no error to hand on.
    let _ = write_listing(file, &mut text);
    text
}

/// Writes the [`listing`] to a stream, piece by piece, and answers whether it ends in `end` (and
/// not in `refused`).
///
/// # Errors
///
/// Those of the stream.
///
/// ```
/// assert!(!logbook::write_listing(b"", &mut std::io::sink())?);
/// # Ok::<(), std::io::Error>(())
/// ```
pub fn write_listing(file: &[u8], out: &mut impl io::Write) -> io::Result<bool> {
    let mut listing = Listing::new(file);
    let mut room = [0; ROOM];
    let mut ended = false;
    while !listing.is_over() {
        let length = listing.fill(&mut room);
        let lines = room.get(..length).unwrap_or_default();
        ended = last_line(lines).starts_with(b"end");
        out.write_all(lines)?;
    }
    Ok(ended)
}

/// The last of these lines, each of which ends in a newline.
fn last_line(lines: &[u8]) -> &[u8] {
    let before = lines.strip_suffix(b"\n").unwrap_or(lines);
    before
        .rsplit(|byte| *byte == b'\n')
        .next()
        .unwrap_or(before)
}
