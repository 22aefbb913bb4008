//! Reading a logbook item by item.

use crate::refusal::judged;
use crate::{raw, EntryNumber, Place, Refusal};
use std::iter::FusedIterator;

/// What a step of a reading finds; its slices are parts of the buffer.
#[derive(Clone, Copy, PartialEq, Eq, Debug)]
pub enum Item<'b> {
    /// One byte of padding.
    Padding {
        /// Where it stands.
        place: Place,
    },
    /// A deleted record.
    Deleted {
        /// Where the record starts.
        place: Place,
        /// Where its body starts, behind the size.
        body_place: Place,
        /// The body, up to the record's end: type 0 and whatever is left of the data.
        body: &'b [u8],
    },
    /// A live entry.
    Entry(Entry<'b>),
}

/// A live entry: a record with a type number that is held.
#[derive(Clone, Copy, PartialEq, Eq, Debug)]
pub struct Entry<'b> {
    /// Where the record starts.
    pub place: Place,
    /// The entry's number; the header is 1.
    pub number: EntryNumber,
    /// Where the type number stands, behind the size.
    pub type_place: Place,
    /// The type number.
    pub type_number: u64,
    /// The URI that the type number has at this record.
    pub uri: &'b [u8],
    /// The record that gave the type number this URI; none where a header implies it.
    ///
    /// An assignment shows the record that declared the number it is written under, not itself.
    pub declared: Option<Declared>,
    /// Where the data starts, behind the type number.
    pub data_place: Place,
    /// The data, up to the record's end.
    pub data: &'b [u8],
    /// What the entry does.
    pub kind: Kind<'b>,
}

/// The assignment that gave a type number its meaning.
///
/// ```
/// use logbook::{Declared, EntryNumber, Logbook, Place};
///
/// let mut buffer = [0; 256];
/// let mut log = Logbook::start(&mut buffer, &[7; 16], &[0; 60])?;
/// log.append("urn:ep:2010", "P7")?;
/// log.assign(2, "urn:ep:2017")?; // before lunch number 2 meant 2010
/// log.append("urn:ep:2017", "P8")?;
///
/// let shot = log.entries().last().expect("a shot")?;
/// let lunch = Declared { place: Place(127), number: EntryNumber(4) };
/// assert_eq!((shot.data, shot.declared), (&b"P8"[..], Some(lunch)));
/// # Ok::<(), logbook::Refusal>(())
/// ```
#[derive(Clone, Copy, PartialEq, Eq, Debug)]
pub struct Declared {
    /// Where its record starts.
    pub place: Place,
    /// Its entry number, as counted by this reading: entries erased before are not counted.
    pub number: EntryNumber,
}

/// What a live entry does.
#[derive(Clone, Copy, PartialEq, Eq, Debug)]
pub enum Kind<'b> {
    /// It carries its data.
    Plain,
    /// It is a header: behind it only the implied type numbers are held.
    Header,
    /// It assigns a type number for the records behind it.
    Assignment {
        /// The number that is assigned, or removed.
        number: u64,
        /// Its URI from here on; empty where the number is removed.
        uri: &'b [u8],
    },
}

/// A reading: where it stands, how many live entries it has counted, and which URI each type
/// number has there.
///
/// It is a value and holds on to no buffer, so a logbook may be changed between two steps.
/// Up to its end a reading gives the same items as if appends, assignments and removals, and
/// erases and wipes at or past its position, had been made before it, and erases and wipes
/// below its position after it.
///
/// ```
/// use logbook::{Item, Logbook, Reading};
///
/// let mut buffer = [0; 256];
/// let mut log = Logbook::start(&mut buffer, &[7; 16], &[0; 60])?;
/// log.append("urn:ep:2010", "P7")?;
///
/// let mut reading = Reading::fresh();
/// let mut shots = 0;
/// while let Some((item, next)) = log.step(&reading)? {
///     let spoiled = match item {
///         Item::Entry(entry) if entry.uri == b"urn:ep:2010" => Some(entry.place),
///         _ => None,
///     };
///     reading = next;
///     if let Some(place) = spoiled {
///         shots += 1;
///         log.erase(place)?; // the reading has passed it
///     }
/// }
/// assert_eq!((shots, log.entries().count()), (1, 2)); // the header and the assignment stay
/// # Ok::<(), logbook::Refusal>(())
/// ```
#[derive(Clone, Copy, PartialEq, Eq, Debug)]
pub struct Reading(raw::Reading);

impl Reading {
    /// A fresh reading: at place 0, with no entry counted and no type number held.
    pub fn fresh() -> Reading {
        Reading(raw::fresh())
    }

    /// Where the next item starts.
    pub fn position(&self) -> Place {
        Place(self.0.position)
    }

    /// How many live entries have been read.
    pub fn count(&self) -> usize {
        self.0.count
    }

    /// The type numbers held at the position, rising, each with its URI in these bytes.
    pub fn held<'b>(
        &self,
        buf: &'b [u8],
        used: usize,
    ) -> impl Iterator<Item = (u64, &'b [u8])> + 'b {
        let raw::Reading {
            held,
            numbers,
            places,
            lengths,
            ..
        } = self.0;
        (0..raw::ROWS.min(held)).filter_map(move |row| {
            let row = raw::Row {
                number: numbers[row],
                place: places[row],
                length: lengths[row],
            };
            Some((row.number, uri(buf, used, row).ok()?))
        })
    }

    /// Reads the item at the position. Answers it and the reading behind it, or `None` at the used
    /// length.
    ///
    /// Only the first `used` bytes of `buf` are looked at, and only the item's own.
    ///
    /// # Errors
    ///
    /// 1 for the used length, 13 for a reading that doesn't fit, then 2, 14, 15, 16, 6, 3, 5 and 7
    /// for the item. The reading stays usable.
    ///
    /// ```
    /// use logbook::{Place, Reading, Refusal};
    ///
    /// let reading = Reading::fresh();
    /// assert_eq!(reading.step(b"lozi", 4), Err(Refusal::Incomplete { place: Place(0) }));
    /// assert_eq!(reading.step(b"lozi", 5), Err(Refusal::UsedLength));
    /// ```
    pub fn step<'b>(
        &self,
        buf: &'b [u8],
        used: usize,
    ) -> Result<Option<(Item<'b>, Reading)>, Refusal> {
        let raw::Step { item, reading } = raw::step(buf, used, self.0);
        judged(item.refusal, item.place)?;
        Ok(shown(buf, used, &item)?.map(|item| (item, Reading(reading))))
    }
}

impl From<raw::Reading> for Reading {
    fn from(reading: raw::Reading) -> Reading {
        Reading(reading)
    }
}

impl From<Reading> for raw::Reading {
    fn from(reading: Reading) -> raw::Reading {
        reading.0
    }
}

/// What the library shows of an item that isn't refused; `None` at the end.
pub(crate) fn shown<'b>(
    buf: &'b [u8],
    used: usize,
    item: &raw::Item,
) -> Result<Option<Item<'b>>, Refusal> {
    Ok(Some(match item.kind {
        raw::END => return Ok(None),
        raw::PADDING => Item::Padding {
            place: Place(item.place),
        },
        raw::DELETED => Item::Deleted {
            place: Place(item.place),
            body_place: Place(item.data_place),
            body: part(buf, item.data_place, item.data_length),
        },
        _ => Item::Entry(entry(buf, used, item)?),
    }))
}

fn entry<'b>(buf: &'b [u8], used: usize, item: &raw::Item) -> Result<Entry<'b>, Refusal> {
    let data = part(buf, item.data_place, item.data_length);
    let kind = match item.kind {
        raw::HEADER => Kind::Header,
        raw::ASSIGNMENT => Kind::Assignment {
            number: item.assigned,
            uri: (item.assigned_place.checked_sub(item.data_place))
                .and_then(|front| data.get(front..))
                .unwrap_or_default(),
        },
        _ => Kind::Plain,
    };
    Ok(Entry {
        place: Place(item.place),
        number: EntryNumber(item.number),
        type_place: Place(item.type_place),
        type_number: item.row.number,
        uri: uri(buf, used, item.row)?,
        declared: (item.declared_number != 0).then_some(Declared {
            place: Place(item.declared_place),
            number: EntryNumber(item.declared_number),
        }),
        data_place: Place(item.data_place),
        data,
        kind,
    })
}

/// The URI of a row.
fn uri(buf: &[u8], used: usize, row: raw::Row) -> Result<&[u8], Refusal> {
    let answer = raw::uri(buf.len(), used, row);
    judged(answer.refusal, 0)?;
    Ok(match answer.implied {
        0 => part(buf, answer.place, answer.length),
        _ => part(raw::IMPLIED_NAMES, answer.place, answer.length),
    })
}

/// A part of a buffer. What the library answers always lies within it.
fn part(buf: &[u8], place: usize, length: usize) -> &[u8] {
    buf.get(place..)
        .and_then(|rest| rest.get(..length))
        .unwrap_or_default()
}

/// The items of a logbook in order, up to its end or the first refusal, which comes last.
#[derive(Clone, Debug)]
pub struct Items<'b> {
    bytes: &'b [u8],
    reading: Reading,
    over: bool,
}

impl Items<'_> {
    /// The reading behind the items so far. After a refusal it stands where the refused record
    /// starts, which 14, 15 and 16 don't say.
    ///
    /// ```
    /// use logbook::{Logbook, Place, Refusal};
    ///
    /// let mut bytes = [0; 111];
    /// Logbook::start(&mut bytes, &[7; 16], &[0; 60])?;
    /// bytes[109..].copy_from_slice(&[0x01, 0x81]);
    /// let mut items = logbook::items(&bytes);
    /// let refusal = Refusal::PastSize { place: Place(110) };
    /// assert_eq!(items.by_ref().last(), Some(Err(refusal)));
    /// assert_eq!(items.reading().position(), Place(109));
    /// # Ok::<(), Refusal>(())
    /// ```
    pub fn reading(&self) -> &Reading {
        &self.reading
    }
}

impl<'b> Iterator for Items<'b> {
    type Item = Result<Item<'b>, Refusal>;

    fn next(&mut self) -> Option<Result<Item<'b>, Refusal>> {
        if self.over {
            return None;
        }
        let step = self.reading.step(self.bytes, self.bytes.len());
        match step {
            Ok(Some((item, next))) => {
                self.reading = next;
                Some(Ok(item))
            }
            Ok(None) => {
                self.over = true;
                None
            }
            Err(refusal) => {
                self.over = true;
                Some(Err(refusal))
            }
        }
    }
}

impl FusedIterator for Items<'_> {}

/// The items of the logbook that fills these bytes, in order: padding, deleted records and live
/// entries, up to the end or the first refusal.
///
/// ```
/// use logbook::{Item, Place, Refusal};
///
/// let mut items = logbook::items(b"not a logbook");
/// assert_eq!(items.next(), Some(Err(Refusal::Incomplete { place: Place(0) })));
/// assert_eq!(items.next(), None);
/// ```
pub fn items(bytes: &[u8]) -> Items<'_> {
    Items {
        bytes,
        reading: Reading::fresh(),
        over: false,
    }
}

/// The live entries alone of the logbook that fills these bytes, up to the end or the first
/// refusal.
pub fn entries(bytes: &[u8]) -> impl FusedIterator<Item = Result<Entry<'_>, Refusal>> + '_ {
    items(bytes).filter_map(|item| match item {
        Ok(Item::Entry(entry)) => Some(Ok(entry)),
        Ok(_) => None,
        Err(refusal) => Some(Err(refusal)),
    })
}

/// What a logbook that reads to its end holds.
#[derive(Clone, Copy, PartialEq, Eq, Default, Debug)]
pub struct Summary {
    /// Live entries, the header and the assignments among them.
    pub entries: usize,
    /// Bytes of padding.
    pub padding: usize,
    /// Deleted records.
    pub deleted: usize,
    /// The used length.
    pub used: usize,
}

/// Reads the logbook that fills these bytes to its end and counts its items.
///
/// # Errors
///
/// The first refusal of the reading.
///
/// ```
/// let mut buffer = [0; 200];
/// let mut log = logbook::Logbook::start(&mut buffer, &[7; 16], &[0; 60])?;
/// log.append("urn:ep:2010", "P7")?;
/// let summary = logbook::check(log.bytes())?;
/// assert_eq!((summary.entries, summary.used), (3, 127));
/// # Ok::<(), logbook::Refusal>(())
/// ```
pub fn check(bytes: &[u8]) -> Result<Summary, Refusal> {
    let mut summary = Summary {
        used: bytes.len(),
        ..Summary::default()
    };
    for item in items(bytes) {
        match item? {
            Item::Padding { .. } => summary.padding += 1,
            Item::Deleted { .. } => summary.deleted += 1,
            Item::Entry(_) => summary.entries += 1,
        }
    }
    Ok(summary)
}
