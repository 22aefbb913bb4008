//! A logbook in a lent buffer.

use crate::refusal::judged;
use crate::{raw, reading, Entry, Item, Items, Place, Reading, Refusal, SlowReading, Taken};
use std::iter::FusedIterator;

/// A logbook in a lent buffer: its first [`used`](Logbook::used) bytes belong to the logbook.
///
/// A call that is refused changes neither the bytes nor the used length.
#[derive(Debug)]
pub struct Logbook<'a> {
    buf: &'a mut [u8],
    used: usize,
}

impl<'a> Logbook<'a> {
    /// Starts a logbook: writes a header over the buffer's first 109 bytes; the others stay.
    ///
    /// # Errors
    ///
    /// 12 for a buffer of fewer than 109 bytes.
    ///
    /// ```
    /// use logbook::{Logbook, Place, Refusal};
    ///
    /// let mut buffer = [0; 109];
    /// assert_eq!(Logbook::start(&mut buffer, &[7; 16], &[0; 60])?.used(), 109);
    ///
    /// let refused = Logbook::start(&mut buffer[..108], &[7; 16], &[0; 60]);
    /// assert_eq!(refused.unwrap_err(), Refusal::NoRoom { place: Place(0) });
    /// # Ok::<(), Refusal>(())
    /// ```
    pub fn start(
        buf: &'a mut [u8],
        uuid: &[u8; raw::UUID_LENGTH],
        free: &[u8; raw::FREE_LENGTH],
    ) -> Result<Logbook<'a>, Refusal> {
        let started = raw::start(buf, uuid, free);
        judged(started.refusal, started.place)?;
        Logbook::open(buf, started.used)
    }

    /// Takes up the logbook in the buffer's first `used` bytes. Only the used length is checked,
    /// not the bytes: each call judges what it reads.
    ///
    /// # Errors
    ///
    /// 1 for a used length over the buffer's or over 16,777,216.
    ///
    /// ```
    /// use logbook::{Logbook, Refusal};
    ///
    /// let mut buffer = [0; 8];
    /// assert!(Logbook::open(&mut buffer, 8).is_ok());
    /// assert_eq!(Logbook::open(&mut buffer, 9).unwrap_err(), Refusal::UsedLength);
    /// ```
    pub fn open(buf: &'a mut [u8], used: usize) -> Result<Logbook<'a>, Refusal> {
        if used > buf.len() || used > raw::USED_LIMIT {
            return Err(Refusal::UsedLength);
        }
        Ok(Logbook { buf, used })
    }

    /// The used length.
    pub fn used(&self) -> usize {
        self.used
    }

    /// The used bytes.
    pub fn bytes(&self) -> &[u8] {
        self.buf.get(..self.used).unwrap_or_default()
    }

    /// Hands the buffer back, with the used length.
    pub fn into_parts(self) -> (&'a mut [u8], usize) {
        (self.buf, self.used)
    }

    /// Appends an entry by URI, and answers where its record starts. Where no type number holds the
    /// URI, an assignment goes first; both go in or neither.
    ///
    /// # Errors
    ///
    /// 10 for data over 65,535 bytes, or a URI that isn't allowed or is one of the urn:lozizol
    /// names; the refusals of reading the logbook to its end; 11, 7 and 12.
    ///
    /// ```
    /// use logbook::{Logbook, Place, Refusal};
    ///
    /// let mut buffer = [0; 131];
    /// let mut log = Logbook::start(&mut buffer, &[7; 16], &[0; 60])?;
    /// assert_eq!(log.append("urn:ep:2010", "P7")?, Place(123)); // the assignment stands at 109
    /// assert_eq!(log.append("urn:ep:2010", "P8")?, Place(127));
    /// assert_eq!(log.append("urn:ep:2010", "P9"), Err(Refusal::NoRoom { place: Place(131) }));
    /// assert_eq!(log.append("no URI", "P9"), Err(Refusal::BadRequest));
    /// # Ok::<(), Refusal>(())
    /// ```
    pub fn append(
        &mut self,
        uri: impl AsRef<[u8]>,
        data: impl AsRef<[u8]>,
    ) -> Result<Place, Refusal> {
        let answer = raw::append(self.buf, self.used, uri.as_ref(), data.as_ref());
        self.appended(answer)
    }

    /// Assigns a URI to a type number for the records behind, and answers where the assignment
    /// starts. An empty URI removes the number, as [`remove`](Logbook::remove) does.
    ///
    /// # Errors
    ///
    /// 10 for a number that is 0 or over 9,223,372,036,854,775,807, or a URI that isn't allowed; the
    /// refusals of reading the logbook to its end; 11, 7 and 12.
    ///
    /// ```
    /// use logbook::{Logbook, Place, Refusal};
    ///
    /// let mut buffer = [0; 200];
    /// let mut log = Logbook::start(&mut buffer, &[7; 16], &[0; 60])?;
    /// assert_eq!(log.assign(2, "urn:ep:2010")?, Place(109));
    /// assert_eq!(log.append("urn:ep:2010", "P7")?, Place(123)); // under number 2
    /// assert_eq!(log.assign(1 << 63, "urn:ep:2017"), Err(Refusal::BadRequest));
    /// # Ok::<(), Refusal>(())
    /// ```
    pub fn assign(&mut self, number: u64, uri: impl AsRef<[u8]>) -> Result<Place, Refusal> {
        let answer = raw::assign(self.buf, self.used, number, uri.as_ref());
        self.appended(answer)
    }

    /// Removes a type number for the records behind, and answers where the removal starts. It is
    /// written also where the number isn't held.
    ///
    /// # Errors
    ///
    /// Those of [`assign`](Logbook::assign).
    ///
    /// ```
    /// use logbook::{Logbook, Refusal};
    ///
    /// let mut buffer = [0; 200];
    /// let mut log = Logbook::start(&mut buffer, &[7; 16], &[0; 60])?;
    /// log.remove(1)?; // number 1 held urn:lozizol:type
    /// assert_eq!(log.append("urn:ep:2010", "P7"), Err(Refusal::NoTypeNumber));
    /// # Ok::<(), Refusal>(())
    /// ```
    pub fn remove(&mut self, number: u64) -> Result<Place, Refusal> {
        self.assign(number, [])
    }

    /// Erases the live entry that starts at a place, by one store of the byte 00, and answers
    /// where. The record is then a deleted one, and its data stays until it is wiped.
    ///
    /// # Errors
    ///
    /// The refusals of reading up to the place; 8 where no live entry starts there; 9 for a header
    /// or an assignment.
    ///
    /// ```
    /// use logbook::{Logbook, Place, Refusal};
    ///
    /// let mut buffer = [0; 200];
    /// let mut log = Logbook::start(&mut buffer, &[7; 16], &[0; 60])?;
    /// let shot = log.append("urn:ep:2010", "P7")?;
    /// assert_eq!(log.erase(shot)?, Place(124)); // the first type byte
    /// assert_eq!(log.erase(shot), Err(Refusal::NothingThere { place: shot }));
    /// assert_eq!(log.erase(Place(109)), Err(Refusal::Fixed { place: Place(109) }));
    /// # Ok::<(), Refusal>(())
    /// ```
    pub fn erase(&mut self, place: Place) -> Result<Place, Refusal> {
        let erased = raw::erase(self.buf, self.used, place.0);
        judged(erased.refusal, erased.place)?;
        Ok(Place(erased.place))
    }

    /// Wipes the deleted record that starts at a place by at most `limit` single stores, and
    /// answers how many were made: the smaller of the limit and the record's nonzero bytes. The
    /// logbook is readable, with the same entries, after each store.
    ///
    /// # Errors
    ///
    /// The refusals of reading up to the place; 8 where no deleted record starts there.
    ///
    /// ```
    /// use logbook::{Logbook, Refusal};
    ///
    /// let mut buffer = [0; 200];
    /// let mut log = Logbook::start(&mut buffer, &[7; 16], &[0; 60])?;
    /// let shot = log.append("urn:ep:2010", "P7")?;
    /// log.erase(shot)?;
    /// assert_eq!(log.wipe(shot, 1)?, 1);
    /// assert_eq!(log.wipe_all(shot)?, 2);
    /// assert_eq!(log.wipe(shot, 1), Err(Refusal::NothingThere { place: shot })); // padding now
    /// # Ok::<(), Refusal>(())
    /// ```
    pub fn wipe(&mut self, place: Place, limit: usize) -> Result<usize, Refusal> {
        let wiped = raw::wipe(self.buf, self.used, place.0, limit);
        judged(wiped.refusal, wiped.place)?;
        Ok(wiped.stores)
    }

    /// Wipes the whole of the deleted record that starts at a place: [`wipe`](Logbook::wipe)
    /// without a limit.
    ///
    /// # Errors
    ///
    /// Those of [`wipe`](Logbook::wipe).
    pub fn wipe_all(&mut self, place: Place) -> Result<usize, Refusal> {
        self.wipe(place, usize::MAX)
    }

    /// Reads the item at a reading's position: [`Reading::step`] of this logbook.
    ///
    /// # Errors
    ///
    /// Those of [`Reading::step`].
    pub fn step(&self, reading: &Reading) -> Result<Option<(Item<'_>, Reading)>, Refusal> {
        reading.step(self.buf, self.used)
    }

    /// Takes the next part of the item at a slow reading's position: [`SlowReading::move_on`] of
    /// this logbook.
    ///
    /// # Errors
    ///
    /// Those of [`SlowReading::move_on`].
    pub fn move_on(
        &self,
        reading: &SlowReading,
    ) -> Result<Option<(Taken<'_>, SlowReading)>, Refusal> {
        reading.move_on(self.buf, self.used)
    }

    /// The logbook's items in order: padding, deleted records and live entries, up to the end or
    /// the first refusal.
    pub fn items(&self) -> Items<'_> {
        reading::items(self.bytes())
    }

    /// The live entries alone, up to the end or the first refusal.
    ///
    /// ```
    /// use logbook::{Logbook, Refusal};
    ///
    /// let mut buffer = [0; 200];
    /// let mut log = Logbook::start(&mut buffer, &[7; 16], &[0; 60])?;
    /// log.append("urn:ep:2010", "P7")?;
    /// let entries = log.entries().collect::<Result<Vec<_>, Refusal>>()?;
    /// assert_eq!(entries[2].uri, b"urn:ep:2010");
    /// assert_eq!(entries[2].data, b"P7");
    /// # Ok::<(), Refusal>(())
    /// ```
    pub fn entries(&self) -> impl FusedIterator<Item = Result<Entry<'_>, Refusal>> + '_ {
        reading::entries(self.bytes())
    }

    fn appended(&mut self, answer: raw::Appended) -> Result<Place, Refusal> {
        judged(answer.refusal, answer.place)?;
        self.used = answer.used;
        Ok(Place(answer.place))
    }
}
