//! Reading a logbook in three moves a record.

use crate::reading::shown;
use crate::refusal::judged;
use crate::{raw, Item, Place, Reading, Refusal};

/// What a move of a slow reading takes.
#[derive(Clone, Copy, PartialEq, Eq, Debug)]
pub enum Taken<'b> {
    /// The size of the record at the position; its type comes next.
    Size(SizeHeld),
    /// The type of the record at the position; its data comes next.
    Type(TypeHeld),
    /// A whole item, as a step finds it: padding, a deleted record with its type, a live entry
    /// with its data.
    Item(Item<'b>),
}

/// What a size that is held says.
#[derive(Clone, Copy, PartialEq, Eq, Debug)]
pub struct SizeHeld {
    /// Where the record's type starts.
    pub type_place: Place,
    /// The record's end.
    pub end: Place,
}

/// What a type that is held says, and the size before it.
#[derive(Clone, Copy, PartialEq, Eq, Debug)]
pub struct TypeHeld {
    /// Where the record's type starts, and the record's end.
    pub size: SizeHeld,
    /// The type.
    pub number: u64,
    /// Where the record's data starts.
    pub data_place: Place,
}

/// A slow reading, as over radio: the size, the type and the data of a record are taken in three
/// moves, and the logbook may be changed between them.
///
/// Padding, the end and the header at place 0 are one move; a deleted record is done with its type.
/// Until a record is done the position stays at its start. Moves with nothing called between them
/// give what the steps of a [`Reading`] give.
///
/// It is a value and holds on to no buffer. Up to its end it gives the same live entries as if
/// appends, assignments and removals, and erases and wipes at places that it hasn't passed
/// ([`has_passed`](SlowReading::has_passed)), had been made before it, and erases and wipes at the
/// others after it, as long as no record is wiped whose type is taken and whose data isn't.
///
/// ```
/// use logbook::{Item, Logbook, SlowReading, Taken};
///
/// let mut buffer = [0; 256];
/// let mut log = Logbook::start(&mut buffer, &[7; 16], &[0; 60])?;
/// log.append("urn:ep:2010", "P7")?;
///
/// let mut reading = SlowReading::fresh();
/// let mut shots = 0;
/// let mut moves = 0;
/// while let Some((taken, next)) = log.move_on(&reading)? {
///     // over radio: one short answer, and time for other calls before the next
///     if let Taken::Item(Item::Entry(entry)) = taken {
///         shots += usize::from(entry.uri == b"urn:ep:2010");
///     }
///     reading = next;
///     moves += 1;
///     if moves == 1 {
///         log.append("urn:ep:2010", "P8")?; // ahead of the reading: it comes to it
///     }
/// }
/// assert_eq!((shots, moves), (2, 10)); // the header in one move, three records in three each
/// # Ok::<(), logbook::Refusal>(())
/// ```
#[derive(Clone, Copy, PartialEq, Eq, Debug)]
pub struct SlowReading(raw::Slow);

impl SlowReading {
    /// A fresh slow reading: at place 0, with nothing counted and nothing held.
    pub fn fresh() -> SlowReading {
        SlowReading(raw::slow_fresh())
    }

    /// Position, count and register. The position stays at a record's start until it is done.
    pub fn reading(&self) -> Reading {
        Reading::from(self.0.reading)
    }

    /// Where the record starts that is being read, or the next item.
    pub fn position(&self) -> Place {
        Place(self.0.reading.position)
    }

    /// What the size says, where it is taken.
    pub fn size_held(&self) -> Option<SizeHeld> {
        let raw::Slow {
            type_place, end, ..
        } = self.0;
        (type_place != 0).then_some(SizeHeld {
            type_place: Place(type_place),
            end: Place(end),
        })
    }

    /// What the type says, where it is taken.
    pub fn type_held(&self) -> Option<TypeHeld> {
        let raw::Slow {
            number, data_place, ..
        } = self.0;
        let size = self.size_held()?;
        (number != 0).then_some(TypeHeld {
            size,
            number,
            data_place: Place(data_place),
        })
    }

    /// Whether a place is passed: it is below the position, or it is the position and the type is
    /// taken.
    pub fn has_passed(&self, place: Place) -> bool {
        place < self.position() || self.spares(place)
    }

    /// Whether the record at a place should not be wiped now: its type is taken and its data isn't.
    /// Until then the place is passed, and it may be erased.
    pub fn spares(&self, place: Place) -> bool {
        self.type_held().is_some() && place == self.position()
    }

    /// Takes the next part of the item at the position. Answers it and the reading behind it, or
    /// `None` at the used length.
    ///
    /// Only the first `used` bytes of `buf` are looked at.
    ///
    /// # Errors
    ///
    /// 1 for the used length, 13 for a reading that doesn't fit, then of the size 2, 14 and 15, of
    /// the type 14, 15, 16 and 6, of the data 3, 5 and 7. The reading stays usable.
    ///
    /// ```
    /// use logbook::{Place, Refusal, SlowReading};
    ///
    /// let reading = SlowReading::fresh();
    /// assert_eq!(reading.move_on(b"lozi", 4), Err(Refusal::Incomplete { place: Place(0) }));
    /// assert_eq!(reading.move_on(b"lozi", 5), Err(Refusal::UsedLength));
    /// ```
    pub fn move_on<'b>(
        &self,
        buf: &'b [u8],
        used: usize,
    ) -> Result<Option<(Taken<'b>, SlowReading)>, Refusal> {
        let raw::Moved { item, slow } = raw::move_on(buf, used, self.0);
        judged(item.refusal, item.place)?;
        let next = SlowReading(slow);
        let taken = match item.kind {
            raw::SIZE_HELD => next.size_held().map(Taken::Size),
            raw::TYPE_HELD => next.type_held().map(Taken::Type),
            _ => shown(buf, used, &item)?.map(Taken::Item),
        };
        Ok(taken.map(|taken| (taken, next)))
    }
}

impl From<raw::Slow> for SlowReading {
    fn from(slow: raw::Slow) -> SlowReading {
        SlowReading(slow)
    }
}

impl From<SlowReading> for raw::Slow {
    fn from(reading: SlowReading) -> raw::Slow {
        reading.0
    }
}
