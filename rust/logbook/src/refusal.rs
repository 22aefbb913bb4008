//! The eighteen refusals.

use crate::Place;
use std::fmt;

/// Why a call was refused. A refused call has changed nothing.
///
/// The order is that of the numbers, 1 to 16 and 24 to 26; 4 was withdrawn, and 14, 15 and 16 say
/// in its place which byte is wrong. [`Display`](fmt::Display) gives its sentence.
///
/// ```
/// use logbook::{Place, Refusal};
///
/// let refusal = Refusal::NotHeld { place: Place(123) };
/// assert_eq!(refusal.number(), 6);
/// assert_eq!(refusal.place(), Some(Place(123)));
/// assert_eq!(
///     refusal.to_string(),
///     "refusal 6 at place 123: the record that starts there has a type number that isn't held"
/// );
/// ```
#[derive(Clone, Copy, PartialEq, Eq, Hash, Debug)]
#[non_exhaustive]
pub enum Refusal {
    /// 1: the used length is over the buffer's, or over 16,777,216.
    UsedLength,
    /// 2: a record isn't whole at the used length.
    Incomplete {
        /// Where the record starts.
        place: Place,
    },
    /// 3: a header hasn't the header's form.
    NotHeader {
        /// Where the header starts.
        place: Place,
    },
    /// 5: an assignment's data is missing or broken, its number is 0, or its URI isn't allowed.
    BadAssignment {
        /// Where the record starts.
        place: Place,
    },
    /// 6: a record's type number isn't held.
    NotHeld {
        /// Where the record starts.
        place: Place,
    },
    /// 7: 32 type numbers are held and a further one is assigned.
    RegisterFull {
        /// Where the record starts; of a call that writes, the used length.
        place: Place,
    },
    /// 8: erase: no live entry starts there; wipe: no deleted record does.
    NothingThere {
        /// The asked place.
        place: Place,
    },
    /// 9: a header or an assignment is never erased.
    Fixed {
        /// The asked place.
        place: Place,
    },
    /// 10: the data is too long, the URI isn't allowed, the number is 0 or too great, or the UUID
    /// or the free part has another length.
    BadRequest,
    /// 11: an assignment is needed, and no number holds urn:lozizol:type.
    NoTypeNumber,
    /// 12: the records don't fit the buffer or the limit.
    NoRoom {
        /// The used length; of [`Logbook::start`](crate::Logbook::start), 0.
        place: Place,
    },
    /// 13: the reading that was handed in doesn't fit.
    NotFitting,
    /// 14: a size or a type begins with the byte 80.
    EmptyLead {
        /// Where that byte is.
        place: Place,
    },
    /// 15: a size isn't over at its fourth byte, or a type at its ninth, the last that it may have.
    TooLong {
        /// Where that byte is.
        place: Place,
    },
    /// 16: a type isn't over within its record's size.
    PastSize {
        /// Where the record's last byte is.
        place: Place,
    },
    /// 24: the URI isn't urn:ep: and four digits, or those, a point and two digits.
    NotEpoch,
    /// 25: the data isn't 24 bytes.
    NotShot,
    /// 26: a coordinate is over 100,000,000,000 in size, the difference of the epochs over 100,000,
    /// or a motion over 10,000.
    OverBound,
    /// A number that this version has no name for, as it came.
    Other {
        /// The number.
        number: usize,
        /// The place that came with it.
        place: Place,
    },
}

impl Refusal {
    /// The refusal of a number; 0 is none. The place counts only where this refusal names one. A
    /// number without a name, the withdrawn 4 too, is kept as [`Other`](Refusal::Other).
    pub fn from_number(number: usize, place: Place) -> Option<Refusal> {
        Some(match number {
            0 => return None,
            1 => Refusal::UsedLength,
            2 => Refusal::Incomplete { place },
            3 => Refusal::NotHeader { place },
            5 => Refusal::BadAssignment { place },
            6 => Refusal::NotHeld { place },
            7 => Refusal::RegisterFull { place },
            8 => Refusal::NothingThere { place },
            9 => Refusal::Fixed { place },
            10 => Refusal::BadRequest,
            11 => Refusal::NoTypeNumber,
            12 => Refusal::NoRoom { place },
            13 => Refusal::NotFitting,
            14 => Refusal::EmptyLead { place },
            15 => Refusal::TooLong { place },
            16 => Refusal::PastSize { place },
            24 => Refusal::NotEpoch,
            25 => Refusal::NotShot,
            26 => Refusal::OverBound,
            _ => Refusal::Other { number, place },
        })
    }

    /// The refusal's number.
    pub fn number(&self) -> usize {
        match *self {
            Refusal::UsedLength => 1,
            Refusal::Incomplete { .. } => 2,
            Refusal::NotHeader { .. } => 3,
            Refusal::BadAssignment { .. } => 5,
            Refusal::NotHeld { .. } => 6,
            Refusal::RegisterFull { .. } => 7,
            Refusal::NothingThere { .. } => 8,
            Refusal::Fixed { .. } => 9,
            Refusal::BadRequest => 10,
            Refusal::NoTypeNumber => 11,
            Refusal::NoRoom { .. } => 12,
            Refusal::NotFitting => 13,
            Refusal::EmptyLead { .. } => 14,
            Refusal::TooLong { .. } => 15,
            Refusal::PastSize { .. } => 16,
            Refusal::NotEpoch => 24,
            Refusal::NotShot => 25,
            Refusal::OverBound => 26,
            Refusal::Other { number, .. } => number,
        }
    }

    /// The refusal's place; 1, 10, 11, 13, 24, 25 and 26 name none.
    pub fn place(&self) -> Option<Place> {
        match *self {
            Refusal::Incomplete { place }
            | Refusal::NotHeader { place }
            | Refusal::BadAssignment { place }
            | Refusal::NotHeld { place }
            | Refusal::RegisterFull { place }
            | Refusal::NothingThere { place }
            | Refusal::Fixed { place }
            | Refusal::NoRoom { place }
            | Refusal::EmptyLead { place }
            | Refusal::TooLong { place }
            | Refusal::PastSize { place }
            | Refusal::Other { place, .. } => Some(place),
            Refusal::UsedLength
            | Refusal::BadRequest
            | Refusal::NoTypeNumber
            | Refusal::NotFitting
            | Refusal::NotEpoch
            | Refusal::NotShot
            | Refusal::OverBound => None,
        }
    }

    fn reason(&self) -> &'static str {
        match self {
            Refusal::UsedLength => {
                "the used length is over the buffer's length or over 16,777,216 bytes"
            }
            Refusal::Incomplete { .. } => {
                "the record that starts there isn't whole at the used length"
            }
            Refusal::NotHeader { .. } => "the header that starts there hasn't the header's form",
            Refusal::BadAssignment { .. } => {
                "the assignment that starts there has no number, a broken one or 0, \
                 or a URI that isn't allowed"
            }
            Refusal::NotHeld { .. } => {
                "the record that starts there has a type number that isn't held"
            }
            Refusal::RegisterFull { .. } => {
                "a further type number is to be assigned there, and 32 are held already"
            }
            Refusal::NothingThere { .. } => {
                "no live entry starts there that could be erased, \
                 or no deleted record that could be wiped"
            }
            Refusal::Fixed { .. } => {
                "a header or an assignment starts there, and neither is ever erased"
            }
            Refusal::BadRequest => {
                "the request asks for data over 65,535 bytes, a URI that isn't allowed, \
                 a number that is 0 or over 9,223,372,036,854,775,807, \
                 or a UUID or free part of another length"
            }
            Refusal::NoTypeNumber => {
                "an assignment is needed, and no type number holds urn:lozizol:type"
            }
            Refusal::NoRoom { .. } => {
                "the records don't fit there: the buffer ends, \
                 or the limit of 16,777,216 bytes is reached"
            }
            Refusal::NotFitting => "the reading doesn't fit these bytes and this used length",
            Refusal::EmptyLead { .. } => {
                "the byte there is 80 and begins a size or a type, and none begins with 80"
            }
            Refusal::TooLong { .. } => {
                "the byte there is the fourth of a size or the ninth of a type, the last one allowed, \
                 and it says that another follows"
            }
            Refusal::PastSize { .. } => {
                "the byte there is the last one of its record, \
                 and it says that the record's type goes on"
            }
            Refusal::NotEpoch => {
                "the URI names no epoch: it isn't urn:ep: and four digits, \
                 or those, a point and two digits"
            }
            Refusal::NotShot => "the data isn't a shot's: that has 24 bytes",
            Refusal::OverBound => {
                "a coordinate is over 100,000,000,000 in size, \
                 the difference of the epochs over 100,000, or a motion over 10,000"
            }
            Refusal::Other { .. } => "this version has no name for that number",
        }
    }
}

impl fmt::Display for Refusal {
    fn fmt(&self, out: &mut fmt::Formatter<'_>) -> fmt::Result {
        write!(out, "refusal {}", self.number())?;
        if let Some(place) = self.place() {
            write!(out, " at place {place}")?;
        }
        write!(out, ": {}", self.reason())
    }
}

impl std::error::Error for Refusal {}

/// What a C answer's number and place say: 0 is no refusal.
pub(crate) fn judged(number: usize, place: usize) -> Result<(), Refusal> {
    Refusal::from_number(number, Place(place)).map_or(Ok(()), Err)
}
