//! Shots, moved to another epoch.

use crate::refusal::judged;
use crate::{raw, Entry, Motion, Point, Refusal, Triple};
use std::fmt;
use std::str::FromStr;

/// An epoch, in hundredths of a year: 201,750 is the middle of 2017.
///
/// Its text has a point and two digits behind the year, which has four or more. It is read with
/// fewer as well, and without the point.
///
/// ```
/// use logbook::Epoch;
///
/// assert_eq!(Epoch(201_750).to_string(), "2017.50");
/// assert_eq!("2017.50".parse(), Ok(Epoch(201_750)));
/// assert_eq!("2017".parse(), Ok(Epoch(201_700)));
/// assert_eq!("-0000.01".parse(), Ok(Epoch(-1)));
/// assert!("2017.5".parse::<Epoch>().is_err());
/// ```
#[derive(Clone, Copy, PartialEq, Eq, PartialOrd, Ord, Hash, Debug)]
pub struct Epoch(pub i64);

impl fmt::Display for Epoch {
    fn fmt(&self, out: &mut fmt::Formatter<'_>) -> fmt::Result {
        let sign = if self.0 < 0 { "-" } else { "" };
        let size = self.0.unsigned_abs();
        write!(out, "{sign}{:04}.{:02}", size / 100, size % 100)
    }
}

impl FromStr for Epoch {
    type Err = ParseEpochError;

    fn from_str(text: &str) -> Result<Epoch, ParseEpochError> {
        let (years, hundredths) = text.split_once('.').unwrap_or((text, "00"));
        let size = years.strip_prefix('-').unwrap_or(years);
        if !is_decimal(size) || !is_decimal(hundredths) || hundredths.len() != 2 {
            return Err(ParseEpochError(()));
        }
        // Without the point it is the number of hundredths.
        let number = format!("{years}{hundredths}").parse();
        number.map(Epoch).map_err(|_| ParseEpochError(()))
    }
}

fn is_decimal(text: &str) -> bool {
    !text.is_empty() && text.bytes().all(|byte| byte.is_ascii_digit())
}

/// A text that isn't an [`Epoch`]'s, or whose hundredths don't fit one.
#[derive(Clone, Copy, PartialEq, Eq, Debug)]
pub struct ParseEpochError(());

impl fmt::Display for ParseEpochError {
    fn fmt(&self, out: &mut fmt::Formatter<'_>) -> fmt::Result {
        out.write_str("an epoch is a whole number of years, or one, a point and two digits")
    }
}

impl std::error::Error for ParseEpochError {}

/// What [`shift()`] answers.
#[derive(Clone, Copy, PartialEq, Debug)]
pub struct Shifted {
    /// The shot's own epoch, as its URI says.
    pub epoch: Epoch,
    /// The shot's own coordinates, in tenths of a millimetre.
    pub position: Triple,
    /// The moved point, in micrometres.
    pub point: Point,
    /// The yearly motion, in micrometres.
    pub motion: Motion,
}

/// Moves the shot with this URI and data to an epoch, by a motion in tenths of a millimetre a year.
///
/// Each coordinate of the point is 100 times the shot's own plus the motion times the hundredths of
/// a year between the two epochs. That is a whole number of micrometres, and the double is exactly
/// it.
///
/// # Errors
///
/// 24 for a URI that names no epoch: it isn't urn:ep: and four digits, or those, a point and two
/// digits; 25 for data that isn't 24 bytes, three coordinates of 8 each; 26 for a coordinate over
/// 100,000,000,000 in size, a difference of the epochs over 100,000 hundredths of a year, or a
/// motion over 10,000.
///
/// ```
/// use logbook::{Epoch, Point, Refusal, Triple};
///
/// let position = [40_000_000_000_i64, -12, 0];
/// let data = position.map(i64::to_be_bytes).concat();
/// let motion = Triple { x: 700, y: -700, z: 0 };
/// let shifted = logbook::shift("urn:ep:2010", &data, Epoch(201_720), motion)?;
/// assert_eq!(shifted.epoch, Epoch(201_000));
/// // 700 and 720 move a point 504,000.
/// let point = Point { x: 4_000_000_504_000.0, y: -505_200.0, z: 0.0 };
/// assert_eq!(shifted.point, point);
/// assert_eq!(shifted.motion.x, 70_000.0);
///
/// let refused = logbook::shift("urn:ep:2010", "P7", Epoch(201_720), motion);
/// assert_eq!(refused, Err(Refusal::NotShot));
/// # Ok::<(), Refusal>(())
/// ```
pub fn shift(
    uri: impl AsRef<[u8]>,
    data: impl AsRef<[u8]>,
    to: Epoch,
    motion: Triple,
) -> Result<Shifted, Refusal> {
    let shifted = raw::shift(uri.as_ref(), data.as_ref(), to.0, motion);
    judged(shifted.refusal, shifted.place)?;
    Ok(Shifted {
        epoch: Epoch(shifted.epoch as i64), // at most 999,999
        position: shifted.position,
        point: shifted.point,
        motion: shifted.motion,
    })
}

impl Entry<'_> {
    /// Moves the entry, a shot, to an epoch: [`shift()`] of its URI and data. The logbook stays as
    /// it is.
    ///
    /// # Errors
    ///
    /// Those of [`shift()`]; 24 for a header and for an assignment.
    ///
    /// ```
    /// use logbook::{Epoch, Logbook, Refusal, Triple};
    ///
    /// let mut buffer = [0; 200];
    /// let mut log = Logbook::start(&mut buffer, &[7; 16], &[0; 60])?;
    /// log.append("urn:ep:2010", [0; 24])?;
    /// let entries = log.entries().collect::<Result<Vec<_>, Refusal>>()?;
    /// let motion = Triple { x: 700, y: 0, z: 0 };
    /// assert_eq!(entries[2].shift(Epoch(201_720), motion)?.point.x, 504_000.0);
    /// assert_eq!(entries[0].shift(Epoch(201_720), motion), Err(Refusal::NotEpoch));
    /// # Ok::<(), Refusal>(())
    /// ```
    pub fn shift(&self, to: Epoch, motion: Triple) -> Result<Shifted, Refusal> {
        shift(self.uri, self.data, to, motion)
    }
}
