//! Shots moved to another epoch (02 \[11\]).

use std::array;

use crate::refusal::Refusal;

/// What the URI of an epoch starts with.
const PREFIX: &[u8] = b"urn:ep:";

/// How many bytes a coordinate takes.
const COORDINATE_BYTES: usize = 8;
/// How many bytes the data of a shot has.
const SHOT_BYTES: usize = 3 * COORDINATE_BYTES;

/// The largest size of a coordinate, tenths of a millimetre.
const MAX_COORDINATE: i128 = 100_000_000_000;
/// The largest size of the difference, hundredths of a year.
const MAX_DIFFERENCE: i128 = 100_000;
/// The largest size of a motion, tenths of a millimetre a year.
const MAX_MOTION: i128 = 10_000;

/// How many micrometres a tenth of a millimetre has.
const MICROMETRES: i128 = 100;

/// What a shift gives: the shot as it stands, and as the drawing program
/// wants it.
///
/// 02 \[11\]: "a point of three doubles and its yearly motion of three, both in
/// micrometres"; here they are whole numbers.
#[derive(Clone, Copy, PartialEq, Eq, Debug)]
pub struct Shifted {
    /// 02 \[11\]: the shot's own epoch, hundredths of a year.
    pub epoch: i128,
    /// 02 \[11\]: the shot's own coordinates, tenths of a millimetre.
    pub position: [i128; 3],
    /// 02 \[11\]: the moved point, micrometres.
    pub point: [i128; 3],
    /// 02 \[11\]: the yearly motion, micrometres.
    pub motion: [i128; 3],
}

/// Moves the shot with this URI and data to the epoch `asked`, in hundredths
/// of a year, by a yearly `motion` in tenths of a millimetre.
///
/// 02 \[11\]: "each coordinate is 100 times the position plus motion times
/// difference, each motion 100 times the given one". Refusals 24, 25, 26.
pub fn shift(uri: &[u8], data: &[u8], asked: i64, motion: [i64; 3]) -> Result<Shifted, Refusal> {
    let epoch = epoch_of(uri).ok_or(Refusal::NOT_EPOCH)?;
    let position = position_of(data).ok_or(Refusal::NOT_SHOT)?;
    let difference = i128::from(asked) - epoch;
    let motion = motion.map(i128::from);
    if !within(&position, MAX_COORDINATE)
        || !within(&[difference], MAX_DIFFERENCE)
        || !within(&motion, MAX_MOTION)
    {
        return Err(Refusal::OVER_BOUND);
    }
    Ok(Shifted {
        epoch,
        position,
        point: array::from_fn(|axis| MICROMETRES * position[axis] + motion[axis] * difference),
        motion: motion.map(|yearly| MICROMETRES * yearly),
    })
}

/// The epoch that `uri` names, in hundredths of a year.
///
/// 02 \[11\]: "urn:ep: and four digits, or those, a point and two digits".
fn epoch_of(uri: &[u8]) -> Option<i128> {
    match *uri.strip_prefix(PREFIX)? {
        [a, b, c, d] => decimal([a, b, c, d, b'0', b'0']),
        [a, b, c, d, b'.', e, f] => decimal([a, b, c, d, e, f]),
        _ => None,
    }
}

/// Reads a number in decimal; none if a byte isn't a digit.
fn decimal(digits: [u8; 6]) -> Option<i128> {
    digits.iter().try_fold(0, |value, byte| match byte {
        b'0'..=b'9' => Some(10 * value + i128::from(byte - b'0')),
        _ => None,
    })
}

/// The coordinates that `data` holds; none if it hasn't the length of a shot.
///
/// 02 \[11\]: "three signed 8-byte big-endian coordinates".
fn position_of(data: &[u8]) -> Option<[i128; 3]> {
    let data: &[u8; SHOT_BYTES] = data.try_into().ok()?;
    Some(array::from_fn(|axis| {
        let bytes = array::from_fn(|index| data[COORDINATE_BYTES * axis + index]);
        i128::from(i64::from_be_bytes(bytes))
    }))
}

/// Whether each of `figures` is at most `bound` in size.
fn within(figures: &[i128], bound: i128) -> bool {
    figures
        .iter()
        .all(|&figure| -bound <= figure && figure <= bound)
}
