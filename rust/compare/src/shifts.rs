//! Shots moved to another epoch: the library's doubles against the whole
//! numbers of the independent reader.

use crate::case::hex;
use crate::random::Random;
use logbook::raw::{self, COORDINATE_LIMIT, DIFFERENCE_LIMIT, MOTION_LIMIT, SHOT_LENGTH};
use std::fmt;

/// What a refused shift has in place of its result.
const NOTHING: reader::Shifted = reader::Shifted {
    epoch: 0,
    position: [0; 3],
    point: [0; 3],
    motion: [0; 3],
};

/// What the shifts came to.
#[derive(Clone, Copy, PartialEq, Eq, Default, Debug)]
pub struct Counts {
    /// Done.
    pub moved: u64,
    /// 24.
    pub not_epoch: u64,
    /// 25.
    pub not_shot: u64,
    /// 26.
    pub over_bound: u64,
    /// Of those done, the points with a coordinate of 0.
    pub zeros: u64,
}

impl Counts {
    /// All shifts counted.
    pub fn shifts(&self) -> u64 {
        self.moved + self.not_epoch + self.not_shot + self.over_bound
    }

    /// The least of the five.
    pub fn least(&self) -> u64 {
        let counts = [
            self.moved,
            self.not_epoch,
            self.not_shot,
            self.over_bound,
            self.zeros,
        ];
        counts.into_iter().min().unwrap_or_default()
    }

    /// Takes over what another one counted.
    pub fn join(&mut self, other: Counts) {
        self.moved += other.moved;
        self.not_epoch += other.not_epoch;
        self.not_shot += other.not_shot;
        self.over_bound += other.over_bound;
        self.zeros += other.zeros;
    }

    fn count(&mut self, shifted: &raw::Shifted) {
        let raw::Point { x, y, z } = shifted.point;
        if shifted.refusal == 0 && [x, y, z].contains(&0.0) {
            self.zeros += 1;
        }
        let count = match shifted.refusal {
            0 => &mut self.moved,
            24 => &mut self.not_epoch,
            25 => &mut self.not_shot,
            26 => &mut self.over_bound,
            refusal => panic!("a shift is never refused by {refusal}"),
        };
        *count += 1;
    }
}

impl fmt::Display for Counts {
    fn fmt(&self, out: &mut fmt::Formatter<'_>) -> fmt::Result {
        write!(
            out,
            "{} shifts: {} moved ({} with a 0), {} by 24, {} by 25, {} by 26",
            self.shifts(),
            self.moved,
            self.zeros,
            self.not_epoch,
            self.not_shot,
            self.over_bound
        )
    }
}

/// Asks both, compares every field, and answers what the library said.
pub fn check(
    uri: &[u8],
    data: &[u8],
    asked: i64,
    motion: [i64; 3],
    counts: &mut Counts,
) -> raw::Shifted {
    let [x, y, z] = motion;
    let ours = raw::shift(uri, data, asked, raw::Triple { x, y, z });
    let theirs = reader::shift(uri, data, asked, motion);
    if !agree(&ours, &theirs) {
        eprintln!("URI {:?}, {}", String::from_utf8_lossy(uri), hex(uri));
        eprintln!("data of {} bytes: {}", data.len(), hex(data));
        eprintln!("asked {asked}, motion {motion:?}");
        eprintln!("library: {ours:?}");
        eprintln!("reader:  {theirs:?}");
        panic!("the two implementations differ");
    }
    counts.count(&ours);
    ours
}

fn agree(ours: &raw::Shifted, theirs: &Result<reader::Shifted, reader::Refusal>) -> bool {
    let (refusal, place, whole) = match theirs {
        Ok(whole) => (0, 0, *whole),
        Err(refusal) => (usize::from(refusal.number), refusal.place, NOTHING),
    };
    let raw::Triple { x, y, z } = ours.position;
    (ours.refusal, ours.place) == (refusal, place)
        && ours.epoch as i128 == whole.epoch
        && [x, y, z].map(i128::from) == whole.position
        && are([ours.point.x, ours.point.y, ours.point.z], whole.point)
        && are([ours.motion.x, ours.motion.y, ours.motion.z], whole.motion)
}

/// Whether these doubles are those whole numbers: by their bits, and taken back. -0.0 is none.
fn are(doubles: [f64; 3], wholes: [i128; 3]) -> bool {
    doubles.into_iter().zip(wholes).all(|(double, whole)| {
        let bits = double.to_bits();
        bits == (whole as f64).to_bits() && bits != (-0.0f64).to_bits() && double as i128 == whole
    })
}

/// The data of a shot.
pub fn shot(position: [i64; 3]) -> Vec<u8> {
    position.map(i64::to_be_bytes).concat()
}

/// The URI of an epoch with its two digits behind the point, or without.
pub fn uri(epoch: usize, is_long: bool) -> Vec<u8> {
    let mut uri = *b"urn:ep:0000.00";
    let mut rest = epoch;
    for place in [13, 12, 10, 9, 8, 7] {
        uri[place] += (rest % 10) as u8;
        rest /= 10;
    }
    let length = if is_long { uri.len() } else { 11 };
    uri[..length].to_vec()
}

/// A figure within its bound, often near it or near 0, and at times over it.
fn figure(random: &mut Random, bound: i64) -> i64 {
    let near = random.below(3) as i64;
    let sign = random.pick(&[1, -1]);
    let any = random.bits() as i64;
    match random.below(64) {
        0 => sign * (bound + 1 + near),
        1 => random.pick(&[i64::MIN + near, i64::MAX - near, any]),
        2..=15 => sign * (bound - near),
        16..=23 => sign * near,
        _ => sign * random.between(0, bound as usize) as i64,
    }
}

/// The URI of an epoch with a byte changed, put in or left out.
fn other_uri(random: &mut Random, mut uri: Vec<u8>) -> Vec<u8> {
    let place = random.below(uri.len());
    match random.below(3) {
        0 => uri[place] = random.byte(),
        1 => uri.insert(place, random.pick(b"0.:")),
        _ => {
            uri.remove(place);
        }
    }
    uri
}

/// A coordinate, at times one that the motion brings to 0 or nearly.
fn coordinate(random: &mut Random, motion: i64, difference: i64) -> i64 {
    match random.below(8) {
        0 => -(motion.wrapping_mul(difference) / 100),
        _ => figure(random, COORDINATE_LIMIT),
    }
}

/// One shift of a run. URI and data are allocations of just their lengths.
pub fn round(seed: u64, round: usize, counts: &mut Counts) {
    let random = &mut Random::new(seed, round);
    let epoch = match random.below(4) {
        0 => random.pick(&[0, 1, 99, 100, 201_000, 201_750, 999_900, 999_999]),
        _ => random.below(1_000_000),
    };
    let mut uri = uri(epoch, epoch % 100 > 0 || random.one_in(2));
    if random.one_in(16) {
        uri = other_uri(random, uri);
    }
    // Where the difference is at an end of its type, so is the asked epoch.
    let difference = figure(random, DIFFERENCE_LIMIT);
    let asked = (epoch as i64).saturating_add(difference);
    let motion = [(); 3].map(|()| figure(random, MOTION_LIMIT));
    let mut data = shot(motion.map(|motion| coordinate(random, motion, difference)));
    if random.one_in(16) {
        data.resize(random.below(2 * SHOT_LENGTH + 1), 0);
    }
    let (uri, data) = (uri.into_boxed_slice(), data.into_boxed_slice());
    check(&uri, &data, asked, motion, counts);
}
