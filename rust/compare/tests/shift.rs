//! 02 [11], "Epoch shift on the rover": every figure at its bounds, any figures, and every URI that
//! is or nearly is an epoch's.

use compare::pieces::string;
use compare::settings::{spread, Settings};
use compare::shifts::{check, round, shot, uri, Counts};

/// Shifts of the usual run; the gate makes three times as many.
const SHIFTS: usize = 3_400_000;

/// The bound of a coordinate, of a difference and of a motion.
const FAR: i64 = 100_000_000_000;
const LATE: i64 = 100_000;
const FAST: i64 = 10_000;

/// A figure of each of these is put in each of its places; the others are within their bounds.
const COORDINATES: [i64; 17] = [
    0,
    1,
    -1,
    FAR - 1,
    1 - FAR,
    FAR,
    -FAR,
    FAR + 1,
    -FAR - 1,
    1 << 62,
    -1 << 62,
    // 100 times these is 16 from 2^64.
    184_467_440_737_095_516,
    -184_467_440_737_095_516,
    i64::MAX - 1,
    i64::MAX,
    i64::MIN + 1,
    i64::MIN,
];
const DIFFERENCES: [i64; 9] = [
    0,
    1,
    -1,
    LATE - 1,
    1 - LATE,
    LATE,
    -LATE,
    LATE + 1,
    -LATE - 1,
];
const ENDS: [i64; 4] = [i64::MIN, i64::MIN + 1, i64::MAX - 1, i64::MAX];
const MOTIONS: [i64; 13] = [
    0,
    1,
    -1,
    FAST - 1,
    1 - FAST,
    FAST,
    -FAST,
    FAST + 1,
    -FAST - 1,
    i64::MAX - 1,
    i64::MAX,
    i64::MIN + 1,
    i64::MIN,
];
const EPOCHS: [(&[u8], i64); 4] = [
    (b"urn:ep:0000", 0),
    (b"urn:ep:0000.01", 1),
    (b"urn:ep:2010", 201_000),
    (b"urn:ep:9999.99", 999_999),
];
const OTHERS: [&[u8]; 3] = [b"", b"urn:ep:2010.5", b"URN:ep:2010"];
const LENGTHS: [usize; 6] = [0, 1, 23, 24, 25, 48];

/// Any shot and any motion, for the shifts that are about the URI.
const POSITION: [i64; 3] = [39_805_742_470, -1_020_812_345, 49_668_245_220];
const MOTION: [i64; 3] = [-129, 170, 99];

/// These figures with another one in a place.
fn with(mut figures: [i64; 3], place: usize, figure: i64) -> [i64; 3] {
    figures[place] = figure;
    figures
}

/// Every epoch, length and motion for a position and an asked epoch.
fn all_motions(position: [i64; 3], difference: Option<i64>, end: i64, counts: &mut Counts) {
    let data = shot(position).repeat(2);
    let others = OTHERS.map(|uri| (uri, 201_000));
    for (uri, epoch) in EPOCHS.into_iter().chain(others) {
        let asked = difference.map_or(end, |difference| epoch + difference);
        for length in LENGTHS {
            for place in 0..3 {
                for figure in MOTIONS {
                    let motion = with(MOTION, place, figure);
                    check(uri, &data[..length], asked, motion, counts);
                }
            }
        }
    }
}

#[test]
fn every_figure_at_its_bounds() {
    let counts = spread(
        3 * COORDINATES.len(),
        |round, counts| {
            let position = with(POSITION, round % 3, COORDINATES[round / 3]);
            for difference in DIFFERENCES {
                all_motions(position, Some(difference), 0, counts);
            }
            for end in ENDS {
                all_motions(position, None, end, counts);
            }
        },
        Counts::join,
    );
    println!("bounds: {counts}");
    let all = 3 * 17 * (9 + 4) * (4 + 3) * 6 * 3 * 13;
    assert_eq!(counts.shifts(), all);
    // Three of seven URIs; of the others five lengths in six; of the rest, within the bounds are 7
    // coordinates, 7 differences and 7 motions.
    assert_eq!(counts.not_epoch, all / 7 * 3);
    assert_eq!(counts.not_shot, all / 7 * 4 / 6 * 5);
    assert_eq!(counts.moved, 3 * 7 * 7 * 4 * 3 * 7);
}

#[test]
fn any_figures() {
    let Settings { seed, rounds } = Settings::read("shift");
    let counts = spread(
        SHIFTS * rounds,
        |number, counts| round(seed, number, counts),
        Counts::join,
    );
    println!("any figures: {counts}");
    assert!(counts.moved >= 2_000_000 && counts.least() >= 100_000);
}

/// Checks a URI with a shot and figures within their bounds, whatever epoch it names.
fn check_uri(uri: &[u8], counts: &mut Counts) -> usize {
    let first = uri.get(7).filter(|byte| byte.is_ascii_digit());
    let middle = first.map_or(0, |digit| i64::from(digit - b'0') * 100_000 + 50_000);
    check(uri, &shot(POSITION), middle, MOTION, counts).epoch
}

#[test]
fn every_epoch() {
    let counts = spread(
        1_000_000,
        |epoch, counts| {
            let (year, hundredths) = (epoch / 100, epoch % 100);
            let long = format!("urn:ep:{year:04}.{hundredths:02}");
            assert_eq!(long.as_bytes(), uri(epoch, true));
            assert_eq!(check_uri(long.as_bytes(), counts), epoch);
            if hundredths == 0 {
                assert_eq!(check_uri(&long.as_bytes()[..11], counts), epoch);
            }
        },
        Counts::join,
    );
    println!("every epoch: {counts}");
    assert_eq!((counts.moved, counts.shifts()), (1_010_000, 1_010_000));
}

/// Behind `urn:ep:` every string of up to eight digits, points and their neighbours.
#[test]
fn every_short_string() {
    let bytes = b"-./09:";
    let mut counts = Counts::default();
    for length in 0..=8 {
        counts.join(spread(
            bytes.len().pow(length as u32),
            |number, counts| {
                let string = string(bytes, length, number);
                check_uri(&[b"urn:ep:", &string[..]].concat(), counts);
            },
            Counts::join,
        ));
    }
    println!("short strings: {counts}");
    // Of 0 and 9, four, or six with a point.
    assert_eq!((counts.moved, counts.shifts()), (16 + 64, 2_015_539));
    assert_eq!(counts.not_epoch, counts.shifts() - counts.moved);
}

/// The two forms with every byte changed to every other, left out or put in, and cut off at either
/// side.
#[test]
fn every_change_of_a_byte() {
    let mut counts = Counts::default();
    for uri in [&b"urn:ep:2010"[..], b"urn:ep:2017.50"] {
        for place in 0..=uri.len() {
            let (front, back) = uri.split_at(place);
            for byte in 0..=255 {
                check_uri(&[front, &[byte], back].concat(), &mut counts);
                if !back.is_empty() {
                    check_uri(&[front, &[byte], &back[1..]].concat(), &mut counts);
                }
            }
            if !back.is_empty() {
                check_uri(&[front, &back[1..]].concat(), &mut counts);
                check_uri(front, &mut counts);
                check_uri(&back[1..], &mut counts);
            }
        }
    }
    println!("changes of a byte: {counts}");
    // Each digit ten ways, every other byte in its own alone, and 2017.50 cut off before its point.
    assert_eq!(counts.moved, (7 + 40) + (7 + 60 + 1) + 1);
    assert_eq!(counts.shifts(), 256 * (12 + 11 + 15 + 14) + 3 * (11 + 14));
    assert_eq!(counts.not_epoch, counts.shifts() - counts.moved);
}

/// The front in either case of each byte, and with any two bytes changed.
#[test]
fn every_front_nearly_that_of_an_epoch() {
    let front = b"urn:ep:";
    let values = b"\0 /09:;AEPUenprsuz\x7F\x80\xFF";
    let mut counts = Counts::default();
    for back in [&b"2010"[..], b"2017.50"] {
        for cases in 0..1 << front.len() {
            let flip = |place: usize| (cases >> place & 1) << 5;
            let changed: Vec<u8> = (0..7).map(|place| front[place] ^ flip(place)).collect();
            check_uri(&[&changed, back].concat(), &mut counts);
        }
        for (one, other) in (0..7).flat_map(|one| (0..one).map(move |other| (one, other))) {
            for value in values {
                for another in values {
                    let mut changed = *front;
                    (changed[one], changed[other]) = (*value, *another);
                    check_uri(&[&changed, back].concat(), &mut counts);
                }
            }
        }
    }
    println!("fronts: {counts}");
    // The front itself, once among the cases and once for each of the 21 pairs.
    assert_eq!(counts.moved, 2 * (1 + 21));
    assert_eq!(counts.not_epoch, counts.shifts() - counts.moved);
}
