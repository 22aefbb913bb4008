//! Shots moved to another epoch, and the texts of epochs.

mod common;

use common::morning;
use logbook::raw::{COORDINATE_LIMIT, DIFFERENCE_LIMIT, MOTION_LIMIT};
use logbook::{shift, Epoch, Kind, Motion, Point, Refusal, Triple};

fn triple(x: i64, y: i64, z: i64) -> Triple {
    Triple { x, y, z }
}

fn shot(position: Triple) -> Vec<u8> {
    let Triple { x, y, z } = position;
    [x, y, z].map(i64::to_be_bytes).concat()
}

/// A shot under urn:ep:2010, moved over a difference.
fn moved(position: Triple, difference: i64, motion: Triple) -> Result<Point, Refusal> {
    let to = Epoch(201_000 + difference);
    Ok(shift("urn:ep:2010", shot(position), to, motion)?.point)
}

#[test]
fn a_point_is_moved() -> Result<(), Refusal> {
    let position = triple(39_805_742_470, -1_020_812_345, 0);
    let motion = triple(700, -1, 0);
    let shifted = shift("urn:ep:2010", shot(position), Epoch(201_720), motion)?;
    assert_eq!(shifted.epoch, Epoch(201_000));
    assert_eq!(shifted.position, position);
    let point = Point {
        x: 3_980_574_247_000.0 + 504_000.0,
        y: -102_081_234_500.0 - 720.0,
        z: 0.0,
    };
    assert_eq!(shifted.point, point);
    let motion = Motion {
        x: 70_000.0,
        y: -100.0,
        z: 0.0,
    };
    assert_eq!(shifted.motion, motion);
    Ok(())
}

/// What comes to 0 is +0.0, by its bits.
#[test]
fn a_zero_has_no_sign() -> Result<(), Refusal> {
    let none = triple(0, 0, 0);
    for (position, difference, motion) in [
        (none, 0, none),
        (none, -720, none),
        (none, 0, triple(-700, -1, -10_000)),
        (triple(-7, 7, -1), 1, triple(700, -700, 100)),
        (triple(-7, 7, 1), -100, triple(-7, 7, 1)),
    ] {
        let Point { x, y, z } = moved(position, difference, motion)?;
        assert_eq!([x, y, z].map(f64::to_bits), [0; 3]);
    }
    let Motion { x, y, z } = shift("urn:ep:2010", [0; 24], Epoch(201_000), none)?.motion;
    assert_eq!([x, y, z].map(f64::to_bits), [0; 3]);
    Ok(())
}

#[test]
fn bounds_are_allowed_and_no_more() {
    let (far, long, fast) = (COORDINATE_LIMIT, DIFFERENCE_LIMIT, MOTION_LIMIT);
    let corner = moved(triple(far, -far, far), long, triple(fast, -fast, -fast));
    let point = Point {
        x: 10_001_000_000_000.0,
        y: -10_001_000_000_000.0,
        z: 9_999_000_000_000.0,
    };
    assert_eq!(corner, Ok(point));
    let none = triple(0, 0, 0);
    assert!(moved(none, -long, none).is_ok());
    for over in [far + 1, -far - 1, i64::MAX, i64::MIN] {
        for position in [triple(over, 0, 0), triple(0, over, 0), triple(0, 0, over)] {
            assert_eq!(moved(position, 0, none), Err(Refusal::OverBound));
        }
    }
    for over in [fast + 1, -fast - 1, i64::MAX, i64::MIN] {
        for motion in [triple(over, 0, 0), triple(0, over, 0), triple(0, 0, over)] {
            assert_eq!(moved(none, 0, motion), Err(Refusal::OverBound));
        }
    }
    for to in [201_000 + long + 1, 201_000 - long - 1, i64::MAX, i64::MIN] {
        let refused = shift("urn:ep:2010", [0; 24], Epoch(to), none);
        assert_eq!(refused, Err(Refusal::OverBound));
    }
}

#[test]
fn the_epoch_is_the_uris() {
    let none = triple(0, 0, 0);
    let epoch = |uri: &str, to| shift(uri, [0; 24], Epoch(to), none).map(|found| found.epoch);
    for (uri, hundredths) in [
        ("urn:ep:2010", 201_000),
        ("urn:ep:2010.00", 201_000),
        ("urn:ep:2017.50", 201_750),
        ("urn:ep:0000", 0),
        ("urn:ep:0000.01", 1),
        ("urn:ep:9999.99", 999_999),
    ] {
        assert_eq!(epoch(uri, hundredths), Ok(Epoch(hundredths)), "{uri}");
    }
    for uri in [
        "",
        "urn:ep:",
        "urn:ep:201",
        "urn:ep:20100",
        "urn:ep:2010.",
        "urn:ep:2010.5",
        "urn:ep:2010.500",
        "urn:ep:2010,50",
        "urn:ep:201x",
        "urn:ep:-201",
        "urn:ep: 201",
        "URN:ep:2010",
        "urn:EP:2010",
        " urn:ep:2010",
        "urn:ep:2010 ",
        "urn:photo:stone",
    ] {
        assert_eq!(epoch(uri, 201_000), Err(Refusal::NotEpoch), "{uri}");
    }
}

#[test]
fn refusals_come_in_their_order() {
    let over = triple(i64::MIN, 0, 0);
    let to = Epoch(i64::MAX);
    for length in [0, 1, 23, 25, 48] {
        let data = vec![0x80; length];
        let refused = shift("urn:ep:201", &data, to, over);
        assert_eq!(refused, Err(Refusal::NotEpoch));
        let refused = shift("urn:ep:2010", &data, to, over);
        assert_eq!(refused, Err(Refusal::NotShot));
    }
    let data = [0x80; 24];
    let refused = shift("urn:ep:201", data, to, over);
    assert_eq!(refused, Err(Refusal::NotEpoch));
    let refused = shift("urn:ep:2010", data, to, over);
    assert_eq!(refused, Err(Refusal::OverBound));
}

#[test]
fn the_entries_of_a_logbook() -> Result<(), Refusal> {
    let mut buffer = [0; 400];
    let mut log = morning(&mut buffer)?;
    let first = log.append("urn:ep:2017", shot(triple(1, 2, -3)))?;
    log.append("urn:photo:stone", shot(triple(1, 2, 3)))?;
    log.assign(2, "urn:ep:2017.50")?;
    let last = log.append("urn:ep:2017.50", shot(triple(4, 5, -6)))?;
    let before = log.bytes().to_vec();
    let mut answers = Vec::new();
    for entry in log.entries() {
        let entry = entry?;
        let answer = entry.shift(Epoch(201_800), triple(10, 0, -10));
        if entry.kind != Kind::Plain {
            assert_eq!(answer, Err(Refusal::NotEpoch));
            continue;
        }
        answers.push(answer.map(|shifted| (entry.place, shifted.epoch, shifted.point.x)));
    }
    let expected = [
        Err(Refusal::NotShot), // P7
        Err(Refusal::NotShot), // P8
        Ok((first, Epoch(201_700), 100.0 + 1_000.0)),
        Err(Refusal::NotEpoch),
        Ok((last, Epoch(201_750), 400.0 + 500.0)),
    ];
    assert_eq!(answers, expected);
    assert_eq!(log.bytes(), before);
    Ok(())
}

#[test]
fn epochs_are_written() {
    for (hundredths, text) in [
        (0, "0000.00"),
        (1, "0000.01"),
        (-1, "-0000.01"),
        (99, "0000.99"),
        (100, "0001.00"),
        (201_000, "2010.00"),
        (201_750, "2017.50"),
        (-201_750, "-2017.50"),
        (999_999, "9999.99"),
        (1_000_000, "10000.00"),
        (i64::MAX, "92233720368547758.07"),
        (i64::MIN, "-92233720368547758.08"),
    ] {
        assert_eq!(Epoch(hundredths).to_string(), text);
        assert_eq!(text.parse(), Ok(Epoch(hundredths)));
    }
}

/// Texts that aren't an epoch's, and epochs past the ends of their type.
const NO_EPOCHS: [&str; 24] = [
    "",
    "-",
    ".",
    ".50",
    "-.50",
    "2010.",
    "2010.5",
    "2010.500",
    "2010.-5",
    "2010.+5",
    "2010.5x",
    "2010.50.50",
    "+2010",
    "--2010",
    " 2010",
    "2010 ",
    "2010,50",
    "2e3",
    "urn:ep:2010",
    "٢٠١٠",
    "92233720368547758.08",
    "-92233720368547758.09",
    "92233720368547759",
    "99999999999999999999999999999999999999999999",
];

#[test]
fn epochs_are_read() {
    for (text, hundredths) in [
        ("2010", 201_000),
        ("0", 0),
        ("-0", 0),
        ("-0.00", 0),
        ("-0.50", -50),
        ("7", 700),
        ("7.05", 705),
        ("-7.05", -705),
        ("0000002010.25", 201_025),
        ("92233720368547758", 9_223_372_036_854_775_800),
    ] {
        assert_eq!(text.parse(), Ok(Epoch(hundredths)), "{text}");
    }
    let reason = "an epoch is a whole number of years, or one, a point and two digits";
    for text in NO_EPOCHS {
        let error = text.parse::<Epoch>().expect_err(text);
        assert_eq!(error.to_string(), reason);
    }
}
