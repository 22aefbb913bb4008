//! 02 [1], "Say what is broken": sizes and types that are broken, cut off or too long, by every
//! call that reads them. 02 [2], "Short integers": every first byte of a size and of a type.
//! 02 [5], "Bigger type numbers": types and assigned numbers have up to nine bytes, sizes four.

use compare::pieces::{integer, string, HEADER_LENGTH};
use compare::records::{ask_all, behind_header, WALKS};
use compare::settings::spread;
use compare::tally::{Tally, CALLS};
use logbook::raw;

/// Bytes that sizes and types are made of: padding, short ones, 80, others with the top bit set.
const BYTES: [u8; 9] = [0x00, 0x01, 0x02, 0x03, 0x04, 0x05, 0x80, 0x81, 0xFF];
/// The longest of the strings of them that are all compared.
const LONGEST: usize = 6;

/// A record's name, its bytes behind a header, and the number and place that it is refused with.
type Named = (&'static str, &'static [u8], usize, usize);

/// Each fault alone, and wherever two could be given.
const CASES: [Named; 36] = [
    ("a size of 80", b"\x80\x11", 14, 109),
    ("a size of 80 at the used length", b"\x80", 14, 109),
    ("14 before 15 of a size", b"\x80\xFF\xFF\xFF", 14, 109),
    ("a size of four top bits", b"\x81\x80\x80\x80\x00", 15, 112),
    ("M10 at the used length", b"\xFF\xFF\xFF\xFF", 15, 112),
    ("M9, a size that isn't over", b"\x81", 2, 109),
    ("a size of three top bits", b"\xFF\xFF\xFF", 2, 109),
    ("a type of 80, 2 before it", b"\x05\x80", 2, 109),
    ("a type cut off, 2 before it", b"\x02\x81", 2, 109),
    ("a type of 80", b"\x02\x80\x02", 14, 110),
    ("a type of 80 00", b"\x02\x80\x00", 14, 110),
    ("14 before 16", b"\x01\x80", 14, 110),
    ("14 before 15", b"\x04\x80\xFF\xFF\xFF", 14, 110),
    (
        "nine top bits",
        b"\x0A\xFF\xFF\xFF\xFF\xFF\xFF\xFF\xFF\xFF\x01",
        15,
        118,
    ),
    (
        "ten",
        b"\x0A\xFF\xFF\xFF\xFF\xFF\xFF\xFF\xFF\xFF\xFF",
        15,
        118,
    ),
    (
        "nine, 2 before it",
        b"\x0A\xFF\xFF\xFF\xFF\xFF\xFF\xFF\xFF\xFF",
        2,
        109,
    ),
    (
        "15 before 16",
        b"\x09\xFF\xFF\xFF\xFF\xFF\xFF\xFF\xFF\xFF",
        15,
        118,
    ),
    (
        "ten bytes",
        b"\x0A\x81\x80\x80\x80\x80\x80\x80\x80\x80\x00",
        15,
        118,
    ),
    (
        "14 before it",
        b"\x09\x80\xFF\xFF\xFF\xFF\xFF\xFF\xFF\xFF",
        14,
        110,
    ),
    ("a type of one byte past its size", b"\x01\x81", 16, 110),
    ("a type of two", b"\x02\x81\x80", 16, 111),
    ("a type of three", b"\x03\xFF\xFF\xFF", 16, 112),
    ("a fourth behind it", b"\x03\xFF\xFF\xFF\xFF", 16, 112),
    ("a type of four", b"\x04\xFF\xFF\xFF\xFF", 16, 113),
    ("of eight", b"\x08\xFF\xFF\xFF\xFF\xFF\xFF\xFF\xFF", 16, 117),
    (
        "a ninth behind it",
        b"\x08\xFF\xFF\xFF\xFF\xFF\xFF\xFF\xFF\xFF",
        16,
        117,
    ),
    ("16 behind padding", b"\x00\x00\x01\x81", 16, 112),
    ("an assigned number of 80", b"\x02\x01\x80", 5, 109),
    (
        "one of nine top bits",
        b"\x0A\x01\xFF\xFF\xFF\xFF\xFF\xFF\xFF\xFF\xFF",
        5,
        109,
    ),
    (
        "of ten bytes",
        b"\x0D\x01\x81\x80\x80\x80\x80\x80\x80\x80\x80\x00a:",
        5,
        109,
    ),
    (
        "of four that isn't over",
        b"\x05\x01\xFF\xFF\xFF\xFF",
        5,
        109,
    ),
    ("one that isn't over", b"\x02\x01\x81", 5, 109),
    ("a sound type that isn't held", b"\x02\x81\x00", 6, 109),
    ("one of five bytes", b"\x05\xFF\xFF\xFF\xFF\x01", 6, 109),
    (
        "the greatest",
        b"\x09\xFF\xFF\xFF\xFF\xFF\xFF\xFF\xFF\x7F",
        6,
        109,
    ),
    (
        "2^32 + 1, with 1 held",
        b"\x08\x90\x80\x80\x80\x01\x02a:",
        6,
        109,
    ),
];

#[test]
fn named_cases() {
    for (name, bytes, number, place) in CASES {
        let padding = bytes.iter().take_while(|&&byte| byte == 0).count();
        let (bytes, start) = (behind_header(bytes), HEADER_LENGTH + padding);
        let answers = ask_all(name.to_string(), &bytes, start, &mut Tally::default());
        assert_eq!(answers, [(number, place); WALKS], "{name}");
    }
}

/// A type behind a size of two to four bytes is told by its own place.
#[test]
fn types_behind_longer_sizes() {
    let sizes: [(&[u8], usize); 3] = [
        (b"\x81\x00", 128),
        (b"\x81\x80\x00", 16_384),
        (b"\x81\x80\x80\x00", 2_097_152),
    ];
    for (size, length) in sizes {
        for (kind, number, offset) in [(&[0x80][..], 14, 0), (&[0xFF; 9], 15, 8)] {
            let mut bytes = behind_header(&[size, kind].concat());
            bytes.resize(HEADER_LENGTH + size.len() + length, 0);
            let place = HEADER_LENGTH + size.len() + offset;
            let mut expected = [(number, place); WALKS];
            if bytes.len() > 65_536 {
                // A listing of so long a file is refused by 1.
                expected[4] = (1, 0);
            }
            let name = format!("{size:x?} {kind:x?}");
            let answers = ask_all(name, &bytes, HEADER_LENGTH, &mut Tally::default());
            assert_eq!(answers, expected, "{size:x?} {kind:x?}");
        }
    }
}

#[test]
fn every_short_string_agrees() {
    let mut tally = Tally::default();
    for length in 1..=LONGEST {
        tally.join(spread(
            BYTES.len().pow(length as u32),
            |number, tally| {
                let name = format!("{number} of {length}");
                let bytes = behind_header(&string(&BYTES, length, number));
                ask_all(name, &bytes, HEADER_LENGTH, tally);
            },
            Tally::join,
        ));
    }
    println!("{} calls compared\n{tally}", tally.calls());
    for (call, name) in CALLS.iter().enumerate().skip(1) {
        for number in [0, 2, 5, 6, 14, 15, 16] {
            let can = number > 0 || !matches!(*name, "erase");
            assert_eq!(tally.of(call, number) > 0, can, "{name}: {number}");
        }
    }
}

/// An integer with this first byte, and one more where the first has its top bit set.
fn beginning_with(first: u8) -> Vec<u8> {
    if first < 0x80 {
        return vec![first];
    }
    vec![first, 0x05]
}

/// A header, an assignment of the type where it can be assigned, a record of that size and type
/// and padding; and where the record starts.
fn sized_and_typed(size: &[u8], kind: &[u8]) -> (Vec<u8>, usize) {
    let assignment = match kind[0] {
        0x00 | 0x80 => Vec::new(),
        _ => [&[3 + kind.len() as u8, 0x01], kind, b"a:"].concat(),
    };
    let place = HEADER_LENGTH + assignment.len();
    let bytes = behind_header(&[&assignment, size, kind, &[0; 300]].concat());
    (bytes, place)
}

#[test]
fn every_first_byte_agrees() {
    let tally = spread(
        0x1_0000,
        |pair, tally| {
            let size = beginning_with((pair >> 8) as u8);
            let kind = beginning_with(pair as u8);
            let (bytes, place) = sized_and_typed(&size, &kind);
            ask_all(format!("{size:x?} {kind:x?}"), &bytes, place, tally);
        },
        Tally::join,
    );
    println!("{} calls compared\n{tally}", tally.calls());
    for (call, name) in CALLS.iter().enumerate().skip(1) {
        for number in [0, 2, 14, 16] {
            assert!(tally.of(call, number) > 0, "{name}: {number}");
        }
    }
}

/// A size and a type below 80 are one byte each, and the record is as long as they say.
#[test]
fn bytes_below_80_are_integers() {
    for (size, kind) in (1..0x80u8).flat_map(|size| (1..0x80u8).map(move |kind| (size, kind))) {
        let (bytes, place) = sized_and_typed(&[size], &[kind]);
        let mut step = raw::step(&bytes, bytes.len(), raw::fresh());
        while step.item.place < place {
            step = raw::step(&bytes, bytes.len(), step.reading);
        }
        let item = step.item;
        assert_eq!((item.kind, item.row.number), (raw::ENTRY, kind.into()));
        assert_eq!((item.type_place, item.data_place), (place + 1, place + 2));
        assert_eq!(step.reading.position, place + 1 + usize::from(size));
    }
}

/// What is due of a size or a type at a place: its value, or the number and place of the refusal;
/// `short` is that of one that isn't over within these bytes.
fn due(
    bytes: &[u8],
    most: usize,
    place: usize,
    short: (usize, usize),
) -> Result<u64, (usize, usize)> {
    let tops = bytes.iter().take_while(|&&byte| byte >= 0x80).count();
    match bytes[0] {
        0x80 => Err((14, place)),
        _ if tops >= most => Err((15, place + most - 1)),
        _ if tops == bytes.len() => Err(short),
        _ => Ok(integer(bytes).0),
    }
}

/// A record of this size whose type begins so, by every call that walks over it. What of the bytes
/// is past its size stands behind it.
fn check_type(size: usize, kind: &[u8], tally: &mut Tally) {
    let bytes = behind_header(&[&[size as u8], kind].concat());
    let within = &kind[..size];
    let refusal = match due(within, 9, HEADER_LENGTH + 1, (16, HEADER_LENGTH + size)) {
        // A deleted record or an assignment: compared alone.
        Ok(0 | 1) => None,
        Ok(_) => Some((6, HEADER_LENGTH)),
        Err(refusal) => Some(refusal),
    };
    let name = format!("{size} {kind:x?}");
    let answers = ask_all(name, &bytes, HEADER_LENGTH, tally);
    if let Some(refusal) = refusal {
        assert_eq!(answers, [refusal; WALKS], "{size} {kind:x?}");
    }
}

/// Integers of one to ten bytes, the top bits set on all but the last: any first byte, 80 too.
fn writings() -> Vec<Vec<u8>> {
    let mut all = Vec::new();
    for (width, last) in (1..=10).flat_map(|width| [0x00, 0x01, 0x7F].map(|last| (width, last))) {
        for (first, between) in [(0x80, 0x80), (0x80, 0xFF), (0x81, 0x80), (0xFF, 0xFF)] {
            let mut bytes = vec![between; width];
            bytes[0] = first;
            bytes[width - 1] = last;
            all.push(bytes);
        }
    }
    all
}

/// Prints what was compared; each call came to each of these refusals that often.
fn check_tally(tally: &Tally, refusals: &[usize], least: u64) {
    println!("{} calls compared\n{tally}", tally.calls());
    for (call, name) in CALLS.iter().enumerate().skip(1) {
        for &number in refusals {
            assert!(tally.of(call, number) >= least, "{name}: {number}");
        }
    }
}

/// Cut off at each byte by the record's size, and by the used length.
#[test]
fn types_of_every_width() {
    let mut tally = Tally::default();
    for kind in writings() {
        for size in 1..=kind.len() {
            check_type(size, &kind, &mut tally);
            let torn = behind_header(&[&[size as u8], &kind[..size - 1]].concat());
            let name = format!("torn at {size} {kind:x?}");
            let answers = ask_all(name, &torn, HEADER_LENGTH, &mut tally);
            assert_eq!(answers, [(2, HEADER_LENGTH); WALKS], "{size} {kind:x?}");
        }
    }
    check_tally(&tally, &[2, 6, 14, 15, 16], 12);
}

/// In an assignment's data, cut off at each byte by its end; whole, a URI follows.
#[test]
fn assigned_numbers_of_every_width() {
    let (mut tally, mut sound) = (Tally::default(), 0);
    for written in writings() {
        for length in 1..=written.len() {
            let uri = if length == written.len() { "a:" } else { "" };
            let data = [&written[..length], uri.as_bytes()].concat();
            let bytes = behind_header(&[&[1 + data.len() as u8, 0x01], &data[..]].concat());
            let name = format!("{length} of {written:x?}");
            let answers = ask_all(name, &bytes, HEADER_LENGTH, &mut tally);
            let Ok(number @ 1..) = due(&written[..length], 9, 0, (16, 0)) else {
                assert_eq!(
                    answers,
                    [(5, HEADER_LENGTH); WALKS],
                    "{length} of {written:x?}"
                );
                continue;
            };
            let header = raw::step(&bytes, bytes.len(), raw::fresh());
            let item = raw::step(&bytes, bytes.len(), header.reading).item;
            assert_eq!((item.kind, item.assigned), (raw::ASSIGNMENT, number));
            assert_eq!(item.assigned_place, HEADER_LENGTH + 2 + length);
            sound += 1;
        }
    }
    println!("{sound} sound numbers");
    check_tally(&tally, &[5], 600);
    // Of one byte all but the four 00, of each width from two to nine the six without an 80 in front.
    assert_eq!((sound, tally.great), (8 + 8 * 6, 5 * 6));
}

/// A size of five to ten bytes is refused at its fourth, whatever stands behind.
#[test]
fn sizes_of_five_bytes_and_more() {
    let mut tally = Tally::default();
    for size in writings().into_iter().filter(|size| size.len() > 4) {
        for length in 1..=size.len() {
            for behind in [0, 300] {
                let rest = [&size[..length], &vec![0x02; behind]].concat();
                let Err(refusal) = due(&rest, 4, HEADER_LENGTH, (2, HEADER_LENGTH)) else {
                    continue;
                };
                let name = format!("{length} of {size:x?}, {behind} behind");
                let answers = ask_all(
                    name.clone(),
                    &behind_header(&rest),
                    HEADER_LENGTH,
                    &mut tally,
                );
                assert_eq!(answers, [refusal; WALKS], "{name}");
            }
        }
    }
    check_tally(&tally, &[2, 14, 15], 100);
}

/// Every string of ten of three bytes as a type, in records of these sizes.
#[test]
fn every_string_of_ten_agrees() {
    let bytes = [0x01, 0x80, 0xFF];
    let tally = spread(
        bytes.len().pow(10),
        |number, tally| {
            for size in [5, 8, 9, 10] {
                check_type(size, &string(&bytes, 10, number), tally);
            }
        },
        Tally::join,
    );
    check_tally(&tally, &[5, 6, 14, 15, 16], 500);
}
