//! The cases of paper 02 [9], and of [6] for it, run through the public calls.

mod common;

use common::*;
use reader::*;

/// A slow reading of what this plain one has read, with nothing held.
fn slow(reading: &Reading) -> SlowReading {
    SlowReading {
        reading: reading.clone(),
        ..SlowReading::fresh()
    }
}

/// The slow reading with these four fields.
fn holding(of: &SlowReading, held: (usize, usize, u64, usize)) -> SlowReading {
    SlowReading {
        reading: of.reading.clone(),
        type_place: held.0,
        end: held.1,
        number: held.2,
        data_place: held.3,
    }
}

/// The four fields.
fn held(of: &SlowReading) -> (usize, usize, u64, usize) {
    (of.type_place, of.end, of.number, of.data_place)
}

/// A slow reading that has read `log` up to the item at `place`.
fn at(log: &[u8], place: usize) -> SlowReading {
    let mut reading = Reading::fresh();
    while reading.position < place {
        let (answer, next) = reading.step(log, log.len());
        assert!(answer.is_ok(), "{answer:?}");
        reading = next;
    }
    assert_eq!(reading.position, place);
    slow(&reading)
}

/// The reading behind a move that isn't refused.
fn moved(of: &SlowReading, log: &[u8]) -> SlowReading {
    let (answer, next) = of.move_on(log, log.len());
    assert!(answer.is_ok(), "{answer:?}");
    next
}

/// Whether the move of the whole of `log` is refused like this and hands the
/// reading back as it came.
fn check_refused(of: &SlowReading, log: &[u8], number: u8, place: usize) {
    let answer = of.move_on(log, log.len());
    assert_eq!(answer, (refused(number, place), of.clone()));
}

/// Whether the move gives this item, and the reading is done with it: at
/// `behind`, with nothing held.
fn check_item(of: &SlowReading, log: &[u8], item: Item, behind: usize) -> SlowReading {
    let (answer, next) = of.move_on(log, log.len());
    assert_eq!(answer, Ok(Moved::Item(item)));
    assert_eq!(next.reading.position, behind);
    assert_eq!(held(&next), (0, 0, 0, 0));
    next
}

/// What is reported of an implied number.
const NONE: (usize, usize) = (0, 0);

/// The items that the moves of a fresh slow reading come to, up to its end.
fn items(log: &[u8]) -> Vec<Item<'_>> {
    let (mut list, mut of) = (Vec::new(), SlowReading::fresh());
    loop {
        let (answer, next) = of.move_on(log, log.len());
        match answer.unwrap() {
            Moved::Item(Item::End { .. }) => return list,
            Moved::Item(item) => list.push(item),
            Moved::Size { .. } | Moved::Type { .. } => {}
        }
        of = next;
    }
}

#[test]
fn a_fresh_one_holds_nothing() {
    let fresh = SlowReading::fresh();
    assert_eq!(fresh.reading, Reading::fresh());
    assert_eq!(held(&fresh), (0, 0, 0, 0));
}

#[test]
fn size_type_and_data_in_two_moves() {
    let log = book(&[b"\x0D\x01\x02urn:ep:2010", b"\x03\x02P7"]);
    let header = SlowReading::fresh();
    let first = Item::Entry {
        place: 0,
        number: 1,
        kind: Kind::Header,
        uri: b"urn:lozizol:header",
        data_place: 2,
        data: &log[2..109],
        declared_place: 0,
        declared_number: 0,
    };
    let before = check_item(&header, &log, first, 109);
    let moves = two_moves(&before, &log, (110, 123, 1, 111));
    let assignment = Item::Entry {
        place: 109,
        number: 2,
        kind: Kind::Assignment,
        uri: b"urn:lozizol:type",
        data_place: 111,
        data: b"\x02urn:ep:2010",
        declared_place: 0,
        declared_number: 0,
    };
    let before = check_item(&moves, &log, assignment, 123);
    assert_eq!(before.reading, at(&log, 123).reading);
    let moves = two_moves(&before, &log, (124, 127, 2, 125));
    let shot = Item::Entry {
        place: 123,
        number: 3,
        kind: Kind::Plain,
        uri: b"urn:ep:2010",
        data_place: 125,
        data: b"P7",
        declared_place: 109,
        declared_number: 2,
    };
    let end = check_item(&moves, &log, shot, 127);
    let over = check_item(&end, &log, Item::End { place: 127 }, 127);
    assert_eq!(over, end);
}

/// The reading behind the size move and the type move of a live record, where
/// these hold these fields and change no other.
fn two_moves(before: &SlowReading, log: &[u8], fields: (usize, usize, u64, usize)) -> SlowReading {
    let (type_place, end, number, data_place) = fields;
    let (answer, size) = before.move_on(log, log.len());
    assert_eq!(answer, Ok(Moved::Size { type_place, end }));
    assert_eq!(size, holding(before, (type_place, end, 0, 0)));
    let (answer, next) = size.move_on(log, log.len());
    let taken = Moved::Type {
        type_place,
        end,
        number,
        data_place,
    };
    assert_eq!(answer, Ok(taken));
    assert_eq!(next, holding(before, fields));
    next
}

#[test]
fn sizes_of_one_to_four_bytes_and_types_of_one_to_nine() {
    for (number, bytes) in [
        (2, 1),
        (128, 2),
        (16_384, 3),
        (2_097_152, 4),
        (1 << 56, 9),
        (LIMIT, 9),
    ] {
        for (length, size_bytes) in [(0, 1), (1, 1), (200, 2), (16_384, 3), (2_097_152, 4)] {
            let parts = [assigns(number, b"a:"), record(number, &vec![7; length])];
            let log = book(&[&parts[0], &parts[1]]);
            let place = 109 + parts[0].len();
            let type_place = place + size_bytes;
            let data_place = type_place + bytes;
            let fields = (type_place, log.len(), number, data_place);
            let moves = two_moves(&at(&log, place), &log, fields);
            let item = Item::Entry {
                place,
                number: 3,
                kind: Kind::Plain,
                uri: b"a:",
                data_place,
                data: &log[data_place..],
                declared_place: 109,
                declared_number: 2,
            };
            check_item(&moves, &log, item, log.len());
        }
    }
}

#[test]
fn place_0_is_one_move() {
    let log = book(&[b"\x00"]);
    let fresh = SlowReading::fresh();
    for used in [0, 1, 2, 108] {
        let answer = fresh.move_on(&log, used);
        assert_eq!(answer, (refused(2, 0), fresh.clone()));
    }
    for used in [109, 110] {
        let (answer, next) = fresh.move_on(&log, used);
        let (item, plain) = Reading::fresh().step(&log, used);
        assert_eq!(answer, item.map(Moved::Item));
        assert_eq!(next, slow(&plain));
    }
    // Only 2 and 3 are known there, no padding and no broken size.
    for (place, byte) in [(0, 0), (0, 0x80), (0, 0xFF), (1, 0), (1, 0x80), (48, 0)] {
        let mut other = log.clone();
        other[place] = byte;
        check_refused(&fresh, &other, 3, 0);
        let (answer, next) = fresh.move_on(&other, 108);
        assert_eq!((answer, next), (refused(2, 0), fresh.clone()));
    }
    // Implied rows fit there, as they do for a step; the header empties them.
    let mut rows = fresh.clone();
    rows.reading.held = 1;
    (rows.reading.rows[0].number, rows.reading.rows[0].implied) = (111, true);
    assert_eq!(moved(&rows, &log), moved(&fresh, &log));
}

#[test]
fn nothing_is_held_at_place_0() {
    let log = book(&[b"\x01\x01"]);
    // The first two would fit if 0 were a place like any other.
    for fields in [
        (1, 109, 0, 0),
        (1, 109, 111, 2),
        (1, 0, 0, 0),
        (0, 1, 0, 0),
        (0, 109, 0, 0),
        (0, 0, 111, 0),
        (0, 0, 0, 2),
        (1, 2, 111, 2),
        (usize::MAX, usize::MAX, u64::MAX, usize::MAX),
    ] {
        let mut odd = holding(&SlowReading::fresh(), fields);
        check_refused(&odd, &log, 13, 0);
        odd.reading.held = 1;
        (odd.reading.rows[0].number, odd.reading.rows[0].implied) = (111, true);
        check_refused(&odd, &log, 13, 0);
    }
}

#[test]
fn padding_and_the_end_are_one_move() {
    let log = book(&[b"\x00\x00\x02\x00\x09\x00"]);
    let mut reading = at(&log, 109);
    for place in [109, 110] {
        reading = check_item(&reading, &log, Item::Padding { place }, place + 1);
    }
    let size = moved(&reading, &log);
    assert_eq!(held(&size), (112, 114, 0, 0));
    reading = check_item(&size, &log, Item::Deleted { place: 111 }, 114);
    reading = check_item(&reading, &log, Item::Padding { place: 114 }, 115);
    let end = check_item(&reading, &log, Item::End { place: 115 }, 115);
    assert_eq!(end, reading);
    assert_eq!(end.reading.count, 1);
}

/// What stands before a record, and what stands behind it.
const BEFORE: [&[u8]; 4] = [b"", b"\x00", b"\x02\x00\x80", b"\x04\x01\x02a:\x02\x02\x80"];
const BEHIND: [&[u8]; 5] = [b"", b"\x00", b"\x05", b"\x80", b"\xFF\xFF\xFF\xFF"];

/// Calls `check` with logbooks of the record and the place where it starts.
fn placed(record: &[u8], alone: bool, check: impl Fn(&[u8], usize)) {
    for before in BEFORE {
        let place = 109 + before.len();
        for behind in &BEHIND[..if alone { 1 } else { BEHIND.len() }] {
            check(&book(&[before, record, behind]), place);
        }
    }
}

#[test]
fn refusals_of_a_size_move() {
    for (size, number, byte) in [
        (&b"\x80"[..], 14, 0), // alone too, and before 15
        (b"\x80\x01\x01", 14, 0),
        (b"\x80\xFF\xFF\xFF\xFF", 14, 0),
        (b"\x81", 2, 0), // not over at the used length
        (b"\xFF\xFF", 2, 0),
        (b"\x81\x80\x80", 2, 0),
        (b"\x81\x80\x80\x80", 15, 3), // the fourth byte, the last used one too
        (b"\xFF\xFF\xFF\xFF", 15, 3),
        (b"\xFF\xFF\xFF\x80\x00", 15, 3),
        (b"\x01", 2, 0), // its bytes run past the used length
        (b"\x02\x01", 2, 0),
        (b"\x02\x80", 2, 0), // before the type is looked at
        (b"\x04\xFF\xFF\xFF", 2, 0),
        (b"\x81\x00\x00", 2, 0),
        (b"\xFF\xFF\xFF\x7F", 2, 0),
    ] {
        placed(size, number == 2, |log, place| {
            check_refused(&at(log, place), log, number, place + byte);
        });
    }
}

#[test]
fn a_size_move_looks_at_the_used_bytes_of_the_size_alone() {
    // Types that are broken or not held, and data that is.
    for record in [
        &b"\x01\x80"[..],
        b"\x01\x81",
        b"\x09\xFF\xFF\xFF\xFF\xFF\xFF\xFF\xFF\xFF",
        b"\x01\x05",
        b"\x01\x00",
        b"\x01\x01",
        b"\x01\x6F",
    ] {
        placed(record, false, |log, place| {
            let (answer, next) = at(log, place).move_on(log, log.len());
            let (type_place, end) = (place + 1, place + record.len());
            assert_eq!(answer, Ok(Moved::Size { type_place, end }));
            assert_eq!(next, holding(&at(log, place), (type_place, end, 0, 0)));
        });
    }
    // Bytes past the used length are not looked at, nor are they missed.
    let log = book(&[b"\x03\x00\x02\x01\xFF\xFF\xFF\xFF"]);
    for (place, used, number, byte) in [
        (109, 110, 2, 109),
        (109, 111, 2, 109),
        (109, 112, 2, 109),
        (113, 114, 2, 113),
        (113, 116, 2, 113),
        (113, 117, 15, 116),
    ] {
        let reading = at(&log[..113], place);
        let answer = reading.move_on(&log, used);
        assert_eq!(answer, (refused(number, byte), reading));
    }
    assert!(at(&log[..113], 109).move_on(&log, 113).0.is_ok());
}

#[test]
fn refusals_of_a_type_move() {
    for (record, number, byte) in [
        (&b"\x01\x80"[..], 14, 1), // alone too, and before 16 and 15
        (b"\x02\x80\x00", 14, 1),
        (b"\x09\x80\xFF\xFF\xFF\xFF\xFF\xFF\xFF\xFF", 14, 1),
        (b"\x01\x81", 16, 1), // the record's last byte
        (b"\x03\xFF\xFF\xFF", 16, 3),
        (b"\x04\xFF\xFF\xFF\xFF", 16, 4),
        (b"\x08\x81\x80\x80\x80\x80\x80\x80\x80", 16, 8),
        (b"\x09\x81\x80\x80\x80\x80\x80\x80\x80\x80", 15, 9), // the ninth, before 16
        (b"\x0A\xFF\xFF\xFF\xFF\xFF\xFF\xFF\xFF\x80\x00", 15, 9),
        (b"\x01\x05", 6, 0),
        (b"\x02\x81\x00", 6, 0),
        (b"\x03\x05\x80\x80", 6, 0),
        (b"\x09\xFF\xFF\xFF\xFF\xFF\xFF\xFF\xFF\x7F", 6, 0),
    ] {
        placed(record, false, |log, place| {
            let size = moved(&at(log, place), log);
            check_refused(&size, log, number, place + byte);
        });
    }
}

#[test]
fn refusals_of_a_type_move_behind_sizes_of_one_to_four_bytes() {
    for (size, length) in [
        (&b"\x0A"[..], 10),
        (b"\x81\x00", 128),
        (b"\x81\x80\x00", 16_384),
        (b"\x81\x80\x80\x00", 2_097_152),
    ] {
        for (start, number, byte) in [
            (&b"\x80"[..], 14, size.len()),
            (&[0xFF; 9], 15, size.len() + 8),
            (b"\x05", 6, 0),
        ] {
            let log = book(&[size, start, &vec![0; length - start.len()]]);
            let reading = moved(&at(&log, 109), &log);
            assert_eq!(held(&reading), (109 + size.len(), log.len(), 0, 0));
            check_refused(&reading, &log, number, 109 + byte);
        }
    }
    // From outside the end can be anywhere behind the type's place, so 16 can
    // come behind any size, and the type's place isn't the size's.
    let log = book(&[&[0xFF; 20]]);
    for (past, length) in (1..5).flat_map(|past| (1..12).map(move |length| (past, length))) {
        let type_place = 109 + past;
        let reading = holding(&at(&log, 109), (type_place, type_place + length, 0, 0));
        if length < 9 {
            check_refused(&reading, &log, 16, type_place + length - 1);
        } else {
            check_refused(&reading, &log, 15, type_place + 8);
        }
    }
}

#[test]
fn the_type_move_finishes_a_deleted_record() {
    for record in [
        &b"\x01\x00"[..],
        b"\x02\x00\x80",
        b"\x03\x00\x05\xFF",
        b"\x0A\x00\xFF\xFF\xFF\xFF\xFF\xFF\xFF\xFF\xFF",
    ] {
        placed(record, false, |log, place| {
            let before = at(log, place);
            let size = moved(&before, log);
            let end = place + record.len();
            let next = check_item(&size, log, Item::Deleted { place }, end);
            assert_eq!(next.reading.count, before.reading.count);
            assert_eq!(next.reading.rows, before.reading.rows);
            assert_eq!(next.reading.held, before.reading.held);
        });
    }
}

/// The reading that holds the type of the record at `place`.
fn type_held(log: &[u8], place: usize) -> SlowReading {
    let reading = moved(&moved(&at(log, place), log), log);
    assert_ne!(reading.number, 0);
    reading
}

#[test]
fn refusals_of_a_data_move() {
    let header = book(&[]);
    for (record, number) in [
        (&b"\x01\x6F"[..], 3), // not 109 bytes
        (&[b"\x6B\x6F", &header[2..108]].concat(), 3),
        (&[b"\x6D\x6F", &header[2..], b"."].concat(), 3),
        (&[b"\x6C\x6F", &[b'.'; 107][..]].concat(), 3),
        (b"\x01\x01", 5), // missing
        (b"\x02\x01\x80", 5),
        (b"\x02\x01\x81", 5),
        (&record(1, &[0xFF; 9]), 5),
        (&record(1, &[0xFF; 12]), 5),
        (b"\x02\x01\x00", 5), // number 0
        (b"\x04\x01\x00a:", 5),
        (b"\x03\x01\x03a", 5), // URI not allowed
        (b"\x04\x01\x031:", 5),
        (&assigns(3, b"urn:lozizol:deleted"), 5),
        (&assigns(3, b"urn:lozizol:header"), 5),
        (&assigns(3, &[&b"a:"[..], &[b'x'; 254]].concat()), 5),
    ] {
        placed(record, false, |log, place| {
            check_refused(&type_held(log, place), log, number, place);
        });
    }
}

/// `count` assignments of the numbers from `first` up, all to "a:".
fn many(first: u8, count: u8) -> Vec<u8> {
    (first..first + count)
        .flat_map(|number| [4, 1, number, b'a', b':'])
        .collect()
}

#[test]
fn a_full_register_refuses_the_data_move() {
    // With 1 and 111 these are 32 numbers.
    let full = many(2, 30);
    let place = 109 + full.len();
    let log = book(&[&full, &assigns(32, b"b:")]);
    check_refused(&type_held(&log, place), &log, 7, place);
    let (answer, ..) = check_against_step(&log, log.len(), &at(&log, place).reading);
    assert_eq!(answer, refused(7, place));
    let log = book(&[&full, &assigns(LIMIT, b"b:")]);
    check_refused(&type_held(&log, place), &log, 7, place);
    // Bad data comes before it; a held number and a removal need no room.
    let log = book(&[&full, &assigns(32, b"b")]);
    check_refused(&type_held(&log, place), &log, 5, place);
    for record in [assigns(31, b"b:"), assigns(32, b""), assigns(31, b"")] {
        let log = book(&[&full, &record]);
        let next = moved(&type_held(&log, place), &log);
        assert_eq!(next, at(&log, log.len()));
    }
    let log = book(&[&full[5..], &assigns(32, b"b:")]);
    let next = moved(&type_held(&log, place - 5), &log);
    assert_eq!(next.reading.held, 32);
}

#[test]
fn first_1_then_13_then_the_moves_own() {
    let log = book(&[&assigns(2, b"a:"), b"\x01\x80"]);
    let size = moved(&at(&log, 114), &log);
    let mut odd = size.clone();
    odd.type_place = 119;
    for used in [117, 16_777_217, usize::MAX] {
        for reading in [&odd, &size, &at(&log, 114), &SlowReading::fresh()] {
            let answer = reading.move_on(&log, used);
            assert_eq!(answer, (refused(1, 0), reading.clone()));
        }
    }
    check_refused(&odd, &log, 13, 0);
    check_refused(&size, &log, 14, 115);
    // A position past the used length is 13, not an end.
    let answer = at(&log, 114).move_on(&log, 113);
    assert_eq!(answer, (refused(13, 0), at(&log, 114)));
    // At place 0 13 comes before 2 and 3.
    let odd = holding(&SlowReading::fresh(), (1, 2, 0, 0));
    for used in [0, 108, 116] {
        let answer = odd.move_on(&[0xAA; 116], used);
        assert_eq!(answer, (refused(13, 0), odd.clone()));
    }
}

/// An assignment of 2 at 109 and an entry of 20 bytes at 114, up to 136.
fn twenty() -> Vec<u8> {
    book(&[
        &assigns(2, b"a:"),
        &record(2, b"\x01\x02\x03\x04\x05\x06\x07\x08\x09\x0A.........."),
    ])
}

#[test]
fn the_bounds_of_a_held_size() {
    let log = twenty();
    let reading = at(&log, 114);
    for (type_place, end, used, fits) in [
        (113, 136, 136, false), // 1 to 4 past the position
        (114, 136, 136, false),
        (115, 136, 136, true),
        (116, 136, 136, true),
        (117, 136, 136, true),
        (118, 136, 136, true),
        (119, 136, 136, false),
        (115, 114, 136, false), // below the end
        (115, 115, 136, false),
        (115, 116, 136, true),
        (118, 117, 136, false),
        (118, 118, 136, false),
        (118, 119, 136, true),
        (115, 137, 136, false), // within the used length
        (115, 136, 135, false),
        (115, 135, 135, true),
        (115, 116, 116, true),
        (115, 116, 115, false),
        (0, 136, 136, false), // one of the two alone
        (115, 0, 136, false),
        (usize::MAX, 136, 136, false), // as far as a number goes
        (115, usize::MAX, 136, false),
        (usize::MAX, usize::MAX, 136, false),
        (usize::MAX - 1, usize::MAX, 136, false),
        (1, 2, 136, false),
    ] {
        let of = holding(&reading, (type_place, end, 0, 0));
        let (answer, next) = of.move_on(&log, used);
        assert_eq!(answer != refused(13, 0), fits, "{type_place} {end} {used}");
        assert!(fits || next == of);
    }
}

/// Whether a reading at 114 of [`twenty`] that holds these fields is refused
/// like this, 0 where it isn't.
fn check_held(type_place: usize, end: usize, number: u64, data_place: usize, refusal: u8) {
    let log = twenty();
    let fields = (type_place, end, number, data_place);
    let of = holding(&at(&log, 114), fields);
    let (answer, next) = of.move_on(&log, 136);
    match refusal {
        0 => assert_eq!((answer.is_ok(), next.reading.position), (true, end)),
        13 => assert_eq!((answer, next), (refused(13, 0), of), "{fields:?}"),
        _ => assert_eq!((answer, next), (refused(refusal, 114), of)),
    }
}

#[test]
fn a_held_type_is_one_that_the_rows_hold() {
    for (number, refusal) in [
        (1, 5), // held, but the data isn't an assignment's
        (2, 0),
        (111, 3), // held, but not the header form
        (0, 13),  // not held
        (3, 13),
        (110, 13),
        (112, 13),
        (LIMIT, 13),
        (LIMIT + 1, 13),
        (u64::MAX, 13),
    ] {
        check_held(115, 136, number, 116, refusal);
    }
}

#[test]
fn the_bounds_of_a_held_type() {
    for (type_place, end, data_place, refusal) in [
        (115, 136, 0, 13), // 1 to 9 past the type's place
        (115, 136, 114, 13),
        (115, 136, 115, 13),
        (115, 136, 116, 0),
        (115, 136, 117, 0),
        (115, 136, 123, 0),
        (115, 136, 124, 0),
        (115, 136, 125, 13),
        (118, 136, 118, 13),
        (118, 136, 119, 0),
        (118, 136, 127, 0),
        (118, 136, 128, 13),
        (115, 116, 116, 0), // not past the end
        (115, 116, 117, 13),
        (115, 120, 120, 0),
        (115, 120, 121, 13),
        (115, 136, usize::MAX, 13),
        (119, 136, 120, 13), // the bounds of a held size stay
        (114, 136, 116, 13),
        (115, 137, 116, 13),
        (115, 115, 116, 13),
        (115, usize::MAX, 116, 13),
        (usize::MAX, usize::MAX, usize::MAX, 13),
    ] {
        check_held(type_place, end, 2, data_place, refusal);
    }
}

#[test]
fn fields_not_in_use_are_zero() {
    let log = twenty();
    let reading = at(&log, 114);
    for pattern in 0..16 {
        let bit = |bit: u32| pattern >> bit & 1;
        let fields = (115 * bit(0), 136 * bit(1), 2 * bit(2) as u64, 116 * bit(3));
        let (answer, _) = holding(&reading, fields).move_on(&log, 136);
        let fits = matches!(pattern, 0b0000 | 0b0011 | 0b1111);
        assert_eq!(answer.is_ok(), fits, "{fields:?}");
        assert!(fits || answer == refused(13, 0));
    }
    // At padding and at the end too, where a held size could not come from.
    let log = book(&[b"\x00\x00\x00"]);
    for place in [109, 112] {
        for fields in [
            (1, 0, 0, 0),
            (0, 1, 0, 0),
            (0, 0, 1, 0),
            (0, 0, 0, 1),
            (0, 0, 1, place + 2),
            (0, place + 2, 1, 0),
        ] {
            check_refused(&holding(&at(&log, place), fields), &log, 13, 0);
        }
    }
}

#[test]
fn the_rows_and_all_else_of_a_plain_reading_are_judged_too() {
    let log = twenty();
    let mut reading = type_held(&log, 114);
    reading.reading.rows[1].number = 3;
    check_refused(&reading, &log, 13, 0);
    reading.number = 3;
    assert!(reading.move_on(&log, 136).0.is_ok());
    // Unused rows hold nothing, whatever is asked for.
    reading.reading.held = 0;
    reading.reading.rows = Reading::fresh().rows;
    check_refused(&reading, &log, 13, 0);
    reading.number = 0;
    check_refused(&reading, &log, 13, 0);
    // Nothing of what a plain reading must keep is let off.
    let changes: [fn(&mut Reading); 9] = [
        |r| r.position = 137,
        |r| r.position = usize::MAX,
        |r| r.count = 115,
        |r| r.count = usize::MAX,
        |r| r.held = 33,
        |r| r.held = usize::MAX,
        |r| r.rows[31].number = 1,
        |r| r.rows[0].number = 2,
        |r| (r.rows[1].place, r.rows[1].length) = (112, 3), // past the position
    ];
    for of in [
        &at(&log, 114),
        &moved(&at(&log, 114), &log),
        &type_held(&log, 114),
    ] {
        for change in changes {
            let mut odd = of.clone();
            change(&mut odd.reading);
            check_refused(&odd, &log, 13, 0);
        }
        let mut most = of.clone();
        most.reading.count = 114;
        assert!(most.move_on(&log, 136).0.is_ok());
    }
}

/// The fit in the paper's words, by numbers that cannot overflow.
fn fits(of: &SlowReading, log: &[u8], used: usize) -> bool {
    let wide = |number: usize| number as i128;
    let (position, used_length) = (wide(of.reading.position), wide(used));
    let (type_place, end) = (wide(of.type_place), wide(of.end));
    let data_place = wide(of.data_place);
    if of.reading.step(log, used).0 == refused(13, 0) {
        return false;
    }
    if held(of) == (0, 0, 0, 0) {
        return true;
    }
    let size = position != 0
        && (position + 1..=position + 4).contains(&type_place)
        && type_place < end
        && end <= used_length;
    let rows = &of.reading.rows[..of.reading.held];
    let number = rows.iter().any(|row| row.number == of.number)
        && (type_place + 1..=type_place + 9).contains(&data_place)
        && data_place <= end;
    size && ((of.number == 0 && of.data_place == 0) || number)
}

#[test]
fn every_bound_of_the_fit() {
    let log = book(&[b"\x0F\x01\x02a:", &[1; 11]]);
    let near = |place: usize| (place - 1..place + 17).chain([0, usize::MAX]);
    let mut seen = [0; 2];
    for position in [0, 1, 109, 110, 124, 125] {
        let mut reading = slow(&Reading::fresh());
        reading.reading.position = position;
        reading.reading.held = 1;
        (
            reading.reading.rows[0].number,
            reading.reading.rows[0].implied,
        ) = (1, true);
        for type_place in (position.max(1) - 1..position + 6).chain([0, usize::MAX]) {
            for (end, data_place) in near(110).flat_map(|end| near(110).map(move |d| (end, d))) {
                for number in [0, 1, 2, u64::MAX] {
                    let of = holding(&reading, (type_place, end, number, data_place));
                    let fits = fits(&of, &log, 125);
                    let (answer, next) = of.move_on(&log, 125);
                    assert_eq!(answer != refused(13, 0), fits, "{of:?}");
                    assert!(answer.is_ok() || next == of);
                    seen[usize::from(fits)] += 1;
                }
            }
        }
    }
    assert!(seen[0] > 1_000 && seen[1] > 300, "{seen:?}");
}

/// A logbook of a record of type 300 with this data at 115 and a shot of type
/// 300 behind it, and the first one's end.
fn shots(data: &[u8]) -> (Vec<u8>, usize) {
    let first = record(300, data);
    let log = book(&[&assigns(300, b"a:"), &first, &record(300, b"Q")]);
    (log, 115 + first.len())
}

/// Data whose records have sizes of one, two and three bytes.
fn shot_data() -> [Vec<u8>; 5] {
    let mut long = vec![0; 16_384];
    (long[0], long[16_383]) = (0xFF, 0x80);
    let mut middle = vec![0; 140];
    (middle[5], middle[139]) = (0x80, 0x01);
    [vec![], b"P7".into(), b"\x00\x80\xFF".into(), middle, long]
}

#[test]
fn erased_and_wiped_between_size_and_type() {
    for data in shot_data() {
        let (log, end) = shots(&data);
        let size = moved(&at(&log, 115), &log);
        let behind = at(&log, end).reading;
        let mut erased = log.clone();
        let store = erase(&mut erased, log.len(), 115);
        assert_eq!(store, Ok(size.type_place));
        let nonzero = erased[115..end].iter().filter(|&&byte| byte != 0).count();
        // No store, some of them, all of them and more than that.
        for limit in 0..=nonzero + 1 {
            let mut wiped = erased.clone();
            assert!(!size.forbids_wipe(115) && !size.has_passed(115));
            let stores = wipe(&mut wiped, log.len(), 115, limit);
            assert_eq!(stores, Ok(limit.min(nonzero)));
            let next = check_item(&size, &wiped, Item::Deleted { place: 115 }, end);
            // The erased entry isn't counted; all else is as it was.
            assert_eq!(next.reading.count, behind.count - 1);
            assert_eq!(next.reading.rows, behind.rows);
            // Undisturbed the first byte is padding once the size is wiped.
            let (item, _) = at(&wiped, 115).reading.step(&wiped, log.len());
            let whole = limit >= nonzero;
            assert_eq!(item == Ok(Item::Padding { place: 115 }), whole);
            check_last_shot(&next, &wiped, 3);
        }
    }
}

/// Whether the reading goes on with the shot Q of this number, and ends.
fn check_last_shot(of: &SlowReading, log: &[u8], number: usize) {
    let place = of.reading.position;
    let shot = Item::Entry {
        place,
        number,
        kind: Kind::Plain,
        uri: b"a:",
        data_place: place + 3,
        data: b"Q",
        declared_place: 109,
        declared_number: 2,
    };
    let moves = two_moves(of, log, (place + 1, place + 4, 300, place + 3));
    let end = check_item(&moves, log, shot, log.len());
    check_item(&end, log, Item::End { place: log.len() }, log.len());
}

#[test]
fn a_size_that_became_smaller_is_not_looked_at_again() {
    // 81 80 00 becomes 81 00 00 and then 00 00 00; the end that is held stays.
    let (log, end) = shots(&[0; 16_384]);
    let size = moved(&at(&log, 115), &log);
    let mut buf = log.clone();
    assert_eq!(erase(&mut buf, log.len(), 115), Ok(118));
    for (limit, front) in [
        (1, b"\x81\x80\x02\x00\x00"),
        (1, b"\x81\x80\x00\x00\x00"),
        (1, b"\x81\x00\x00\x00\x00"),
        (1, b"\x00\x00\x00\x00\x00"),
    ] {
        assert_eq!(wipe(&mut buf, log.len(), 115, limit), Ok(1));
        assert_eq!(&buf[115..120], front);
        check_item(&size, &buf, Item::Deleted { place: 115 }, end);
    }
}

#[test]
fn erased_between_type_and_data() {
    for data in shot_data() {
        let (log, end) = shots(&data);
        let taken = type_held(&log, 115);
        let undisturbed = taken.move_on(&log, log.len());
        let mut erased = log.clone();
        assert_eq!(erase(&mut erased, log.len(), 115), Ok(taken.type_place));
        // Its type is taken: the entry is given as if nothing had been erased.
        assert_eq!(taken.move_on(&erased, log.len()), undisturbed);
        let next = undisturbed.1;
        assert_eq!(next.reading, at(&log, end).reading);
        check_last_shot(&next, &erased, 4);
        // A wipe then goes on a passed record and changes nothing.
        assert!(!next.forbids_wipe(115) && next.has_passed(115));
        assert!(wipe(&mut erased, log.len(), 115, usize::MAX).is_ok());
        check_last_shot(&next, &erased, 4);
    }
}

#[test]
fn wiped_between_type_and_data_against_the_premise() {
    for data in shot_data() {
        let (log, end) = shots(&data);
        let taken = type_held(&log, 115);
        let mut erased = log.clone();
        assert_eq!(erase(&mut erased, log.len(), 115), Ok(taken.type_place));
        let nonzero = erased[115..end].iter().filter(|&&byte| byte != 0).count();
        for limit in 0..=nonzero {
            let mut wiped = erased.clone();
            assert!(taken.forbids_wipe(115));
            assert_eq!(wipe(&mut wiped, log.len(), 115, limit), Ok(limit));
            // The data is what stands there by then.
            let item = Item::Entry {
                place: 115,
                number: 3,
                kind: Kind::Plain,
                uri: b"a:",
                data_place: end - data.len(),
                data: &wiped[end - data.len()..end],
                declared_place: 109,
                declared_number: 2,
            };
            let next = check_item(&taken, &wiped, item, end);
            assert_eq!(next.reading, at(&log, end).reading);
            check_last_shot(&next, &wiped, 4);
        }
        // The list is another one then, which is why the premise is there.
        assert_eq!(wipe(&mut erased, log.len(), 115, usize::MAX), Ok(nonzero));
        let same = erased[end - data.len()..end] == data;
        assert_eq!(same, data.iter().all(|&byte| byte == 0));
    }
}

#[test]
fn the_type_move_reads_the_bytes_as_they_are_then() {
    let before = assigns(2, b"a:");
    let size = moved(&at(&twenty(), 114), &twenty());
    for (type_bytes, number, past, refusal) in [
        (&b"\x01"[..], 1, 1, None),
        (b"\x6F", 111, 1, None),
        (b"\x02", 2, 1, None),
        (b"\x03", 0, 0, Some((6, 114))),
        (b"\x81\x02", 0, 0, Some((6, 114))),
        (b"\x80", 0, 0, Some((14, 115))),
        (&[0xFF; 9], 0, 0, Some((15, 123))),
    ] {
        // The size there has become a broken one, which is no longer seen.
        let log = book(&[&before, b"\x80", type_bytes, &[b'.'; 30]]);
        if let Some((number, place)) = refusal {
            check_refused(&size, &log, number, place);
        } else {
            let fields = (115, 136, number, 115 + past);
            assert_eq!(moved(&size, &log), holding(&size, fields));
        }
    }
}

#[test]
fn the_data_move_reads_the_bytes_as_they_are_then() {
    // It sees neither size nor type, and no byte behind the end.
    let taken = type_held(&twenty(), 114);
    let log = book(&[&assigns(2, b"a:"), b"\xFF\x80", &[b'-'; 20], b"\xFF\xFF"]);
    let item = Item::Entry {
        place: 114,
        number: 3,
        kind: Kind::Plain,
        uri: b"a:",
        data_place: 116,
        data: &[b'-'; 20],
        declared_place: 109,
        declared_number: 2,
    };
    check_item(&taken, &log, item, 136);
    // The URI is the one whose bytes stand at the row's place then.
    let mut log = twenty();
    log[112] = b'b';
    let (answer, _) = taken.move_on(&log, 136);
    assert!(matches!(
        answer,
        Ok(Moved::Item(Item::Entry { uri: b"b:", .. }))
    ));
}

#[test]
fn the_header_form_is_judged_by_the_bytes_as_they_are_then() {
    let header = book(&[]);
    let log = book(&[&assigns(2, b"a:"), &header]);
    let taken = type_held(&log, 114);
    assert_eq!(held(&taken), (115, 223, 111, 116));
    let next = moved(&taken, &log);
    assert_eq!((next.reading.held, next.reading.count), (2, 3));
    // Each byte of the form, size and type too, and those that are free.
    for place in 114..223 {
        let mut other = log.clone();
        other[place] = 0;
        if place < 163 {
            check_refused(&taken, &other, 3, 114);
        } else {
            assert_eq!(moved(&taken, &other), next);
        }
    }
    // One that had not the form at its type move has it at its data move.
    let mut late = log.clone();
    late[116..223].fill(b'.');
    let early = type_held(&late, 114);
    check_refused(&early, &late, 3, 114);
    assert_eq!(moved(&early, &log), next);
    // The held type and the places between are no part of the form.
    for (type_place, data_place) in [(115, 116), (115, 124), (118, 119), (118, 127)] {
        let of = holding(&taken, (type_place, 223, 111, data_place));
        let (answer, behind) = of.move_on(&log, log.len());
        let data = &log[data_place..223];
        assert!(matches!(answer, Ok(Moved::Item(Item::Entry { data: d, .. })) if d == data));
        assert_eq!(behind, next);
    }
    for end in [222, 224] {
        let longer = [&log[..], b"."].concat();
        check_refused(&holding(&taken, (115, end, 111, 116)), &longer, 3, 114);
    }
}

#[test]
fn rows_from_outside_resolve_to_the_bytes_there() {
    // Number 5 is made to hold what stands at 109; the record is of the header
    // form, with its type 111, and 5 is held.
    let header = book(&[]);
    for (uri, kind) in [
        (&b"urn:lozizol:header"[..], Ok(Kind::Header)),
        (b"urn:lozizol:type", refused(5, 125)),
        (b"urn:lozizol:deleted", Ok(Kind::Plain)),
        (b"\xFF\x00", Ok(Kind::Plain)),
    ] {
        let log = book(&[uri, &header]);
        let place = 109 + uri.len();
        let mut of = holding(
            &SlowReading::fresh(),
            (place + 1, place + 109, 5, place + 2),
        );
        (of.reading.position, of.reading.held) = (place, 1);
        of.reading.rows[0] = Row {
            number: 5,
            place: 109,
            length: uri.len() as u32,
            declared_number: 1,
            ..Row::default()
        };
        let answer = of.move_on(&log, log.len()).0.map(|moved| match moved {
            Moved::Item(Item::Entry { kind, .. }) => kind,
            other => panic!("{other:?}"),
        });
        assert_eq!(answer, kind);
        // 111 is not held, so the bytes themselves would be refused by 6.
        let size = holding(&of, (place + 1, place + 109, 0, 0));
        check_refused(&size, &log, 6, place);
    }
}

#[test]
fn assignments_take_force_with_their_data_move() {
    let log = book(&[&assigns(2, b"a:"), &assigns(2, b"b:x"), b"\x01\x02"]);
    let before = at(&log, 114);
    let size = moved(&before, &log);
    let taken = moved(&size, &log);
    assert_eq!(taken.reading.rows, before.reading.rows);
    let next = moved(&taken, &log);
    assert_eq!(
        (next.reading.rows[1].place, next.reading.rows[1].length),
        (117, 3)
    );
    // Overwritten meanwhile, it is judged and taken as it is then.
    for (data, refusal) in [
        (&b"\x03c:y"[..], None),
        (b"\x82\x03c:", None),
        (b"\x00\x00\x00\x00", Some((5, 114))),
        (b"\x02\x00\x00\x00", Some((5, 114))),
        (b"\x80\x02c:", Some((5, 114))),
    ] {
        let mut other = log.clone();
        other[116..120].copy_from_slice(data);
        if let Some((number, place)) = refusal {
            check_refused(&taken, &other, number, place);
        } else {
            assert_eq!(moved(&taken, &other), at(&other, 120));
        }
    }
}

#[test]
fn a_refused_move_can_be_made_again() {
    let mut log = book(&[&assigns(2, b"a:"), b"\x81"]);
    let before = at(&log, 114);
    check_refused(&before, &log, 2, 114);
    log[114] = 2;
    log.extend(b"\x80\x80");
    let size = moved(&before, &log);
    check_refused(&size, &log, 14, 115);
    log[115] = 1;
    let taken = moved(&size, &log);
    check_refused(&taken, &log, 5, 114);
    log[116] = 2;
    // A removal, which needs no URI.
    assert_eq!(moved(&taken, &log), at(&log, 117));
    // With fewer bytes in use than are held it doesn't fit, and then again.
    for of in [&size, &taken] {
        let answer = of.move_on(&log, 116);
        assert_eq!(answer, (refused(13, 0), of.clone()));
        assert!(of.move_on(&log, 117).0.is_ok());
    }
}

#[test]
fn calls_between_the_moves() {
    let mut buf = book(&[&assigns(2, b"a:"), b"\x02\x02P", &[0xAA; 40]]);
    let mut of = at(&buf[..117], 114);
    let mut used = 117;
    let mut answers = Vec::new();
    for uri in [&b"a:"[..], b"b:", b"c:"] {
        let (answer, next) = of.move_on(&buf, used);
        answers.push(format!("{answer:?}"));
        of = next;
        // An assignment can't be erased, nor can the shot be wiped unerased.
        assert_eq!(erase(&mut buf, used, 109), refused(9, 109));
        assert_eq!(wipe(&mut buf, used, 114, 1), refused(8, 114));
        used = append(&mut buf, used, uri, b"!").unwrap().used;
        used = assign(&mut buf, used, 2, uri).unwrap().used;
    }
    let log = &buf[..117];
    let size = at(log, 114).move_on(log, 117);
    let taken = size.1.move_on(log, 117);
    let data = taken.1.move_on(log, 117);
    let alone = [size.0, taken.0, data.0].map(|answer| format!("{answer:?}"));
    assert_eq!(answers, alone);
    assert_eq!(of, data.1);
}

#[test]
fn passed_once_its_type_is_taken() {
    let mut log = book(&[&assigns(2, b"a:"), b"\x03\x02P7\x00\x02\x00.\x02\x02."]);
    log.extend(book(&[]));
    let mut of = SlowReading::fresh();
    let mut seen = Vec::new();
    loop {
        let position = of.reading.position;
        let type_taken = of.number != 0;
        seen.push((position, of.type_place != 0, type_taken));
        for place in (0..log.len() + 3).chain([usize::MAX]) {
            let here = place == position && type_taken;
            assert_eq!(of.has_passed(place), place < position || here);
            assert_eq!(of.forbids_wipe(place), here);
        }
        let (answer, next) = of.move_on(&log, log.len());
        if matches!(answer, Ok(Moved::Item(Item::End { .. }))) {
            break;
        }
        assert_ne!(next, of, "{answer:?}");
        of = next;
    }
    let three = |place| {
        [
            (place, false, false),
            (place, true, false),
            (place, true, true),
        ]
    };
    let mut expected = vec![(0, false, false)];
    expected.extend(three(109));
    expected.extend(three(114));
    expected.push((118, false, false)); // padding
    expected.extend(&three(119)[..2]); // deleted
    expected.extend(three(122));
    expected.extend(three(125));
    expected.push((234, false, false));
    assert_eq!(seen, expected);
}

#[test]
fn the_largest_used_length() {
    const MOST: usize = 16_777_216;
    let front = book(&[&assigns(2, b"a:"), &writing(MOST as u64 - 118), b"\x02"]);
    assert_eq!(front.len(), 119);
    let mut buf = vec![0; MOST + 1];
    buf[..119].copy_from_slice(&front);
    let before = at(&buf[..MOST], 114);
    let moves = two_moves(&before, &buf[..MOST], (118, MOST, 2, 119));
    let item = Item::Entry {
        place: 114,
        number: 3,
        kind: Kind::Plain,
        uri: b"a:",
        data_place: 119,
        data: &buf[119..MOST],
        declared_place: 109,
        declared_number: 2,
    };
    let end = check_item(&moves, &buf[..MOST], item, MOST);
    check_item(&end, &buf[..MOST], Item::End { place: MOST }, MOST);
    let size = holding(&before, (118, MOST, 0, 0));
    for (used, number) in [(MOST - 1, 13), (MOST + 1, 1)] {
        for of in [&size, &moves] {
            let answer = of.move_on(&buf, used);
            assert_eq!(answer, (refused(number, 0), of.clone()));
        }
    }
    assert_eq!(before.move_on(&buf, MOST - 1).0, refused(2, 114));
    assert_eq!(before.move_on(&buf, MOST + 1).0, refused(1, 0));
}

/// The declared place and number of the second row, which is 2's where it is held.
fn second_row(of: &SlowReading) -> (u32, u32) {
    let row = of.reading.rows[1];
    (row.declared_place, row.declared_number)
}

#[test]
fn where_the_mornings_epochs_were_declared() {
    let log = book(&[
        b"\x0D\x01\x02urn:ep:2010",
        b"\x03\x02P7",
        b"\x0D\x01\x02urn:ep:2017",
        b"\x03\x02P8",
    ]);
    let expected = [
        [(0, 1), NONE],
        [(109, 2), NONE],
        [(123, 3), (109, 2)],
        [(127, 4), NONE],
        [(141, 5), (127, 4)],
    ];
    assert_eq!(reports(&items(&log)), expected);
    // The row is declared with the data move, and not before.
    let mut of = at(&log, 109);
    for row in [
        [(0, 0), (0, 0), (109, 2)],
        [(109, 2), (109, 2), (109, 2)],
        [(109, 2), (109, 2), (127, 4)],
        [(127, 4), (127, 4), (127, 4)],
    ] {
        for declared in row {
            of = moved(&of, &log);
            assert_eq!(second_row(&of), declared);
        }
    }
    // M12: P8's number is 4 then, and that of its declaration 3.
    let mut buf = log.clone();
    assert_eq!(erase(&mut buf, 145, 123), Ok(124));
    let last = [(141, 4), (127, 3)];
    assert_eq!(reports(&items(&buf)).pop(), Some(last));
    assert_eq!(wipe(&mut buf, 145, 123, 9), Ok(3));
    assert_eq!(reports(&items(&buf)).pop(), Some(last));
}

#[test]
fn reassignments_and_removals_move_by_move() {
    // Again with the same URI, gone, and there again.
    let log = book(&[
        &assigns(2, b"a:"),
        b"\x01\x02",
        &assigns(2, b"a:"),
        b"\x01\x02",
        &assigns(2, b""),
        &assigns(2, b"b:"),
        b"\x01\x02",
    ]);
    let expected = [
        [(0, 1), NONE],
        [(109, 2), NONE],
        [(114, 3), (109, 2)],
        [(116, 4), NONE],
        [(121, 5), (116, 4)],
        [(123, 6), NONE],
        [(126, 7), NONE],
        [(131, 8), (126, 7)],
    ];
    assert_eq!(reports(&items(&log)), expected);
    let gone = at(&log, 126);
    let unused = |row: &Row| *row == Row::default();
    assert!(gone.reading.held == 2 && gone.reading.rows[2..].iter().all(unused));
    assert_eq!(moved(&type_held(&log, 123), &log), gone);
}

#[test]
fn an_assignment_reports_the_number_it_is_written_under() {
    // 5 is declared at 109, 7 under it at 128; at 136 5 is assigned under itself.
    let log = book(&[
        &assigns(5, b"urn:lozizol:type"),
        &record(5, b"\x07a:"),
        b"\x02\x07P",
        &record(5, b"\x05b:"),
        b"\x02\x05Q",
    ]);
    let expected = [
        [(0, 1), NONE],
        [(109, 2), NONE],
        [(128, 3), (109, 2)],
        [(133, 4), (128, 3)],
        [(136, 5), (109, 2)],
        [(141, 6), (136, 5)],
    ];
    assert_eq!(reports(&items(&log)), expected);
    // One that removes its own number.
    let log = book(&[&assigns(5, b"urn:lozizol:type"), &record(5, b"\x05")]);
    assert_eq!(reports(&items(&log))[2], [(128, 3), (109, 2)]);
}

#[test]
fn a_later_header_move_by_move() {
    let header = book(&[]);
    let log = book(&[
        &assigns(2, b"a:"),
        &assigns(111, b"urn:lozizol:header"),
        &header,
        &header,
        &assigns(2, b"b:"),
        b"\x01\x02",
    ]);
    let expected = [
        [(0, 1), NONE],
        [(109, 2), NONE],
        [(114, 3), NONE],
        [(135, 4), (114, 3)],
        [(244, 5), NONE],
        [(353, 6), NONE],
        [(358, 7), (353, 6)],
    ];
    assert_eq!(reports(&items(&log)), expected);
    let mut first = at(&log, 109).reading;
    (first.position, first.count) = (244, 4);
    assert_eq!(moved(&type_held(&log, 135), &log), slow(&first));
}

#[test]
fn erased_between_the_moves_it_is_counted_once_its_type_is_taken() {
    // P at 114, then 3 is declared at 117 and used at 122.
    let log = book(&[
        &assigns(2, b"a:"),
        b"\x02\x02P",
        &assigns(3, b"b:"),
        b"\x01\x03",
    ]);
    let before = at(&log, 114);
    let size = moved(&before, &log);
    let taken = moved(&size, &log);
    for (of, number) in [
        (&before, 3),
        (&size, 3),
        (&taken, 4),
        (&moved(&taken, &log), 4),
        (&at(&log, 122), 4),
    ] {
        let mut buf = log.clone();
        assert_eq!(erase(&mut buf, 124, 114), Ok(115));
        let mut of = of.clone();
        while of.type_place != 123 || of.number == 0 {
            of = moved(&of, &buf);
        }
        let (answer, _) = of.move_on(&buf, 124);
        let Ok(Moved::Item(item)) = answer else {
            panic!("{answer:?}");
        };
        assert_eq!(reports(&[item]), [[(122, number + 1), (117, number)]]);
    }
}

#[test]
fn the_bounds_of_where_a_row_was_declared() {
    let log = twenty();
    for of in [
        &at(&log, 114),
        &moved(&at(&log, 114), &log),
        &type_held(&log, 114),
    ] {
        // The place is below the record's start, the number not 0.
        for (place, number, fits) in [
            (0, 0, false),
            (0, 1, true),
            (0, u32::MAX, true),
            (109, 0, false),
            (109, 1, true),
            (113, 1, true),
            (113, 0, false),
            (114, 1, false),
            (114, u32::MAX, false),
            (115, 2, false), // below the end, but not below the position
            (135, 2, false),
            (136, 2, false),
            (u32::MAX, 2, false),
            (u32::MAX, 0, false),
        ] {
            let mut other = of.clone();
            other.reading.rows[1].declared_place = place;
            other.reading.rows[1].declared_number = number;
            let (answer, next) = other.move_on(&log, 136);
            assert_eq!(answer.is_ok(), fits, "{place} {number}");
            assert!(fits || (answer, next) == (refused(13, 0), other));
        }
        // The implied rows and the unused ones have none of either.
        for (index, place, number) in (0..32).filter(|&index| index != 1).flat_map(|index| {
            [(0, 1), (1, 0), (1, 1)].map(|(place, number)| (index, place, number))
        }) {
            let mut odd = of.clone();
            odd.reading.rows[index].declared_place = place;
            odd.reading.rows[index].declared_number = number;
            check_refused(&odd, &log, 13, 0);
        }
    }
    // At place 0 too, where rows fit and aren't looked at.
    let mut first = SlowReading::fresh();
    first.reading.held = 1;
    (first.reading.rows[0].number, first.reading.rows[0].implied) = (111, true);
    assert!(first.move_on(&log, 136).0.is_ok());
    for index in [0, 1, 31] {
        let mut odd = first.clone();
        odd.reading.rows[index].declared_number = 1;
        check_refused(&odd, &log, 13, 0);
    }
}

#[test]
fn the_data_move_reports_the_row_as_it_is_handed_in_then() {
    let log = twenty();
    let taken = type_held(&log, 114);
    for (place, number) in [(0, 1), (113, 7), (5, u32::MAX)] {
        let mut of = taken.clone();
        of.reading.rows[1].declared_place = place;
        of.reading.rows[1].declared_number = number;
        let (answer, next) = of.move_on(&log, 136);
        let Ok(Moved::Item(item)) = answer else {
            panic!("{answer:?}");
        };
        let declared = (place as usize, number as usize);
        assert_eq!(reports(&[item]), [[(114, 3), declared]]);
        assert_eq!(next.reading.rows, of.reading.rows);
    }
    // Numbers go on from the count as it is then.
    let log = book(&[&assigns(2, b"a:")]);
    for count in [0, 1, 7, 109] {
        let mut of = type_held(&log, 109);
        of.reading.count = count;
        let next = moved(&of, &log);
        assert_eq!(second_row(&next), (109, count as u32 + 1));
        assert_eq!(next.reading.count, count + 1);
    }
}

/// The numbers and URIs of generated logbooks.
const NUMBERS: [u64; 8] = [1, 2, 3, 111, 128, 70_000, 1 << 40, LIMIT];
const URIS: [&[u8]; 6] = [
    b"a:",
    b"b:x",
    b"urn:ep:2017",
    b"",
    b"urn:lozizol:type",
    b"urn:lozizol:header",
];

/// One piece of a logbook: padding, a deleted record, an assignment or removal,
/// a later header, or an entry whose number may not be held.
fn piece(random: &mut Random) -> Vec<u8> {
    let length = random.pick(&[0, 0, 1, 2, 3, 9, 125, 126, 127, 128, 140]);
    let data: Vec<u8> = (0..length).map(|_| random.below(256) as u8).collect();
    match random.below(10) {
        0 => vec![0; 1 + random.below(3)],
        1 | 2 => record(0, &data),
        3..=5 => assigns(random.pick(&NUMBERS), random.pick(&URIS[..5])),
        6 if random.below(4) == 0 => book(&[]),
        _ => record(random.pick(&NUMBERS[1..]), &data),
    }
}

/// A logbook of up to `most` pieces that reads to its end: a piece that would be
/// refused is left out.
fn generate(random: &mut Random, most: usize) -> Vec<u8> {
    let mut log = book(&[]);
    let mut reading = at(&log, 109).reading;
    for _ in 0..random.below(most + 1) {
        let used = log.len();
        log.extend(piece(random));
        let mut next = reading.clone();
        while next.position < log.len() {
            let (answer, behind) = next.step(&log, log.len());
            if answer.is_err() {
                break;
            }
            next = behind;
        }
        if next.position == log.len() {
            reading = next;
        } else {
            log.truncate(used);
        }
    }
    log
}

/// Damages a logbook: some bytes are others, and it may be cut or go on.
fn damage(random: &mut Random, log: &mut Vec<u8>) {
    let bytes = [0, 1, 2, 3, 8, 9, 0x6F, 0x7F, 0x80, 0x81, 0xFF, 0xFF];
    if log.len() > 109 {
        for _ in 0..1 + random.below(3) {
            let place = 109 + random.below(log.len() - 109);
            log[place] = random.pick(&bytes);
        }
    }
    match random.below(5) {
        0 => log.truncate(log.len() - random.below(log.len() - 100)),
        1 => log.extend((0..12).map(|_| random.pick(&bytes))),
        2 => log.extend(piece(random)),
        3 => log.extend([&[random.below(16) as u8][..], &[0xFF; 16]].concat()),
        _ => {}
    }
}

/// Whether the moves from the plain reading come to what its step comes to;
/// gives the step's answer and the count of moves.
fn check_against_step<'a>(
    log: &'a [u8],
    used: usize,
    reading: &Reading,
) -> (Result<Item<'a>, Refusal>, Reading, usize) {
    let (item, behind) = reading.step(log, used);
    let mut of = slow(reading);
    for moves in 1.. {
        let (answer, next) = of.move_on(log, used);
        match answer {
            Ok(Moved::Item(_)) => assert_eq!(next, slow(&behind)),
            Ok(Moved::Size { type_place, end }) => {
                assert_eq!(next, holding(&of, (type_place, end, 0, 0)));
            }
            Ok(Moved::Type {
                type_place,
                end,
                number,
                data_place,
            }) => assert_eq!(next, holding(&of, (type_place, end, number, data_place))),
            Err(_) => assert_eq!(next, of),
        }
        match answer {
            Ok(Moved::Size { .. } | Moved::Type { .. }) => of = next,
            Ok(Moved::Item(taken)) => {
                assert_eq!(Ok(taken), item);
                return (item, behind, moves);
            }
            Err(refusal) => {
                assert_eq!(Err(refusal), item);
                assert_eq!((&next.reading, &behind), (reading, reading));
                return (item, behind, moves);
            }
        }
    }
    unreachable!()
}

/// The moves that the answer of a step takes, by where its fault is.
fn moves_of(answer: Result<Item, Refusal>, position: usize) -> std::ops::RangeInclusive<usize> {
    match answer {
        _ if position == 0 => 1..=1,
        Ok(Item::Padding { .. } | Item::End { .. }) => 1..=1,
        Ok(Item::Deleted { .. }) => 2..=2,
        Ok(Item::Entry { .. }) => 3..=3,
        Err(Refusal { number, place }) => match number {
            1 | 2 | 13 => 1..=1,
            14 if place == position => 1..=1,
            15 if place == position + 3 => 1..=1,
            6 | 14 | 15 | 16 => 2..=2,
            _ => 3..=3,
        },
    }
}

#[test]
fn moves_undisturbed_are_a_step() {
    let mut random = Random(0x2545_F491_4F6C_DD1D);
    let mut seen = [0; 17];
    let mut counts = [0; 4];
    for round in 0..6_000 {
        let mut log = generate(&mut random, 12);
        if round % 3 != 0 {
            damage(&mut random, &mut log);
        }
        if round % 3 == 0 {
            check_declared(&log, &items(&log));
        }
        let mut reading = Reading::fresh();
        loop {
            let (answer, next, moves) = check_against_step(&log, log.len(), &reading);
            let expected = moves_of(answer, reading.position);
            assert!(expected.contains(&moves), "{answer:?} {moves}");
            counts[moves] += 1;
            if let Err(refusal) = answer {
                seen[usize::from(refusal.number)] += 1;
            }
            if next == reading {
                break;
            }
            reading = next;
        }
        // And from where no item starts, with this or any other used length.
        reading.position = random.below(log.len() + 2);
        reading.count = random.below(3);
        let used = log.len() + 1 - random.below(20);
        let (answer, next, _) = check_against_step(&log, used, &reading);
        assert!(answer.is_ok() || next == reading);
    }
    for number in [2, 5, 6, 14, 15, 16] {
        assert!(seen[number] > 20, "{number} {seen:?}");
    }
    assert!(seen[3] > 0, "{seen:?}");
    assert!(counts[1..].iter().all(|&count| count > 1_000), "{counts:?}");
}

/// The refusals of the move that comes next, each with its place.
fn known(of: &SlowReading) -> Vec<(u8, usize)> {
    let (position, type_place) = (of.reading.position, of.type_place);
    if of.type_place == 0 {
        return match position {
            0 => vec![(2, 0), (3, 0)],
            _ => vec![(2, position), (14, position), (15, position + 3)],
        };
    }
    if of.number == 0 {
        let last = of.end - 1;
        return vec![
            (14, type_place),
            (15, type_place + 8),
            (16, last),
            (6, position),
        ];
    }
    vec![(3, position), (5, position), (7, position)]
}

/// A reading with fields picked around a position or at their ends.
fn any_reading(random: &mut Random) -> SlowReading {
    let mut of = SlowReading::fresh();
    let odd = random.below(4) == 0;
    let positions = [109, 109, 112, 112, 0, 1, 125, 126, usize::MAX];
    of.reading.position = random.pick(&positions[..if odd { 9 } else { 5 }]);
    of.reading.count = random.pick(&[0, 1, 126, usize::MAX][..if odd { 4 } else { 1 }]);
    of.reading.held = random.pick(&[1, 2, 0, 33, usize::MAX][..if odd { 5 } else { 2 }]);
    let (mut number, rows) = (0, of.reading.held.min(2));
    for row in &mut of.reading.rows[..rows] {
        let steps = [1, 1, 1, 2, 110, LIMIT - 2, 0, LIMIT];
        number += random.pick(&steps[..if odd { 8 } else { 6 }]);
        (row.number, row.implied) = (number, matches!(number, 1 | 111));
        if !row.implied {
            row.place = random.pick(&[0, 1, 107, 110, u32::MAX][..if odd { 5 } else { 3 }]);
            row.length = random.pick(&[1, 2, 2, 255, 256, u32::MAX][..if odd { 6 } else { 3 }]);
            let places = [0, 1, 108, 109, 112, u32::MAX];
            row.declared_place = random.pick(&places[..if odd { 6 } else { 3 }]);
            row.declared_number = random.pick(&[1, 2, u32::MAX, 0][..if odd { 4 } else { 3 }]);
        } else if odd && random.below(4) == 0 {
            row.declared_place = random.pick(&[0, 1, u32::MAX]);
            row.declared_number = random.pick(&[0, 1, u32::MAX]);
        }
    }
    let place = of.reading.position.min(126);
    let far = [0, 1, usize::MAX - 1, usize::MAX];
    if random.below(4) > 0 && place > 0 {
        of.type_place = place + random.below(6);
        of.end = of.type_place + random.below(12);
        if random.below(2) > 0 {
            of.number = of.reading.rows[random.below(2)].number;
            of.data_place = of.type_place + random.below(11);
        }
    }
    match random.below(24) {
        0 => of.type_place = random.pick(&far),
        1 => of.end = random.pick(&far),
        2 => of.number = random.pick(&[0, 1, LIMIT, LIMIT + 1, u64::MAX]),
        3 => of.data_place = random.pick(&far),
        _ => {}
    }
    of
}

#[test]
fn any_bytes_and_any_slow_reading_end_in_an_answer() {
    let mut random = Random(0xD1B5_4A32_D192_ED03);
    let bytes = [
        0, 0, 1, 1, 2, 3, 4, 9, 0x6F, 0x7F, 0x80, 0x81, 0xFF, 0xFF, 0xFF, b'a', b':',
    ];
    let (mut seen, mut fine) = ([0; 17], 0);
    for _ in 0..100_000 {
        let from = random.pick(&[&bytes[..], &bytes[12..15]]);
        let tail: Vec<u8> = (0..16).map(|_| random.pick(from)).collect();
        let mut log = book(&[&tail]);
        log[0] ^= u8::from(random.below(8) == 0); // no header then
        let used = random.pick(&[0, 108, 109, 117, 124, 125, 125, 125, 126, usize::MAX]);
        let of = any_reading(&mut random);
        let (answer, next) = of.move_on(&log, used);
        assert_eq!(answer == refused(1, 0), used > 125);
        if used <= 125 {
            assert_eq!(answer != refused(13, 0), fits(&of, &log, used), "{of:?}");
        }
        match answer {
            Err(Refusal { number, place }) => {
                assert_eq!(next, of);
                let own = matches!(number, 1 | 13) || known(&of).contains(&(number, place));
                assert!(own, "{of:?}");
                seen[usize::from(number)] += 1;
            }
            Ok(_) => {
                assert_ne!(next.move_on(&log, used).0, refused(13, 0), "{next:?}");
                fine += 1;
            }
        }
        for place in [0, 109, of.reading.position, usize::MAX] {
            assert!(of.has_passed(place) || !of.forbids_wipe(place));
        }
    }
    for number in [1, 2, 3, 5, 6, 13, 14, 15, 16] {
        assert!(seen[number] > 20, "{number} {seen:?}");
    }
    assert!(fine > 5_000, "{fine}");
}

/// A call of a series, with its own request.
#[derive(Clone, Copy, Debug)]
enum Call {
    Append(&'static [u8], &'static [u8]),
    Assign(u64, &'static [u8]),
    Erase(usize),
    Wipe(usize, usize),
    Move,
}

/// The answer of a call: its result or its refusal. A move's isn't compared.
type Answer = Result<(usize, usize), Refusal>;

/// A live entry of the list: what it reports, URI, data place and data. 02 [6]: "in
/// demand 3 both belong to the list".
type Live = (Report, Vec<u8>, usize, Vec<u8>);

/// What the list has of an item: a live entry alone.
fn live(item: &Item) -> Option<Live> {
    let Item::Entry {
        uri,
        data_place,
        data,
        ..
    } = *item
    else {
        return None;
    };
    Some((
        reports(&[*item])[0],
        uri.to_vec(),
        data_place,
        data.to_vec(),
    ))
}

/// A logbook and a slow reading of it, with the list so far.
#[derive(Clone)]
struct Desk {
    buf: Vec<u8>,
    used: usize,
    reading: SlowReading,
    list: Vec<Live>,
    ended: bool,
}

impl Desk {
    fn new(buf: Vec<u8>, used: usize) -> Desk {
        Desk {
            buf,
            used,
            reading: SlowReading::fresh(),
            list: Vec::new(),
            ended: false,
        }
    }

    /// Makes a call.
    fn make(&mut self, call: Call) -> Answer {
        let (buf, used) = (&mut self.buf, self.used);
        let wrote = match call {
            Call::Append(uri, data) => append(buf, used, uri, data)?,
            Call::Assign(number, uri) => assign(buf, used, number, uri)?,
            Call::Erase(place) => return Ok((erase(buf, used, place)?, 0)),
            Call::Wipe(place, limit) => return Ok((wipe(buf, used, place, limit)?, 0)),
            Call::Move => {
                self.move_on();
                return Ok((0, 0));
            }
        };
        self.used = wrote.used;
        Ok((wrote.place, wrote.used))
    }

    /// Makes a move. None is refused, as the logbook reads to its end.
    fn move_on(&mut self) {
        let (answer, next) = self.reading.move_on(&self.buf, self.used);
        match answer.unwrap() {
            Moved::Item(Item::End { .. }) => self.ended = true,
            Moved::Item(item) if !self.ended => self.list.extend(live(&item)),
            _ => {}
        }
        self.reading = next;
    }

    /// Whether a call made now is late.
    fn is_late(&self, call: Call) -> bool {
        match call {
            _ if self.ended => true,
            Call::Erase(place) | Call::Wipe(place, _) => self.reading.has_passed(place),
            _ => false,
        }
    }

    /// Whether the premise leaves the call out.
    fn is_forbidden(&self, call: Call) -> bool {
        matches!(call, Call::Wipe(place, _) if self.reading.forbids_wipe(place))
    }
}

/// A call picked for the desk as it is: often one aimed at the record that the
/// reading is at.
fn any_call(random: &mut Random, desk: &Desk) -> Call {
    let mut starts = Vec::new();
    let mut reading = Reading::fresh();
    while reading.position < desk.used {
        starts.push(reading.position);
        let (answer, next) = reading.step(&desk.buf, desk.used);
        assert!(answer.is_ok(), "{answer:?}");
        reading = next;
    }
    let place = match random.below(6) {
        0..=2 => desk.reading.reading.position,
        3 => random.below(desk.used + 3),
        _ => random.pick(&starts),
    };
    let uri = random.pick(&[URIS[0], URIS[1], URIS[2], URIS[3], URIS[4], b"bad"]);
    match random.below(14) {
        0 => Call::Append(uri, random.pick(&[&b""[..], b"dd", &[0x80; 130]])),
        1 => Call::Assign(random.pick(&[0, 1, 2, 3, 128, LIMIT, LIMIT + 1]), uri),
        2 | 3 => Call::Erase(place),
        4 | 5 => Call::Wipe(place, random.pick(&[0, 1, 2, 3, usize::MAX])),
        _ => Call::Move,
    }
}

/// What a run made of a series: how often it met the cases that matter.
#[derive(Default, Debug)]
struct Met {
    ended: usize,
    cut: usize,
    erased_before_type: usize,
    wiped_before_type: usize,
    erased_before_data: usize,
    forbidden: usize,
}

impl Met {
    /// Counts a call that is about to be made and its answer.
    fn count(&mut self, call: Call, before: &SlowReading, answer: Answer) {
        let position = before.reading.position;
        let size = before.type_place != 0 && before.number == 0;
        match call {
            Call::Erase(place) if place == position && answer.is_ok() => {
                self.erased_before_type += usize::from(size);
                self.erased_before_data += usize::from(before.number != 0);
            }
            Call::Wipe(place, _) if place == position && size => {
                self.wiped_before_type += usize::from(answer.is_ok_and(|stores| stores.0 > 0));
            }
            _ => {}
        }
    }
}

/// Runs a series as it comes and then in the other order, and compares.
fn check_both_orders(random: &mut Random, start: &Desk, calls: usize, met: &mut Met) {
    let mut mixed = start.clone();
    let (mut early, mut late) = (Vec::new(), Vec::new());
    for _ in 0..calls {
        let call = any_call(random, &mixed);
        if mixed.is_forbidden(call) {
            met.forbidden += 1;
            continue;
        }
        let (is_late, before) = (mixed.is_late(call), mixed.reading.clone());
        let answer = mixed.make(call);
        met.count(call, &before, answer);
        if is_late {
            late.push((call, answer));
        } else if !matches!(call, Call::Move) {
            early.push((call, answer));
        }
    }
    let mut sorted = start.clone();
    for (call, answer) in early {
        assert_eq!(sorted.make(call), answer, "{call:?}");
    }
    while !sorted.ended {
        sorted.move_on();
    }
    for (call, answer) in late {
        assert_eq!(sorted.make(call), answer, "{call:?}");
    }
    assert_eq!((mixed.used, &mixed.buf), (sorted.used, &sorted.buf));
    if mixed.ended {
        assert_eq!(mixed.list, sorted.list);
        assert_eq!(mixed.reading, sorted.reading);
        met.ended += 1;
    } else {
        assert_eq!(mixed.list, sorted.list[..mixed.list.len()]);
        met.cut += 1;
    }
}

#[test]
fn demand_3_for_the_slow_reading() {
    let mut random = Random(0x9E37_79B9_7F4A_7C15);
    let mut met = Met::default();
    for _ in 0..3_000 {
        let log = generate(&mut random, 8);
        let room = random.pick(&[0, 20, 200, 600]);
        let start = Desk::new([&log[..], &vec![0xAA; room]].concat(), log.len());
        let calls = random.pick(&[10, 30, 60, 90]);
        check_both_orders(&mut random, &start, calls, &mut met);
    }
    let Met {
        ended,
        cut,
        erased_before_type,
        wiped_before_type,
        erased_before_data,
        forbidden,
    } = met;
    let counts = [
        ended,
        cut,
        erased_before_type,
        erased_before_data,
        forbidden,
    ];
    assert!(counts.iter().all(|&count| count > 100), "{counts:?}");
    assert!(wiped_before_type > 50, "{wiped_before_type}");
}

#[test]
fn answers_of_moves_need_not_agree() {
    // The paper's own case: deleted here, undisturbed padding, one list.
    let log = book(&[&assigns(2, b"a:"), b"\x02\x02P\x02\x02Q"]);
    let mut here = Desk::new(log.clone(), log.len());
    while here.reading.type_place != 115 {
        here.move_on();
    }
    let mut there = Desk::new(log.clone(), log.len());
    for desk in [&mut here, &mut there] {
        assert_eq!(desk.make(Call::Erase(114)), Ok((115, 0)));
        assert_eq!(desk.make(Call::Wipe(114, 9)), Ok((2, 0)));
    }
    let (answer, _) = here.reading.move_on(&here.buf, here.used);
    assert_eq!(answer, Ok(Moved::Item(Item::Deleted { place: 114 })));
    while there.reading.reading.position != 114 {
        there.move_on();
    }
    let (answer, _) = there.reading.move_on(&there.buf, there.used);
    assert_eq!(answer, Ok(Moved::Item(Item::Padding { place: 114 })));
    for desk in [&mut here, &mut there] {
        while !desk.ended {
            desk.move_on();
        }
    }
    assert_eq!(here.list, there.list);
    let reports: Vec<Report> = here.list.iter().map(|entry| entry.0).collect();
    let expected = [[(0, 1), NONE], [(109, 2), NONE], [(117, 3), (109, 2)]];
    assert_eq!(reports, expected);
    assert_eq!(here.reading, there.reading);
}
