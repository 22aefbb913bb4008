//! The cases of papers 01 and 02 [1], [5], [6] and [11], run through the public calls.

mod common;

use common::*;
use reader::*;

fn morning() -> Vec<u8> {
    book(&[
        b"\x0D\x01\x02urn:ep:2010",
        b"\x03\x02P7",
        b"\x0D\x01\x02urn:ep:2017",
        b"\x03\x02P8",
    ])
}

fn text(file: &[u8]) -> String {
    String::from_utf8(listing(file)).unwrap()
}

/// The steps of a fresh reading, up to its end or its refusal.
fn items(log: &[u8]) -> (Vec<Item<'_>>, Reading, Option<Refusal>) {
    let (mut list, mut reading) = (Vec::new(), Reading::fresh());
    loop {
        let (answer, next) = reading.step(log, log.len());
        match answer {
            Err(refusal) => {
                assert_eq!(next, reading);
                return (list, reading, Some(refusal));
            }
            Ok(Item::End { place }) => {
                assert_eq!((place, &next), (log.len(), &reading));
                return (list, reading, None);
            }
            Ok(item) => list.push(item),
        }
        reading = next;
    }
}

/// The live entries: place, URI, data.
fn entries(log: &[u8]) -> Vec<(usize, Vec<u8>, Vec<u8>)> {
    let (list, _, refusal) = items(log);
    assert_eq!(refusal, None);
    let live = list.iter().filter_map(|item| match item {
        Item::Entry {
            place, uri, data, ..
        } => Some((*place, uri.to_vec(), data.to_vec())),
        _ => None,
    });
    live.collect()
}

/// How the reading of a header and then these bytes is refused; every call
/// that walks them, and the listing of a file, are refused alike.
fn refusal_of(bytes: &[u8]) -> Option<(u8, usize)> {
    let log = book(&[bytes]);
    let Refusal { number, place } = items(&log).2?;
    let (mut buf, used) = (log.clone(), log.len());
    assert_eq!(append(&mut buf, used, b"a:", b""), refused(number, place));
    assert_eq!(assign(&mut buf, used, 2, b"a:"), refused(number, place));
    assert_eq!(assign(&mut buf, used, 2, b""), refused(number, place));
    assert_eq!(erase(&mut buf, used, usize::MAX), refused(number, place));
    assert_eq!(wipe(&mut buf, used, usize::MAX, 1), refused(number, place));
    assert_eq!(buf, log);
    if used <= 65_536 {
        let last = format!("refused\t{number}\t{place}\n");
        assert!(text(&log).ends_with(&last));
    }
    Some((number, place))
}

/// `count` assignments of the numbers from `first` up, all to "a:".
fn many(first: u8, count: u8) -> Vec<u8> {
    (first..first + count)
        .flat_map(|number| [4, 1, number, b'a', b':'])
        .collect()
}

#[test]
fn the_header() {
    let mut buf = [0xAA; 111];
    assert_eq!(start(&mut buf, &UUID, &[7; 60]), Ok(109));
    let front = b"lozizol 0.5 039343bb-9019-4d6e-825e-631aa578ff7f ";
    assert_eq!(&buf[..49], front);
    assert_eq!(&buf[49..], [[7; 60].as_slice(), &[0xAA; 2]].concat());
    for (uuid, free) in [(15, 60), (17, 60), (16, 59), (16, 61)] {
        assert_eq!(
            start(&mut [], &vec![0; uuid], &vec![0; free]),
            refused(10, 0)
        );
    }
    let mut short = [0xAA; 108];
    assert_eq!(start(&mut short, &UUID, &[7; 60]), refused(12, 0));
    assert_eq!(short, [0xAA; 108]);

    // At place 0 only 2 and 3 are known, used length 0 included.
    let good = book(&[]);
    for used in [0, 1, 108] {
        let (answer, next) = Reading::fresh().step(&good, used);
        assert_eq!((answer, next), (refused(2, 0), Reading::fresh()));
    }
    for place in (0..49).filter(|place| !(12..48).contains(place)) {
        let mut bad = good.clone();
        bad[place] ^= 0x80;
        assert_eq!(
            items(&bad).2,
            Some(Refusal {
                number: 3,
                place: 0
            })
        );
    }
    for (place, byte, fine) in [
        (12, b'F', true),
        (12, b'g', false),
        (12, b'-', false),
        (20, b'0', false),
        (47, b'a', true),
        (108, 0, true),
    ] {
        let mut other = good.clone();
        other[place] = byte;
        assert_eq!(items(&other).2.is_none(), fine, "{place} {byte}");
    }
    assert_eq!(text(&[&[0], &good[..]].concat()), "refused\t3\t0\n");
    assert_eq!(text(&[]), "refused\t2\t0\n");
}

#[test]
fn m1_to_m10_as_sizes_and_types() {
    assert_eq!(refusal_of(&[0]), None); // M1: padding
    for (size, length) in [
        (&b"\x7F"[..], 127), // M2 to M5: that many bytes, and no fewer
        (b"\x81\x00", 128),
        (b"\xFF\x7F", 16_383),
        (b"\x81\x80\x00", 16_384),
    ] {
        let bytes = [size, &vec![0; length]].concat();
        assert_eq!(refusal_of(&bytes), None);
        assert_eq!(refusal_of(&bytes[..bytes.len() - 1]), Some((2, 109)));
    }
    for (bytes, refusal) in [
        (&b"\x87\xFF\xFF\x7F"[..], (2, 109)), // M6, M7: sound but too long
        (b"\xFF\xFF\xFF\x7F", (2, 109)),
        (b"\x80\x11", (14, 109)),          // M8
        (b"\x81", (2, 109)),               // M9
        (b"\xFF\xFF\xFF\xFF", (15, 112)),  // M10
        (b"\x00\x03\x80\x11a", (14, 111)), // M8 to M10 as types
        (b"\x00\x01\x81", (16, 111)),
        (b"\x00\x04\xFF\xFF\xFF\xFF", (16, 114)), // a type may have nine bytes
        (b"\x00\x05\xFF\xFF\xFF\xFF\x7F", (6, 110)),
    ] {
        assert_eq!(refusal_of(bytes), Some(refusal), "{bytes:?}");
    }
}

/// Whether the record is refused with this number at this byte of it: at the
/// used length, before other bytes (2 aside) and behind other items.
fn check_record(record: &[u8], number: u8, byte: usize) {
    let header = book(&[]);
    for before in [
        &b""[..],
        b"\x00",
        b"\x02\x00\x80",
        b"\x04\x01\x02a:\x02\x02\x80",
        &header,
    ] {
        for behind in [&b""[..], b"\x00", b"\x05", b"\x80", b"\xFF\xFF\xFF\xFF"] {
            if number != 2 || behind.is_empty() {
                let bytes = [before, record, behind].concat();
                let refusal = (number, 109 + before.len() + byte);
                assert_eq!(refusal_of(&bytes), Some(refusal), "{bytes:X?}");
            }
        }
    }
}

#[test]
fn broken_sizes() {
    for (size, number, byte) in [
        (&b"\x80"[..], 14, 0), // alone too, and before 15
        (b"\x80\x01", 14, 0),
        (b"\x80\x81", 14, 0),
        (b"\x80\x80\x80\x80", 14, 0),
        (b"\x80\xFF\xFF\xFF\xFF", 14, 0),
        (b"\x81", 2, 0), // not over at the used length, the record's start
        (b"\xFF", 2, 0),
        (b"\x81\x80", 2, 0),
        (b"\xFF\xFF", 2, 0),
        (b"\x81\x80\x80", 2, 0),
        (b"\xFF\xFF\xFF", 2, 0),
        (b"\x81\x80\x80\x80", 15, 3), // the fourth byte, the last used one too
        (b"\xFF\xFF\xFF\xFF", 15, 3),
        (b"\xFF\xFF\xFF\x80\x00", 15, 3),
        (b"\x81\x80\x80\x80\x80\x80\x80\x80\x01", 15, 3),
        (b"\xFF\xFF\xFF\xFF\xFF\xFF\xFF\xFF\x7F", 15, 3),
        (b"\xFF\xFF\xFF\xFF\xFF\xFF\xFF\xFF\xFF", 15, 3),
        (b"\x81\x80\x80\x00", 2, 0), // over at the fourth byte
        (b"\xFF\xFF\xFF\x7F", 2, 0),
    ] {
        check_record(size, number, byte);
    }
}

#[test]
fn bytes_past_the_used_length_are_not_looked_at() {
    // The bytes at 109, and the refusals at the used lengths 110, 111 and so on.
    type Case<'a> = (&'a [u8], &'a [(u8, usize)]);
    let cases: [Case; 8] = [
        (b"\x80\x80", &[(14, 109), (14, 109)]),
        (b"\x81\x00", &[(2, 109), (2, 109)]),
        (
            &[0xFF; 5],
            &[(2, 109), (2, 109), (2, 109), (15, 112), (15, 112)],
        ),
        (b"\x02\x80\x80", &[(2, 109), (2, 109), (14, 110)]),
        (
            b"\x03\xFF\xFF\xFF\xFF",
            &[(2, 109), (2, 109), (2, 109), (16, 112)],
        ),
        (
            b"\x04\xFF\xFF\xFF\xFF\xFF\xFF\xFF\xFF\xFF",
            &[(2, 109), (2, 109), (2, 109), (2, 109), (16, 113)],
        ),
        (
            b"\x08\xFF\xFF\xFF\xFF\xFF\xFF\xFF\xFF\xFF",
            &[&[(2, 109); 8][..], &[(16, 117), (16, 117)]].concat(),
        ),
        (
            b"\x09\xFF\xFF\xFF\xFF\xFF\xFF\xFF\xFF\xFF\xFF",
            &[&[(2, 109); 9][..], &[(15, 118), (15, 118)]].concat(),
        ),
    ];
    for (bytes, refusals) in cases {
        let log = book(&[bytes]);
        let (_, reading) = Reading::fresh().step(&log, 109);
        for (used, &(number, place)) in (110..).zip(refusals) {
            let answer = (refused(number, place), reading.clone());
            assert_eq!(reading.step(&log, used), answer, "{bytes:X?} {used}");
            let walked = append(&mut log.clone(), used, b"a:", b"");
            assert_eq!(walked, refused(number, place));
        }
    }
}

#[test]
fn broken_types() {
    for (record, number, byte) in [
        (&b"\x01\x80"[..], 14, 1), // alone too, and before 16 and 15
        (b"\x02\x80\x00", 14, 1),
        (b"\x02\x80\x81", 14, 1),
        (b"\x03\x80\x80\x80", 14, 1),
        (b"\x04\x80\xFF\xFF\xFF", 14, 1),
        (b"\x05\x80\x80\x80\x80\x01", 14, 1),
        (b"\x09\x80\xFF\xFF\xFF\xFF\xFF\xFF\xFF\xFF", 14, 1),
        (b"\x0A\x80\x80\x80\x80\x80\x80\x80\x80\x80\x01", 14, 1),
        (b"\x01\x81", 16, 1), // not over at the record's last byte
        (b"\x01\xFF", 16, 1),
        (b"\x02\x81\x80", 16, 2),
        (b"\x02\xFF\xFF", 16, 2),
        (b"\x03\x81\x80\x80", 16, 3),
        (b"\x03\xFF\xFF\xFF", 16, 3),
        (b"\x04\x81\x80\x80\x80", 16, 4), // the fourth byte is no limit of a type
        (b"\x04\xFF\xFF\xFF\xFF", 16, 4),
        (b"\x06\xFF\xFF\xFF\xFF\xFF\xFF", 16, 6),
        (b"\x08\x81\x80\x80\x80\x80\x80\x80\x80", 16, 8),
        (b"\x08\xFF\xFF\xFF\xFF\xFF\xFF\xFF\xFF", 16, 8),
        (b"\x09\x81\x80\x80\x80\x80\x80\x80\x80\x80", 15, 9), // the ninth byte, before 16
        (b"\x09\xFF\xFF\xFF\xFF\xFF\xFF\xFF\xFF\xFF", 15, 9),
        (b"\x0A\xFF\xFF\xFF\xFF\xFF\xFF\xFF\xFF\x80\x00", 15, 9),
        (b"\x0B\xFF\xFF\xFF\xFF\xFF\xFF\xFF\xFF\xFF\xFF\xFF", 15, 9),
        (b"\x02\x81\x00", 6, 0), // over at the record's last byte
        (b"\x03\x81\x80\x00", 6, 0),
        (b"\x04\x81\x80\x80\x00", 6, 0),
        (b"\x04\xFF\xFF\xFF\x7F", 6, 0),
        (b"\x05\xFF\xFF\xFF\x80\x00", 6, 0),
        (b"\x09\x81\x80\x80\x80\x80\x80\x80\x80\x00", 6, 0),
        (b"\x09\xFF\xFF\xFF\xFF\xFF\xFF\xFF\xFF\x7F", 6, 0),
        (b"\x02\x80", 2, 0), // incomplete before the type is looked at
        (b"\x02\x81", 2, 0),
        (b"\x04\xFF\xFF\xFF", 2, 0),
        (b"\x05\xFF\xFF\xFF\xFF", 2, 0),
        (b"\x0A\xFF\xFF\xFF\xFF\xFF\xFF\xFF\xFF\xFF", 2, 0),
        (b"\x81\x00\x80", 2, 0),
    ] {
        check_record(record, number, byte);
    }
}

#[test]
fn broken_types_behind_sizes_of_one_to_four_bytes() {
    for (size, length) in [
        (&b"\x0A"[..], 10),
        (b"\x7F", 127),
        (b"\x81\x00", 128),
        (b"\xFF\x7F", 16_383),
        (b"\x81\x80\x00", 16_384),
        (b"\x81\x80\x80\x00", 2_097_152),
    ] {
        for (start, number, byte) in [
            (&b"\x80"[..], 14, size.len()),
            (b"\x80\xFF\xFF\xFF", 14, size.len()),
            (b"\x81\x80\x80\x80\x80\x80\x80\x80\x80", 15, size.len() + 8),
            (
                b"\xFF\xFF\xFF\xFF\xFF\xFF\xFF\xFF\xFF\x80",
                15,
                size.len() + 8,
            ),
            (b"\xFF\xFF\xFF\x7F", 6, 0),
            (b"\xFF\xFF\xFF\xFF\x80", 6, 0),
            (b"\xFF\xFF\xFF\xFF\xFF\xFF\xFF\xFF\x7F", 6, 0),
        ] {
            let mut record = [size, start, &vec![0; length - start.len()]].concat();
            assert_eq!(refusal_of(&record), Some((number, 109 + byte)));
            record.pop();
            assert_eq!(refusal_of(&record), Some((2, 109)));
        }
    }
}

#[test]
fn broken_assigned_numbers() {
    // 5 at the record's start, whatever is wrong with the number.
    for data in [
        &b"\x80"[..],
        b"\x80\x02a:",
        b"\x80\xFF\xFF\xFFa:",
        b"\x81",
        b"\xFF\xFF",
        b"\xFF\xFF\xFF",
        b"\x81\x80\x80\x80",
        b"\xFF\xFF\xFF\xFF",
        b"\xFF\xFF\xFF\xFF\xFF\xFF\xFF\xFF",
        b"\x80\xFF\xFF\xFF\xFF\xFF\xFF\xFF\xFFa:",
        b"\x81\x80\x80\x80\x80\x80\x80\x80\x80",
        b"\xFF\xFF\xFF\xFF\xFF\xFF\xFF\xFF\xFF",
        b"\xFF\xFF\xFF\xFF\xFF\xFF\xFF\xFF\xFF\x7Fa:",
    ] {
        let size = data.len() as u8;
        check_record(&[&[size + 1, 1], data].concat(), 5, 0);
        // Under 128 too, which takes two bytes.
        let long = &b"\x13\x01\x81\x00urn:lozizol:type"[..];
        let bytes = [long, &[size + 2, 0x81, 0x00], data].concat();
        assert_eq!(refusal_of(&bytes), Some((5, 129)), "{data:X?}");
        // The data of other records is not looked at.
        let plain = [&b"\x04\x01\x02a:"[..], &[size + 1, 2], data];
        assert_eq!(refusal_of(&plain.concat()), None);
        let deleted = [&[size + 1, 0], data];
        assert_eq!(refusal_of(&deleted.concat()), None);
    }
    // A broken size or type comes first.
    check_record(b"\x03\x80\x01\x80", 14, 1);
    check_record(b"\x05\xFF\xFF\xFF\xFF\x80", 16, 5);
    check_record(b"\x0A\xFF\xFF\xFF\xFF\xFF\xFF\xFF\xFF\xFF\x80", 15, 9);
}

#[test]
fn each_call_says_what_is_broken() {
    for (record, number, place) in [
        (&b"\x80"[..], 14, 119),
        (b"\xFF\xFF\xFF\xFF", 15, 122),
        (b"\x01\x80", 14, 120),
        (b"\x0B\xFF\xFF\xFF\xFF\xFF\xFF\xFF\xFF\xFF\x01\x01", 15, 128),
        (b"\x81\x00\x80", 2, 119), // only once the record is complete
        (b"\x03\x81\x82\x83", 16, 122),
    ] {
        // An assignment, an entry, a deleted record; no room is left (12).
        let log = book(&[b"\x04\x01\x02a:", b"\x02\x02P", b"\x01\x00", record]);
        let (mut buf, used) = (log.clone(), log.len());
        let says = Refusal { number, place };
        let mut reading = items(&log).1;
        assert_eq!((reading.position, reading.count), (119, 3));
        assert_eq!(
            reading.step(&log, used),
            (Err(says), reading.clone()),
            "{record:X?}"
        );
        for uri in [&b"a:"[..], b"b:"] {
            assert_eq!(append(&mut buf, used, uri, b"Q"), Err(says));
            assert_eq!(assign(&mut buf, used, 3, uri), Err(says));
        }
        assert_eq!(assign(&mut buf, used, 2, b""), Err(says));
        for asked in [119, 120, place, used - 1, used, usize::MAX] {
            assert_eq!(erase(&mut buf, used, asked), Err(says));
            assert_eq!(wipe(&mut buf, used, asked, 0), Err(says));
            assert_eq!(wipe(&mut buf, used, asked, 9), Err(says));
        }
        let lines = format!(
            "0\t1\turn:lozizol:header\t107\n109\t2\turn:lozizol:type\t3\n\
             114\t3\ta:\t1\nrefused\t{number}\t{place}\n"
        );
        assert_eq!(text(&log), lines);

        // 1, 13 and 10 come first.
        assert_eq!(erase(&mut buf, used + 1, 119), refused(1, 0));
        assert_eq!(append(&mut buf, used, b"", b""), refused(10, 0));
        assert_eq!(assign(&mut buf, used, 0, b""), refused(10, 0));
        reading.count = 120;
        assert_eq!(reading.step(&log, used), (refused(13, 0), reading));
        assert_eq!(buf, log);

        // A call whose walk ends before the record doesn't look at it.
        assert_eq!(erase(&mut buf, used, 118), refused(8, 118));
        assert_eq!(wipe(&mut buf, used, 117, 1), Ok(1));
        assert_eq!(erase(&mut buf, used, 114), Ok(115));

        // 11 and 7 for the request come after.
        assert_eq!(
            refusal_of(&[b"\x02\x01\x01\x05\x00\x00\x00\x00\x00\x00", record].concat()),
            Some((number, place))
        );
        assert_eq!(
            refusal_of(&[&many(2, 30), record].concat()),
            Some((number, place + 140))
        );
    }
    // At place 0 only 2 and 3 are known.
    for byte in [0x80, 0xFF] {
        assert_eq!(text(&[byte; 108]), "refused\t2\t0\n");
        assert_eq!(text(&[byte; 109]), "refused\t3\t0\n");
    }
    // A reading from outside may stand inside a record.
    let log = book(&[b"\x09\x00\x80\xFF\xFF\xFF\xFF\x02\xFF\xFF"]);
    for (position, number, place) in [
        (111, 14, 111),
        (112, 15, 115),
        (113, 2, 113),
        (116, 16, 118),
        (117, 2, 117),
    ] {
        let mut reading = Reading::fresh();
        reading.position = position;
        let answer = (refused(number, place), reading.clone());
        assert_eq!(reading.step(&log, log.len()), answer);
    }
}

/// A row made by a header.
fn implied(number: u64) -> Row {
    Row {
        number,
        implied: true,
        ..Row::default()
    }
}

/// A row made by an assignment: place and length of its URI, then place and
/// number of the record.
fn written(number: u64, uri: (u32, u32), declared: (u32, u32)) -> Row {
    Row {
        number,
        implied: false,
        place: uri.0,
        length: uri.1,
        declared_place: declared.0,
        declared_number: declared.1,
    }
}

#[test]
fn m11_the_mornings_file() {
    let lines = "0\t1\turn:lozizol:header\t107\n109\t2\turn:lozizol:type\t12\n\
                 123\t3\turn:ep:2010\t2\n127\t4\turn:lozizol:type\t12\n\
                 141\t5\turn:ep:2017\t2\nend\t145\n";
    assert_eq!(text(&morning()), lines);

    // The same, by the calls; the bytes past the used length stay.
    let mut buf = book(&[&[0xAA; 50]]);
    let mut used = 109;
    for (answer, place, end) in [
        (append(&mut buf, used, b"urn:ep:2010", b"P7"), 123, 127),
        (assign(&mut buf, 127, 2, b"urn:ep:2017"), 127, 141),
        (append(&mut buf, 141, b"urn:ep:2017", b"P8"), 141, 145),
    ] {
        assert_eq!(answer, Ok(Appended { place, used: end }));
        used = end;
    }
    assert_eq!(buf[..used], morning());
    assert_eq!(buf[used..], [0xAA; 14]);

    let log = morning();
    let (list, reading, _) = items(&log);
    let entry = Item::Entry {
        place: 141,
        number: 5,
        kind: Kind::Plain,
        uri: b"urn:ep:2017",
        data_place: 143,
        data: b"P8",
        declared_place: 127,
        declared_number: 4,
    };
    assert_eq!(list[4], entry);
    assert!(matches!(
        list[0],
        Item::Entry {
            place: 0,
            number: 1,
            kind: Kind::Header,
            data_place: 2,
            ..
        }
    ));
    let rows = [implied(1), written(2, (130, 11), (127, 4)), implied(111)];
    assert_eq!((reading.position, reading.count, reading.held), (145, 5, 3));
    assert_eq!(reading.rows[..3], rows);
    assert!(reading.rows[3..].iter().all(|row| *row == Row::default()));
}

#[test]
fn m12_erased_and_wiped() {
    let mut buf = morning();
    assert_eq!(wipe(&mut buf, 145, 123, 9), refused(8, 123));
    assert_eq!(erase(&mut buf, 145, 123), Ok(124));
    assert_eq!(&buf[123..127], b"\x03\0P7");
    let list = entries(&buf);
    assert_eq!(erase(&mut buf, 145, 123), refused(8, 123));
    assert_eq!(wipe(&mut buf, 145, 123, 0), Ok(0));
    for bytes in [b"\x03\0\x007", b"\x03\0\0\0", b"\0\0\0\0"] {
        assert_eq!(wipe(&mut buf, 145, 123, 1), Ok(1));
        assert_eq!(&buf[123..127], bytes);
        assert_eq!(entries(&buf), list);
    }
    assert_eq!(wipe(&mut buf, 145, 123, 1), refused(8, 123));
    let lines = "0\t1\turn:lozizol:header\t107\n109\t2\turn:lozizol:type\t12\n\
                 127\t3\turn:lozizol:type\t12\n141\t4\turn:ep:2017\t2\nend\t145\n";
    assert_eq!(text(&buf), lines);

    let mut whole = morning();
    erase(&mut whole, 145, 123).unwrap();
    assert_eq!(wipe(&mut whole, 145, 123, usize::MAX), Ok(3));
    assert_eq!(whole, buf);
}

#[test]
fn refusals_of_a_record() {
    let header = book(&[]);
    let mut later = header.clone();
    later[20] = b'x';
    let full = many(2, 30);
    type Case<'a> = (&'a [u8], Option<(u8, usize)>);
    let cases: [Case; 22] = [
        (b"\x01\x02", Some((6, 109))),
        (b"\x02\x00\x80", None), // deleted, whatever its data
        (&header, None),
        (&later, Some((3, 109))),
        (b"\x01\x6F", Some((3, 109))),
        (b"\x6C\x6F", Some((2, 109))),
        (b"\x01\x01", Some((5, 109))),         // data missing
        (b"\x02\x01\x81", Some((5, 109))),     // not over
        (b"\x03\x01\x80\x01", Some((5, 109))), // broken
        (b"\x04\x01\x00a:", Some((5, 109))),   // number 0
        (b"\x02\x01\x00", Some((5, 109))),     // removal of number 0
        (b"\x03\x01\x02a", Some((5, 109))),    // not allowed
        (b"\x04\x01\x02a:", None),             // allowed
        (b"\x02\x01\x02", None),               // removal of a number not held
        (b"\x15\x01\x02urn:lozizol:deleted", Some((5, 109))),
        (b"\x14\x01\x02urn:lozizol:header", Some((5, 109))),
        (b"\x14\x01\x6Furn:lozizol:header\x01\x6F", Some((3, 130))),
        (b"\x02\x01\x6F\x01\x6F", Some((6, 112))), // 111 removed
        (b"\x07\x01\xFF\xFF\xFF\x7Fa:", None),
        (&[&full[..], b"\x04\x01\x20a:"].concat(), Some((7, 259))),
        (&[&full[..], b"\x04\x01\x1Fa:\x02\x01\x20"].concat(), None),
        (&[&full[..], b"\x02\x01\x05\x04\x01\x20a:"].concat(), None),
    ];
    for (bytes, refusal) in cases {
        assert_eq!(refusal_of(bytes), refusal, "{bytes:?}");
    }
    // A later header empties the register.
    let reset = [&many(2, 9)[..], &header, b"\x01\x02"].concat();
    assert_eq!(refusal_of(&reset), Some((6, 109 + 45 + 109)));
}

#[test]
fn refusals_of_a_request() {
    // 1 before all, 10 before the walk.
    let mut bad = vec![0; 20];
    let long = [b'a'; 256];
    for used in [21, usize::MAX] {
        assert_eq!(append(&mut bad, used, b"", b""), refused(1, 0));
        assert_eq!(assign(&mut bad, used, 0, b""), refused(1, 0));
        assert_eq!(erase(&mut bad, used, 0), refused(1, 0));
        assert_eq!(wipe(&mut bad, used, 0, 0), refused(1, 0));
        assert_eq!(Reading::fresh().step(&bad, used).0, refused(1, 0));
    }
    for uri in [
        &b""[..],
        b"a",
        &long,
        b"urn:lozizol:type",
        b"urn:lozizol:header",
        b"urn:lozizol:deleted",
    ] {
        assert_eq!(append(&mut bad, 20, uri, b""), refused(10, 0));
    }
    assert_eq!(append(&mut bad, 20, b"a:", &[0; 65_536]), refused(10, 0));
    assert_eq!(append(&mut bad, 20, b"a:", &[0; 65_535]), refused(2, 0));
    for (number, uri) in [
        (0, &b""[..]),
        (0, b"a:"),
        (9_223_372_036_854_775_808, b""),
        (u64::MAX, b"a:"),
        (2, b"a"),
        (111, b"urn:lozizol:deleted"),
        (110, b"urn:lozizol:header"),
    ] {
        assert_eq!(assign(&mut bad, 20, number, uri), refused(10, 0));
    }
    for number in [268_435_455, 268_435_456, 9_223_372_036_854_775_807] {
        assert_eq!(assign(&mut bad, 20, number, b""), refused(2, 0));
    }
    assert_eq!(text(&[b'l'; 65_537]), "refused\t1\t0\n");
    assert_eq!(text(&[b'l'; 65_536]), "refused\t3\t0\n");

    // 8 and 9.
    let mut buf = morning();
    for place in [1, 108, 110, 124, 144, 145, 146, usize::MAX] {
        assert_eq!(erase(&mut buf, 145, place), refused(8, place));
        assert_eq!(wipe(&mut buf, 145, place, 1), refused(8, place));
    }
    for place in [0, 109, 127] {
        assert_eq!(erase(&mut buf, 145, place), refused(9, place));
        assert_eq!(wipe(&mut buf, 145, place, 1), refused(8, place));
    }
    assert_eq!(buf, morning());
    // The walk's refusal comes before 8, but only up to the asked place.
    assert_eq!(erase(&mut buf, 144, 142), refused(2, 141));
    assert_eq!(erase(&mut buf, 144, 140), refused(8, 140));
    assert_eq!(erase(&mut buf, 144, 123), Ok(124));

    // 12, and both records or neither.
    let mut tight = book(&[&[0xAA; 9]]);
    let before = tight.clone();
    assert_eq!(append(&mut tight, 109, b"a:", b"abc"), refused(12, 109));
    assert_eq!(assign(&mut tight, 109, 2, b"abcdef:"), refused(12, 109));
    assert_eq!(tight, before);
    let fits = Appended {
        place: 114,
        used: 118,
    };
    assert_eq!(append(&mut tight, 109, b"a:", b"ab"), Ok(fits));
    assert_eq!(&tight[109..], b"\x04\x01\x02a:\x03\x02ab");

    // 11: nothing holds urn:lozizol:type; then only held URIs can be used.
    let mut none = book(&[b"\x04\x01\x02a:\x02\x01\x01", &[0; 9]]);
    assert_eq!(append(&mut none, 117, b"b:", b""), refused(11, 0));
    assert_eq!(assign(&mut none, 117, 3, b""), refused(11, 0));
    assert!(append(&mut none, 117, b"a:", b"").is_ok());
    // 7 for the request, and 11 before 7.
    let mut full = book(&[&many(2, 30), &[0; 9]]);
    assert_eq!(append(&mut full, 259, b"b:", b""), refused(7, 259));
    assert_eq!(assign(&mut full, 259, 33, b"b:"), refused(7, 259));
    assert!(assign(&mut full, 259, 33, b"").is_ok());
    assert!(assign(&mut full, 259, 31, b"b:").is_ok());
    let mut both = book(&[&many(2, 30), b"\x02\x01\x20\x04\x01\x01a:", &[0; 9]]);
    assert_eq!(append(&mut both, 267, b"b:", b""), refused(11, 0));
    assert_eq!(assign(&mut both, 267, 40, b"b:"), refused(11, 0));
}

#[test]
fn readings_that_do_not_fit() {
    let log = morning();
    let (_, end, _) = items(&log);
    assert_eq!(end.step(&log, 145).0, Ok(Item::End { place: 145 }));
    assert_eq!(end.step(&log, 144).0, refused(13, 0));
    let changes: [fn(&mut Reading); 17] = [
        |r| r.position = usize::MAX,
        |r| r.count = 146,
        |r| r.held = 33,
        |r| r.held = usize::MAX,
        |r| r.held = 2,
        |r| r.held = 4,
        |r| r.rows[31].length = 1,
        |r| r.rows[31].implied = true,
        |r| r.rows[0].number = 2,
        |r| r.rows[0].place = 1,
        |r| r.rows[1].implied = true,
        |r| r.rows[1].length = 0,
        |r| r.rows[1].place = u32::MAX,
        |r| r.rows[1].place = 135,
        |r| r.rows[1].number = 112,
        |r| (r.held, r.rows[3]) = (4, written(9_223_372_036_854_775_808, (0, 1), (0, 1))),
        |r| (r.rows[1].place, r.rows[1].length) = (u32::MAX, u32::MAX),
    ];
    for (index, change) in changes.iter().enumerate() {
        let mut odd = end.clone();
        change(&mut odd);
        assert_eq!(odd.step(&log, 145), (refused(13, 0), odd), "{index}");
    }
    let mut lone = Reading::fresh();
    (lone.held, lone.rows[0].number, lone.rows[0].implied) = (1, 111, true);
    let (answer, next) = lone.step(&log, 145);
    assert!(answer.is_ok());
    assert_eq!(next, Reading::fresh().step(&log, 145).1);
}

#[test]
fn rows_from_outside_resolve_to_the_bytes_there() {
    // Number 5 is made to hold what stands at 109.
    for (uri, tail, expected) in [
        (
            &b"urn:lozizol:deleted"[..],
            &b"\x02\x05Q"[..],
            Ok(Kind::Plain),
        ),
        (b"\xFF\x00", b"\x01\x05", Ok(Kind::Plain)),
        (b"urn:lozizol:type", b"\x02\x05\x09", Ok(Kind::Assignment)),
        (
            b"urn:lozizol:header",
            &[&[0x6C, 5], &book(&[])[2..]].concat(),
            refused(3, 127),
        ),
    ] {
        let log = book(&[uri, tail]);
        let mut reading = Reading::fresh();
        (reading.position, reading.held) = (109 + uri.len(), 1);
        reading.rows[0] = written(5, (109, uri.len() as u32), (0, 1));
        let kind = reading.step(&log, log.len()).0.map(|item| match item {
            Item::Entry {
                kind, uri: found, ..
            } if found == uri => kind,
            other => panic!("{other:?}"),
        });
        assert_eq!(kind, expected);
    }
}

#[test]
fn slips_a_pupil_makes() {
    // With type 81 05 the byte 05 stays.
    let mut buf = book(&[b"\x05\x01\x81\x05a:\x03\x81\x05Q"]);
    assert_eq!(erase(&mut buf, 119, 115), Ok(116));
    assert_eq!(&buf[115..], b"\x03\x00\x05Q");
    assert_eq!(wipe(&mut buf, 119, 115, 9), Ok(3));

    // The size is wiped last and from the back.
    let mut buf = book(&[b"\x81\x80\x00\x00", &[0; 16_382], b"Z", b"\x04\x01\x02a:"]);
    let (used, list) = (buf.len(), entries(&buf));
    for size in [b"\x81\x80\x00", b"\x81\x00\x00", b"\x00\x00\x00"] {
        assert_eq!(wipe(&mut buf, used, 109, 1), Ok(1));
        assert_eq!(&buf[109..112], size);
        assert_eq!(entries(&buf), list);
    }

    // Number 1 is no assignment after it was reassigned; 5 is one.
    let log = book(&[
        b"\x12\x01\x05urn:lozizol:type\x04\x01\x01a:\x02\x01\x00",
        b"\x04\x05\x07b:\x01\x07",
    ]);
    let list = entries(&log);
    assert_eq!(list[3], (133, b"a:".to_vec(), vec![0]));
    assert_eq!(list[4].1, b"urn:lozizol:type");
    assert_eq!(list[5], (141, b"b:".to_vec(), vec![]));

    // Assignments go under the smallest number that holds urn:lozizol:type,
    // a new URI gets the smallest number that isn't held.
    let mut buf = log.clone();
    buf.extend([0; 20]);
    let place = log.len() + 5;
    let appended = append(&mut buf, log.len(), b"c:", b"x").unwrap();
    assert_eq!(
        appended,
        Appended {
            place,
            used: place + 3
        }
    );
    assert_eq!(&buf[log.len()..appended.used], b"\x04\x05\x02c:\x02\x02x");
    // Several numbers hold one URI: the smallest is used.
    let mut twice = book(&[b"\x04\x01\x09a:\x04\x01\x03a:", &[0; 2]]);
    append(&mut twice, 119, b"a:", b"").unwrap();
    assert_eq!(&twice[119..], b"\x01\x03");
}

#[test]
fn long_data_and_the_largest_used_length() {
    let mut buf = book(&[&vec![0; 16_777_216]]);
    let answer = append(&mut buf, 109, b"a:", &[b'x'; 65_535]);
    let (place, used) = (114, 114 + 3 + 1 + 65_535);
    assert_eq!(answer, Ok(Appended { place, used }));
    assert_eq!(&buf[114..118], b"\x84\x80\x00\x02");
    let limit = 16_777_216;
    assert_eq!(append(&mut buf, limit + 1, b"a:", b""), refused(1, 0));
    assert_eq!(
        append(&mut buf, limit - 1, b"a:", b""),
        refused(12, limit - 1)
    );
    let end = Appended {
        place: limit - 2,
        used: limit,
    };
    assert_eq!(append(&mut buf, limit - 2, b"a:", b""), Ok(end));
    assert_eq!(erase(&mut buf, limit, 114), Ok(117));
    assert_eq!(wipe(&mut buf, limit, 114, usize::MAX), Ok(65_537));
}

/// Each power of 128 up to the limit with its neighbours, 0 and 1 aside.
const POWERS: [(u64, &[u8]); 27] = [
    (2, b"\x02"),
    (127, b"\x7F"),
    (128, b"\x81\x00"),
    (129, b"\x81\x01"),
    (16_383, b"\xFF\x7F"),
    (16_384, b"\x81\x80\x00"),
    (16_385, b"\x81\x80\x01"),
    (2_097_151, b"\xFF\xFF\x7F"),
    (2_097_152, b"\x81\x80\x80\x00"),
    (2_097_153, b"\x81\x80\x80\x01"),
    (268_435_455, b"\xFF\xFF\xFF\x7F"),
    (268_435_456, b"\x81\x80\x80\x80\x00"),
    (268_435_457, b"\x81\x80\x80\x80\x01"),
    (34_359_738_367, b"\xFF\xFF\xFF\xFF\x7F"),
    (34_359_738_368, b"\x81\x80\x80\x80\x80\x00"),
    (34_359_738_369, b"\x81\x80\x80\x80\x80\x01"),
    (4_398_046_511_103, b"\xFF\xFF\xFF\xFF\xFF\x7F"),
    (4_398_046_511_104, b"\x81\x80\x80\x80\x80\x80\x00"),
    (4_398_046_511_105, b"\x81\x80\x80\x80\x80\x80\x01"),
    (562_949_953_421_311, b"\xFF\xFF\xFF\xFF\xFF\xFF\x7F"),
    (562_949_953_421_312, b"\x81\x80\x80\x80\x80\x80\x80\x00"),
    (562_949_953_421_313, b"\x81\x80\x80\x80\x80\x80\x80\x01"),
    (72_057_594_037_927_935, b"\xFF\xFF\xFF\xFF\xFF\xFF\xFF\x7F"),
    (
        72_057_594_037_927_936,
        b"\x81\x80\x80\x80\x80\x80\x80\x80\x00",
    ),
    (
        72_057_594_037_927_937,
        b"\x81\x80\x80\x80\x80\x80\x80\x80\x01",
    ),
    (
        9_223_372_036_854_775_806,
        b"\xFF\xFF\xFF\xFF\xFF\xFF\xFF\xFF\x7E",
    ),
    (
        9_223_372_036_854_775_807,
        b"\xFF\xFF\xFF\xFF\xFF\xFF\xFF\xFF\x7F",
    ),
];

/// The writing of the limit.
const LARGEST: &[u8] = POWERS[26].1;

#[test]
fn numbers_at_each_power_of_128_are_written() {
    for (number, bytes) in POWERS {
        assert_eq!(writing(number), bytes);
        let length = bytes.len();
        let (mut buf, mut used) = (book(&[&[0xAA; 60]]), 109);
        let size = |more| [(length + more) as u8];
        let expected = [
            [&size(3)[..], b"\x01", bytes, b"a:"].concat(),
            [&size(1), bytes, b"Q"].concat(),
            [&size(1), &b"\x01"[..], bytes].concat(),
        ];
        type Call = fn(&mut [u8], usize, u64) -> Result<Appended, Refusal>;
        let calls: [Call; 3] = [
            |buf, used, number| assign(buf, used, number, b"a:"),
            |buf, used, _| append(buf, used, b"a:", b"Q"),
            |buf, used, number| assign(buf, used, number, b""),
        ];
        for (call, written) in calls.iter().zip(&expected) {
            let end = used + written.len();
            let answer = Appended {
                place: used,
                used: end,
            };
            // No room first: a byte is missing.
            let mut tight = buf[..end - 1].to_vec();
            assert_eq!(call(&mut tight, used, number), refused(12, used));
            assert_eq!(tight, buf[..end - 1]);
            assert_eq!(call(&mut buf, used, number), Ok(answer), "{number}");
            assert_eq!(&buf[used..end], written);
            assert!(buf[end..].iter().all(|&byte| byte == 0xAA));
            used = end;
        }
        // Removed: the number is held no more.
        assert_eq!(items(&buf[..used]).1.held, 2);
    }
}

#[test]
fn numbers_at_each_power_of_128_are_read() {
    for (number, bytes) in POWERS {
        let length = bytes.len();
        let front = assigns(number, b"a:");
        let log = book(&[&front, &record(number, b"Q")]);
        let (list, reading, refusal) = items(&log);
        let place = 109 + front.len();
        let entry = Item::Entry {
            place,
            number: 3,
            kind: Kind::Plain,
            uri: b"a:",
            data_place: place + 1 + length,
            data: b"Q",
            declared_place: 109,
            declared_number: 2,
        };
        assert_eq!((list[2], refusal), (entry, None));
        let row = written(number, ((111 + length) as u32, 2), (109, 2));
        // Behind 1, and behind 111 or before it.
        let index = if number < 111 { 1 } else { 2 };
        assert_eq!((reading.held, reading.rows[index]), (3, row));
        // No other number is held, nor this one behind its removal.
        for (other, _) in POWERS.iter().filter(|(other, _)| *other != number) {
            let bytes = [&front[..], &record(*other, b"Q")].concat();
            assert_eq!(refusal_of(&bytes), Some((6, place)), "{number} {other}");
        }
        let removal = assigns(number, b"");
        let bytes = [&front[..], &removal, &record(number, b"Q")].concat();
        assert_eq!(refusal_of(&bytes), Some((6, place + removal.len())));
    }
}

#[test]
fn types_broken_at_each_byte() {
    // A body of `size` bytes, of which `set` in front have the top bit set.
    for size in 1..14 {
        for (set, first, rest) in (0..=size).flat_map(|set| {
            let bytes = [(0x80, 0x80), (0x80, 0xFF), (0x81, 0x80), (0xFF, 0xFF)];
            bytes.map(|(first, rest)| (set, first, rest))
        }) {
            let mut body = vec![rest; set];
            body.resize(size, 0x05);
            if set > 0 {
                body[0] = first;
            }
            let expected = match (body[0], set) {
                (0x80, _) => (14, 110),
                (_, 9..) => (15, 118),
                _ if set == size => (16, 109 + size),
                _ => (6, 109),
            };
            let bytes = [&[size as u8], &body[..]].concat();
            assert_eq!(refusal_of(&bytes), Some(expected), "{bytes:X?}");
            // Cut off anywhere, the type is not looked at.
            for cut in 1..bytes.len() {
                assert_eq!(refusal_of(&bytes[..cut]), Some((2, 109)));
            }
        }
    }
}

#[test]
fn types_of_nine_and_ten_bytes() {
    for (number, bytes) in &POWERS[23..] {
        let front = assigns(*number, b"a:");
        let place = 109 + front.len();
        // Nine bytes, with and without data; one byte more in front is too many.
        for data in [&b""[..], b"Q", b"\xFF\xFF"] {
            let nine = record(*number, data);
            let log = book(&[&front, &nine]);
            let entry = (place, b"a:".to_vec(), data.to_vec());
            assert_eq!(entries(&log).last(), Some(&entry));
            for cut in 1..nine.len() {
                let bytes = [&front, &nine[..cut]].concat();
                assert_eq!(refusal_of(&bytes), Some((2, place)), "{cut}");
            }
            for first in [0x81, 0xFF] {
                let body = [&[first], *bytes, data].concat();
                let ten = [&[body.len() as u8], &body[..]].concat();
                let bytes = [&front[..], &ten].concat();
                assert_eq!(refusal_of(&bytes), Some((15, place + 9)), "{ten:X?}");
            }
        }
        // Its size cuts the type off.
        for size in 1..bytes.len() {
            let bytes = [&front[..], &[size as u8], &bytes[..size]].concat();
            assert_eq!(refusal_of(&bytes), Some((16, place + size)));
        }
    }
}

#[test]
fn assigned_numbers_of_nine_and_ten_bytes() {
    let ten = |last: u8| [&[0xFF; 9][..], &[last]].concat();
    // Under 1 and under the largest number, which holds urn:lozizol:type too.
    let front = assigns(LIMIT, b"urn:lozizol:type");
    for under in [1, LIMIT] {
        let place = 109 + front.len();
        let answer = |data: &[u8]| refusal_of(&[&front[..], &record(under, data)].concat());
        for nine in [LARGEST, b"\x81\x80\x80\x80\x80\x80\x80\x80\x00"] {
            for cut in 0..9 {
                assert_eq!(answer(&nine[..cut]), Some((5, place)));
            }
            assert_eq!(answer(nine), None); // a removal
            assert_eq!(answer(&[nine, b"a:"].concat()), None);
            assert_eq!(answer(&[nine, b"a"].concat()), Some((5, place)));
        }
        for number in [ten(0), ten(1), ten(0x7F), ten(0xFF)] {
            for uri in [&b""[..], b"a:", b"urn:lozizol:type"] {
                let data = [&number, uri].concat();
                for cut in 0..=data.len() {
                    assert_eq!(answer(&data[..cut]), Some((5, place)), "{cut}");
                }
            }
        }
        // Cut off by the used length it is 2, at each byte.
        let whole = record(under, &[LARGEST, b"a:"].concat());
        for cut in 1..whole.len() {
            let bytes = [&front, &whole[..cut]].concat();
            assert_eq!(refusal_of(&bytes), Some((2, place)));
        }
    }
}

#[test]
fn sizes_of_four_and_five_bytes() {
    for size in [
        &b"\x81\x80\x80\x80\x00"[..], // 128^4
        b"\x81\x80\x80\x80\x01",
        b"\xFF\xFF\xFF\xFF\x7F",
        &[0xFF; 5],
        LARGEST,
        &[0xFF; 10],
    ] {
        for cut in 1..=size.len() {
            let answer = if cut < 4 { (2, 109) } else { (15, 112) };
            assert_eq!(refusal_of(&size[..cut]), Some(answer), "{size:X?} {cut}");
        }
    }
    // Four bytes, with types of nine: the smallest such size, and the one up
    // to the largest used length.
    let front = assigns(LIMIT, b"a:");
    assert_eq!(front.len(), 13);
    for (size, length) in [
        (b"\x81\x80\x80\x00", 2_097_152),
        (b"\x87\xFF\xFF\x02", 16_777_216 - 126),
    ] {
        let body = [LARGEST, &vec![b'x'; length - 9]].concat();
        let log = book(&[&front, size, &body]);
        let list = entries(&log);
        assert_eq!((list[2].0, list[2].2.len()), (122, length - 9));
        let last = log.len() - 1;
        let (_, at, _) = items(&log[..122]);
        assert_eq!(at.step(&log, last).0, refused(2, 122));
        let mut buf = log.clone();
        assert_eq!(erase(&mut buf, log.len(), 122), Ok(126));
        assert_eq!(&buf[122..128], [size, &b"\x00\xFF"[..]].concat());
    }
}

#[test]
fn sizes_written_with_types_of_nine_bytes() {
    // Data of 65,535 bytes: size 65,544.
    let front = assigns(LIMIT, b"a:");
    let mut buf = book(&[&front, &vec![0xAA; 65_547]]);
    let used = 109 + front.len();
    let answer = append(&mut buf, used, b"a:", &[b'x'; 65_535]);
    let end = Appended {
        place: used,
        used: used + 65_547,
    };
    assert_eq!(answer, Ok(end));
    assert_eq!(&buf[used..used + 12], [b"\x84\x80\x08", LARGEST].concat());
    // An assignment of nine bytes under nine: sizes 127, 128 and 273.
    let front = [assigns(LIMIT, b"urn:lozizol:type"), assigns(1, b"")].concat();
    let used = 109 + front.len();
    for (size, uri) in [(&b"\x7F"[..], 109), (b"\x81\x00", 110), (b"\x82\x11", 255)] {
        let uri = [b"a:", &vec![b'x'; uri - 2][..]].concat();
        let number = LIMIT - 1;
        let written = [size, LARGEST, POWERS[25].1, &uri].concat();
        let mut buf = book(&[&front, &vec![0xAA; written.len()]]);
        let end = buf.len();
        let mut tight = buf[..end - 1].to_vec();
        assert_eq!(assign(&mut tight, used, number, &uri), refused(12, used));
        assert!(assign(&mut buf, used, number, &uri).is_ok());
        assert_eq!(&buf[used..], written);
        assert_eq!(entries(&buf).last().unwrap().0, used);
    }
}

/// Number `index` of a falling row of nine bytes each, alike in the low half.
fn falling(index: u64) -> u64 {
    LIMIT - (index << 32)
}

/// A logbook with the first 32 of these held and no other; the first holds
/// urn:lozizol:type, the others a:1 to a:31. Its used length, then free bytes.
fn full_of_nine() -> (Vec<u8>, usize) {
    let mut buf = book(&[&[0xAA; 1_000]]);
    let mut used = 109;
    let mut put = |number, uri: &[u8]| used = assign(&mut buf, used, number, uri).unwrap().used;
    put(falling(0), b"urn:lozizol:type");
    put(111, b"");
    put(1, b"");
    for index in 1..32 {
        put(falling(index), format!("a:{index}").as_bytes());
    }
    (buf, used)
}

#[test]
fn thirty_two_numbers_of_nine_bytes() {
    let (buf, used) = full_of_nine();
    let log = &buf[..used];
    let (_, end, refusal) = items(log);
    assert_eq!((refusal, end.held), (None, 32));
    for (row, index) in end.rows.iter().zip((0..32).rev()) {
        assert_eq!((row.number, row.implied), (falling(index), false));
        assert_eq!(writing(row.number).len(), 9);
    }
    // Each one is resolved, and no other.
    for index in 0..40 {
        let behind = record(falling(index), LARGEST);
        let says = refusal_of(&[&log[109..], &behind].concat());
        assert_eq!(says.is_none(), index < 32, "{index}");
        assert!(index < 32 || says == Some((6, used)));
    }
    for low in [0, 1, 111, LIMIT & 0xFFFF_FFFF, LIMIT - 1] {
        let says = refusal_of(&[&log[109..], &record(low, b"")].concat());
        assert_eq!(says, if low == 0 { None } else { Some((6, used)) });
    }
    // 7 for a further one; none for a held one, a removal, or in its room.
    let behind = |number, uri: &[u8]| record(falling(0), &[&writing(number), uri].concat());
    for further in [1, 2, 111, falling(32), LIMIT - 1, 0xFFFF_FFFF] {
        let one = behind(further, b"b:");
        let bytes = [&log[109..], &one].concat();
        assert_eq!(refusal_of(&bytes), Some((7, used)));
        for before in [behind(further, b""), behind(falling(9), b"b:")] {
            let bytes = [&log[109..], &before, &one].concat();
            assert_eq!(refusal_of(&bytes), Some((7, used + before.len())));
        }
        let bytes = [&log[109..], &behind(falling(9), b""), &one].concat();
        assert_eq!(refusal_of(&bytes), None);
    }
}

#[test]
fn requests_where_32_numbers_of_nine_bytes_are_held() {
    let (full, used) = full_of_nine();
    let mut buf = full.clone();
    assert_eq!(append(&mut buf, used, b"b:", b""), refused(7, used));
    for further in [1, 2, 111, falling(32), LIMIT - 1] {
        assert_eq!(assign(&mut buf, used, further, b"b:"), refused(7, used));
    }
    for over in [LIMIT + 1, LIMIT + 2, u64::MAX] {
        assert_eq!(assign(&mut buf, used, over, b"b:"), refused(10, 0));
        assert_eq!(assign(&mut buf, used, over, b""), refused(10, 0));
    }
    assert_eq!(buf, full);
}

#[test]
fn records_are_written_under_numbers_of_nine_bytes() {
    let (mut buf, used) = full_of_nine();
    // A held URI, a held number, a removal.
    let mut at = used;
    for (answer, written) in [
        (
            append(&mut buf, at, b"a:31", b"Q"),
            record(falling(31), b"Q"),
        ),
        (
            assign(&mut buf, at + 11, falling(9), b"a:31"),
            record(falling(0), &[&writing(falling(9))[..], b"a:31"].concat()),
        ),
        (
            assign(&mut buf, at + 34, falling(5), b""),
            record(falling(0), &writing(falling(5))),
        ),
    ] {
        let end = at + written.len();
        assert_eq!(
            answer,
            Ok(Appended {
                place: at,
                used: end
            })
        );
        assert_eq!(buf[at..end], written);
        at = end;
    }
    // The removed one's room goes to the smallest number from 1 up.
    let place = append(&mut buf, at, b"b:", b"").unwrap().place;
    assert_eq!(buf[at..place], record(falling(0), b"\x01b:"));
    assert_eq!(&buf[place..place + 2], b"\x01\x01");
    // Two hold a:31 now, and the smaller is used.
    append(&mut buf, place + 2, b"a:31", b"").unwrap();
    assert_eq!(buf[place + 2..][..10], record(falling(31), b""));
}

#[test]
fn stated_numbers() {
    let (mut bad, mut good) = (vec![0; 20], book(&[]));
    let header = good.clone();
    // Over the limit: 10, a removal too, ahead of the walk and of 11, 7 and 12.
    for number in [0, LIMIT + 1, LIMIT + 2, LIMIT + 112, u64::MAX - 1, u64::MAX] {
        for uri in [
            &b""[..],
            b"a:",
            b"a",
            b"urn:lozizol:type",
            b"urn:lozizol:header",
        ] {
            assert_eq!(assign(&mut bad, 20, number, uri), refused(10, 0));
            assert_eq!(assign(&mut bad, 21, number, uri), refused(1, 0));
            assert_eq!(assign(&mut good, 109, number, uri), refused(10, 0));
        }
    }
    // Within it: the walk's refusal, or 12.
    for (number, _) in POWERS {
        for uri in [&b""[..], b"a:", b"urn:lozizol:type"] {
            assert_eq!(assign(&mut bad, 20, number, uri), refused(2, 0));
            assert_eq!(assign(&mut good, 109, number, uri), refused(12, 109));
        }
        for uri in [&b"a"[..], b"urn:lozizol:header", b"urn:lozizol:deleted"] {
            assert_eq!(assign(&mut good, 109, number, uri), refused(10, 0));
        }
    }
    assert_eq!((bad, good), (vec![0; 20], header));
    // 11 comes before 12, and so does 7, at the used length.
    let mut none = book(&[&assigns(1, b"")]);
    assert_eq!(assign(&mut none, 112, LIMIT, b"a:"), refused(11, 0));
    assert_eq!(assign(&mut none, 112, LIMIT, b""), refused(11, 0));
    let mut full = book(&[&many(2, 30)]);
    assert_eq!(assign(&mut full, 259, LIMIT, b"a:"), refused(7, 259));
    assert_eq!(assign(&mut full, 259, LIMIT, b""), refused(12, 259));
}

#[test]
fn the_whole_number_counts() {
    // Alike 0, 1 and 111 in their low bytes, as types.
    for high in [1 << 8, 1 << 16, 1 << 28, 1 << 32, 1 << 35, 1 << 56, 1 << 62] {
        for low in [0, 1, 111] {
            let number = high + low;
            let bytes = record(number, b"\x02a:");
            assert_eq!(refusal_of(&bytes), Some((6, 109)), "{number}");
            // As assigned numbers: not 0, and no place for a header.
            let front = assigns(number, b"a:");
            let plain = record(number, b"\x80");
            assert_eq!(refusal_of(&[&front[..], &plain].concat()), None);
            let header = assigns(number, b"urn:lozizol:header");
            assert_eq!(refusal_of(&header), Some((5, 109)));
            let mut buf = book(&[&[0; 50]]);
            let answer = assign(&mut buf, 109, number, b"urn:lozizol:header");
            assert_eq!(answer, refused(10, 0));
            // 1 and 111 stay when it is removed, and it when they are.
            let bytes = [&front[..], &assigns(number, b""), &front, &book(&[])].concat();
            assert_eq!(refusal_of(&bytes), None);
            let bytes = [&front[..], &assigns(111, b""), &assigns(1, b""), &plain].concat();
            assert_eq!(refusal_of(&bytes), None);
        }
    }
    // Only the removals' own numbers are gone.
    let front = [assigns(5, b"a:"), assigns((1 << 32) + 5, b"b:")].concat();
    let last = [record(5, b""), record((1 << 32) + 5, b"")];
    let uris = |removed| {
        let log = book(&[&front, &assigns(removed, b""), &last[0], &last[1]]);
        items(&log).0.len()
    };
    // A header, three assignments, then what is read up to the refusal.
    assert_eq!([5, (1 << 32) + 5, (1 << 33) + 5].map(uris), [4, 5, 6]);
}

#[test]
fn rows_of_any_number_from_outside() {
    let fits = |number: u64, is_implied: bool| {
        let log = book(&[b"a:", &record(number.min(LIMIT), b"Q")]);
        let mut reading = Reading::fresh();
        (reading.position, reading.held) = (111, 1);
        reading.rows[0] = if is_implied {
            implied(number)
        } else {
            written(number, (109, 2), (0, 1))
        };
        let (answer, next) = reading.step(&log, log.len());
        assert!(answer.is_ok() || next == reading);
        answer.map(|_| next.position)
    };
    assert_eq!(fits(0, false), refused(13, 0));
    for number in [1, 111].into_iter().chain(POWERS.map(|(number, _)| number)) {
        let behind = 111 + 2 + writing(number).len();
        assert_eq!(fits(number, false), Ok(behind), "{number}");
    }
    for number in [LIMIT + 1, LIMIT + 2, LIMIT + 112, u64::MAX - 1, u64::MAX] {
        assert_eq!(fits(number, false), refused(13, 0), "{number}");
        assert_eq!(fits(number, true), refused(13, 0), "{number}");
    }
    // Implied: 1 (an assignment, here of Q to nothing: a removal) and 111 only.
    assert_eq!(fits(1, true), Ok(114));
    assert_eq!(fits(111, true), refused(3, 111));
    for number in [0, 2, 110, 112, (1 << 32) + 1, (1 << 32) + 111, LIMIT] {
        assert_eq!(fits(number, true), refused(13, 0), "{number}");
    }
}

/// Takes the last of 32 rows out of use, all zero but for this number.
fn free_last_row(reading: &mut Reading, number: u64) {
    reading.held = 31;
    reading.rows[31] = Row {
        number,
        ..Row::default()
    };
}

#[test]
fn readings_with_32_numbers_of_nine_bytes() {
    let (buf, used) = full_of_nine();
    let (_, end, _) = items(&buf[..used]);
    assert_eq!(end.step(&buf, used).0, Ok(Item::End { place: used }));
    let changes: [fn(&mut Reading); 13] = [
        |r| r.rows[31].number = LIMIT + 1,
        |r| r.rows[31].number = u64::MAX,
        |r| r.rows[31].number = r.rows[30].number, // not rising strictly
        |r| r.rows[31].number = LIMIT & 0xFFFF_FFFF,
        |r| r.rows[0].number = 0,
        |r| r.rows[0].number = LIMIT,
        |r| r.rows[0].number = r.rows[1].number + 1,
        |r| r.rows[0].implied = true,
        |r| r.rows.swap(3, 4),
        |r| r.held = 31,
        |r| r.held = 33,
        |r| free_last_row(r, 1 << 32), // an unused row is zero in all of its number
        |r| free_last_row(r, LIMIT + 1),
    ];
    for (index, change) in changes.iter().enumerate() {
        let mut odd = end.clone();
        change(&mut odd);
        let answer = (refused(13, 0), odd.clone());
        assert_eq!(odd.step(&buf, used), answer, "{index}");
        // 1 comes first.
        assert_eq!(odd.step(&buf, usize::MAX).0, refused(1, 0));
    }
}

#[test]
fn readings_with_other_numbers_that_fit() {
    let (buf, used) = full_of_nine();
    let (_, end, _) = items(&buf[..used]);
    let changes: [fn(&mut Reading); 4] = [
        |r| r.rows[31].number = LIMIT,
        |r| r.rows[31].number = r.rows[30].number + 1,
        |r| r.rows[0].number = 1,
        |r| free_last_row(r, 0),
    ];
    for change in changes {
        let mut fine = end.clone();
        change(&mut fine);
        let answer = (Ok(Item::End { place: used }), fine.clone());
        assert_eq!(fine.step(&buf, used), answer);
    }
}

#[test]
fn types_of_nine_bytes_are_erased_and_wiped() {
    for (number, stores) in [(LIMIT, 10), (1 << 56, 9), (LIMIT - 127, 9)] {
        let front = assigns(number, b"a:");
        let tail = record(number, b"R");
        let mut buf = book(&[&front, &record(number, b"Q"), &tail]);
        let (used, place) = (buf.len(), 109 + front.len());
        let before = buf.clone();
        assert_eq!(erase(&mut buf, used, 109), refused(9, 109));
        // One store, at the first type byte; the other eight stay.
        assert_eq!(erase(&mut buf, used, place), Ok(place + 1));
        let mut erased = before.clone();
        erased[place + 1] = 0;
        assert_eq!(buf, erased);
        let list = entries(&buf);
        assert_eq!(list[2], (place + 11, b"a:".to_vec(), b"R".to_vec()));
        assert_eq!(erase(&mut buf, used, place), refused(8, place));
        // Each store on its own changes no list.
        for store in 0..stores {
            assert_eq!(entries(&buf), list, "{store}");
            assert_eq!(wipe(&mut buf, used, place, 1), Ok(1));
        }
        assert_eq!(entries(&buf), list);
        assert_eq!(buf[place..place + 11], [0; 11]);
        assert_eq!(wipe(&mut buf, used, place, 1), refused(8, place));
        assert_eq!(wipe(&mut erased, used, place, 99), Ok(stores));
        assert_eq!(erased, buf);
    }
}

#[test]
fn random_calls_keep_the_demands() {
    let mut random = Random(0x9E37_79B9_7F4A_7C15);
    let uris: [&[u8]; 7] = [
        b"a:",
        b"b:x",
        b"c:1",
        b"",
        b"urn:lozizol:type",
        b"urn:lozizol:header",
        b"bad",
    ];
    let mut erased = 0;
    for _ in 0..2_000 {
        let mut buf = book(&[&[0xAA; 120]]);
        let mut used = 109;
        for _ in 0..25 {
            let (before, list) = (buf.clone(), entries(&buf[..used]));
            let place = random.below(used + 2);
            let uri = random.pick(&uris);
            let refused = match random.below(4) {
                0 => match append(&mut buf, used, uri, b"dd") {
                    Err(_) => true,
                    Ok(Appended { place, used: end }) => {
                        let now = entries(&buf[..end]);
                        assert_eq!(now[..list.len()], list);
                        assert!(now.len() <= list.len() + 2);
                        assert_eq!(now.last(), Some(&(place, uri.to_vec(), b"dd".to_vec())));
                        assert_eq!(buf[..used], before[..used]);
                        assert_eq!(buf[end..], before[end..]);
                        used = end;
                        false
                    }
                },
                1 => {
                    let numbers = [0, 1, 2, 3, 111, 128, 70_000, 1 << 32, LIMIT, LIMIT + 1];
                    let number = random.pick(&numbers);
                    match assign(&mut buf, used, number, uri) {
                        Err(_) => true,
                        Ok(Appended { place, used: end }) => {
                            assert_eq!((place, entries(&buf[..end]).len()), (used, list.len() + 1));
                            used = end;
                            false
                        }
                    }
                }
                2 => match erase(&mut buf, used, place) {
                    Err(_) => true,
                    Ok(_) => {
                        let mut fewer = list.clone();
                        fewer.retain(|entry| entry.0 != place);
                        assert_eq!(fewer.len() + 1, list.len());
                        assert_eq!(entries(&buf[..used]), fewer);
                        erased += 1;
                        false
                    }
                },
                _ => match wipe(&mut buf, used, place, random.below(4)) {
                    Err(_) => true,
                    Ok(stores) => {
                        let differ = buf.iter().zip(&before).filter(|(a, b)| a != b);
                        assert_eq!(differ.count(), stores);
                        assert_eq!(entries(&buf[..used]), list);
                        false
                    }
                },
            };
            assert!(!refused || buf == before);
            check_declared(&buf[..used], &items(&buf[..used]).0);
        }
    }
    assert!(erased > 50, "{erased}");
}

/// Whether 14, 15 and 16 name a byte that can be the one at fault.
fn check_byte(buf: &[u8], Refusal { number, place }: Refusal) {
    match number {
        14 => assert_eq!(buf[place], 0x80),
        15 => {
            // The fourth byte of a size or the ninth of a type.
            let long = [4, 9].map(|bytes| &buf[place + 1 - bytes..=place]);
            assert!(long
                .iter()
                .any(|bytes| bytes[0] != 0x80 && bytes.iter().all(|&byte| byte >= 0x80)));
        }
        16 => {
            let size = (1..9).find(|&size| usize::from(buf[place - size]) == size);
            let body = &buf[place + 1 - size.unwrap()..=place];
            assert_ne!(body[0], 0x80);
            assert!(body.iter().all(|&byte| byte >= 0x80));
        }
        _ => {}
    }
}

/// The fit of a plain reading in the papers' words, by numbers that cannot
/// overflow.
fn fits(reading: &Reading, used: usize) -> bool {
    let (position, count) = (reading.position as i128, reading.count as i128);
    if position > used as i128 || count > position || reading.held > 32 {
        return false;
    }
    let (rows, unused) = reading.rows.split_at(reading.held);
    let mut before = 0;
    for row in rows {
        let rises = row.number > before && row.number <= LIMIT;
        before = row.number;
        let [place, length] = [row.place, row.length].map(i128::from);
        let [declared_place, declared_number] =
            [row.declared_place, row.declared_number].map(i128::from);
        let fine = if row.implied {
            let none = (declared_place, declared_number) == (0, 0);
            matches!(row.number, 1 | 111) && (place, length) == (0, 0) && none
        } else {
            let both = declared_place < position && declared_number != 0;
            (1..=255).contains(&length) && place + length <= position && both
        };
        if !(rises && fine) {
            return false;
        }
    }
    unused.iter().all(|row| *row == Row::default())
}

#[test]
fn any_bytes_and_any_reading_end_in_an_answer() {
    let mut random = Random(0xD1B5_4A32_D192_ED03);
    let bytes = [
        0, 0, 0, 0, 1, 1, 2, 3, 4, 5, 0x6F, 0x7F, 0x80, 0x81, 0xFF, b'a', b':',
    ];
    // For types of many bytes.
    let long = [0, 8, 9, 10, 0x7F, 0x80, 0x81, 0xFF, 0xFF, 0xFF, 0xFF];
    let odd = [0, 1, 2, 110, 125, 255, 256, u32::MAX, u32::MAX - 1];
    let numbers = [0, 1, 2, 111, 1 << 32, LIMIT - 1, LIMIT, LIMIT + 1, u64::MAX];
    let usual = [implied(1), written(2, (0, 2), (1, 1)), implied(111)];
    let (mut seen, mut fitting) = ([0; 17], 0);
    for _ in 0..60_000 {
        let from = random.pick(&[&bytes[..], &long]);
        let tail: Vec<u8> = (0..16).map(|_| random.pick(from)).collect();
        let mut buf = book(&[&tail]);
        let used = random.pick(&[0, 109, 117, 124, 125, 125, 125, 126, usize::MAX]);
        let mut reading = Reading::fresh();
        reading.position = random.pick(&[0, 50, 109, 112, 125, 126, usize::MAX]);
        reading.count = random.pick(&[0, 1, 126, usize::MAX]);
        reading.held = random.pick(&[0, 0, 1, 2, 3, 32, 33, usize::MAX]);
        for row in &mut reading.rows[..random.below(4)] {
            row.number = random.pick(&numbers);
            row.implied = random.below(2) == 0;
            row.place = random.pick(&odd);
            row.length = random.pick(&odd);
            row.declared_place = random.pick(&odd);
            row.declared_number = random.pick(&odd);
        }
        if random.below(2) == 0 {
            // All is well there but, it may be, for where one was declared.
            reading.held = 3;
            reading.rows = Reading::fresh().rows;
            reading.rows[..3].copy_from_slice(&usual);
            let row = &mut reading.rows[random.below(4)];
            if random.below(3) == 0 {
                row.declared_place = random.pick(&[0, 1, 108, 109, 112, 124, u32::MAX]);
                row.declared_number = random.pick(&[0, 1, 2, u32::MAX]);
            }
        }
        let (answer, next) = reading.step(&buf, used);
        if used <= 125 {
            let fit = fits(&reading, used);
            assert_eq!(answer != refused(13, 0), fit, "{reading:?}");
            fitting += usize::from(fit && reading.held > 0);
        }
        assert!(answer.is_err() || fits(&next, used));
        match answer {
            Ok(Item::End { .. }) => assert_eq!(next, reading),
            Ok(_) => assert!(next.position > reading.position && next.position <= used),
            Err(refusal) => {
                assert_eq!(next, reading);
                check_byte(&buf, refusal);
                seen[usize::from(refusal.number)] += 1;
            }
        }
        let before = buf.clone();
        let place = random.pick(&[0, 109, 112, 124, 125, usize::MAX]);
        let refusals = [
            append(&mut buf, used, b"a:", b"1").err(),
            assign(&mut buf, used, 3, b"").err(),
            erase(&mut buf, used, place).err(),
            wipe(&mut buf, used, place, 2).err(),
        ];
        for &refusal in refusals.iter().flatten() {
            check_byte(&before, refusal);
            seen[usize::from(refusal.number)] += 1;
        }
        assert!(refusals.contains(&None) || buf == before);
        listing(&buf);
    }
    for number in [1, 2, 3, 5, 6, 8, 9, 12, 13, 14, 15, 16] {
        assert!(seen[number] > 0, "{number}");
    }
    assert_eq!(seen[4], 0); // withdrawn
    assert!(fitting > 500, "{fitting}");
}

/// The reports of the live entries of a logbook that reads to its end.
fn declared(log: &[u8]) -> Vec<Report> {
    let (list, _, refusal) = items(log);
    assert_eq!(refusal, None);
    check_declared(log, &list);
    reports(&list)
}

/// What is reported of an implied number.
const NONE: (usize, usize) = (0, 0);

/// The rows in use of a reading that has read `log` up to the item at `place`.
/// Its unused rows are zero.
fn rows_at(log: &[u8], place: usize) -> Vec<Row> {
    let mut reading = Reading::fresh();
    while reading.position < place {
        let (answer, next) = reading.step(log, log.len());
        assert!(answer.is_ok(), "{answer:?}");
        reading = next;
    }
    assert_eq!(reading.position, place);
    let (rows, unused) = reading.rows.split_at(reading.held);
    assert!(unused.iter().all(|row| *row == Row::default()));
    rows.to_vec()
}

#[test]
fn where_the_mornings_epochs_were_declared() {
    let log = morning();
    let reports = [
        [(0, 1), NONE],
        [(109, 2), NONE],
        [(123, 3), (109, 2)],
        [(127, 4), NONE],
        [(141, 5), (127, 4)],
    ];
    assert_eq!(declared(&log), reports);
    let before = [implied(1), written(2, (112, 11), (109, 2)), implied(111)];
    let after = [implied(1), written(2, (130, 11), (127, 4)), implied(111)];
    assert_eq!(rows_at(&log, 109), [implied(1), implied(111)]);
    for place in [123, 127] {
        assert_eq!(rows_at(&log, place), before);
    }
    for place in [141, 145] {
        assert_eq!(rows_at(&log, place), after);
    }
    // M12: P8's number is 4 then, and that of its declaration 3.
    let mut buf = log.clone();
    assert_eq!(erase(&mut buf, 145, 123), Ok(124));
    let reports = [
        [(0, 1), NONE],
        [(109, 2), NONE],
        [(127, 3), NONE],
        [(141, 4), (127, 3)],
    ];
    assert_eq!(declared(&buf), reports);
    for _ in 0..3 {
        assert_eq!(wipe(&mut buf, 145, 123, 1), Ok(1));
        assert_eq!(declared(&buf), reports);
    }
    let after = [implied(1), written(2, (130, 11), (127, 3)), implied(111)];
    assert_eq!(rows_at(&buf, 145), after);
}

#[test]
fn a_reassignment_declares_anew() {
    let log = book(&[
        &assigns(2, b"a:"),
        b"\x02\x02P",
        &assigns(2, b"b:x"),
        b"\x02\x02Q",
    ]);
    let reports = [
        [(0, 1), NONE],
        [(109, 2), NONE],
        [(114, 3), (109, 2)],
        [(117, 4), NONE],
        [(123, 5), (117, 4)],
    ];
    assert_eq!(declared(&log), reports);
    let row = written(2, (120, 3), (117, 4));
    assert_eq!(rows_at(&log, 126), [implied(1), row, implied(111)]);
}

#[test]
fn the_same_uri_assigned_again_declares_anew() {
    let log = book(&[
        &assigns(2, b"a:"),
        b"\x02\x02P",
        &assigns(2, b"a:"),
        b"\x02\x02Q",
    ]);
    let reports = [
        [(0, 1), NONE],
        [(109, 2), NONE],
        [(114, 3), (109, 2)],
        [(117, 4), NONE],
        [(122, 5), (117, 4)],
    ];
    assert_eq!(declared(&log), reports);
    // Under two numbers the URI was declared twice, each by its own record.
    let log = book(&[
        &assigns(9, b"a:"),
        &assigns(3, b"a:"),
        b"\x01\x09\x01\x03\x01\x09",
    ]);
    let reports = [
        [(119, 4), (109, 2)],
        [(121, 5), (114, 3)],
        [(123, 6), (109, 2)],
    ];
    assert_eq!(declared(&log)[3..], reports);
}

#[test]
fn an_assignment_under_a_written_number() {
    // 5 is declared at 109, and 7 under it at 128; at 136 5 is assigned under
    // itself, which is then declared there.
    let log = book(&[
        &assigns(5, b"urn:lozizol:type"),
        &record(5, b"\x07a:"),
        b"\x02\x07P",
        &record(5, b"\x05b:"),
        b"\x02\x05Q",
        &assigns(5, b""),
    ]);
    let reports = [
        [(0, 1), NONE],
        [(109, 2), NONE],
        [(128, 3), (109, 2)],
        [(133, 4), (128, 3)],
        [(136, 5), (109, 2)],
        [(141, 6), (136, 5)],
        [(144, 7), NONE],
    ];
    assert_eq!(declared(&log), reports);
    let row = |uri, declared| written(5, uri, declared);
    assert_eq!(rows_at(&log, 136)[1], row((112, 16), (109, 2)));
    assert_eq!(rows_at(&log, 141)[1], row((139, 2), (136, 5)));
    // 1 too is declared once it is assigned; a removal of it reports the last.
    let log = book(&[
        &assigns(1, b"urn:lozizol:type"),
        &assigns(2, b"a:"),
        &assigns(1, b"urn:lozizol:type"),
        &assigns(1, b""),
        b"\x01\x02",
    ]);
    let reports = [
        [(0, 1), NONE],
        [(109, 2), NONE],
        [(128, 3), (109, 2)],
        [(133, 4), (109, 2)],
        [(152, 5), (133, 4)],
        [(155, 6), (128, 3)],
    ];
    assert_eq!(declared(&log), reports);
    let row = written(1, (136, 16), (133, 4));
    assert_eq!(rows_at(&log, 152)[0], row);
    let rows = [written(2, (131, 2), (128, 3)), implied(111)];
    assert_eq!(rows_at(&log, 155), rows);
}

#[test]
fn a_removal_and_a_new_assignment() {
    let log = book(&[
        &assigns(2, b"a:"),
        &assigns(3, b"c:"),
        b"\x02\x02P",
        &assigns(2, b""),
        &assigns(2, b""), // not held
        b"\x02\x03R",
        &assigns(2, b"a:"),
        b"\x02\x02Q",
    ]);
    let reports = [
        [(0, 1), NONE],
        [(109, 2), NONE],
        [(114, 3), NONE],
        [(119, 4), (109, 2)],
        [(122, 5), NONE],
        [(125, 6), NONE],
        [(128, 7), (114, 3)],
        [(131, 8), NONE],
        [(136, 9), (131, 8)],
    ];
    assert_eq!(declared(&log), reports);
    let other = written(3, (117, 2), (114, 3));
    for place in [125, 128, 131] {
        assert_eq!(rows_at(&log, place), [implied(1), other, implied(111)]);
    }
    let row = written(2, (134, 2), (131, 8));
    assert_eq!(rows_at(&log, 136), [implied(1), row, other, implied(111)]);
    // The last row in use is removed: nothing of it is left.
    let log = book(&[&assigns(200, b"a:"), &assigns(200, b"")]);
    assert_eq!(rows_at(&log, 119), [implied(1), implied(111)]);
}

#[test]
fn a_later_header_empties_what_was_declared() {
    let header = book(&[]);
    let log = book(&[
        &assigns(2, b"a:"),
        &header,
        &assigns(2, b"b:"),
        b"\x02\x02P",
    ]);
    let reports = [
        [(0, 1), NONE],
        [(109, 2), NONE],
        [(114, 3), NONE],
        [(223, 4), NONE],
        [(228, 5), (223, 4)],
    ];
    assert_eq!(declared(&log), reports);
    assert_eq!(rows_at(&log, 223), [implied(1), implied(111)]);
    // Where 111 or 1 was written, the header reports the first and ends both.
    let log = book(&[
        &assigns(111, b"urn:lozizol:header"),
        &assigns(1, b"urn:lozizol:type"),
        &header,
        &header,
        &assigns(2, b"a:"),
    ]);
    let reports = [
        [(0, 1), NONE],
        [(109, 2), NONE],
        [(130, 3), NONE],
        [(149, 4), (109, 2)],
        [(258, 5), NONE],
        [(367, 6), NONE],
    ];
    assert_eq!(declared(&log), reports);
    let rows = [
        written(1, (133, 16), (130, 3)),
        written(111, (112, 18), (109, 2)),
    ];
    assert_eq!(rows_at(&log, 149), rows);
    assert_eq!(rows_at(&log, 258), [implied(1), implied(111)]);
}

/// Two shots of 2, at 114 and 117, and one of 3, at 125; 2 is declared at 109
/// and 3 at 120.
fn three_shots() -> Vec<u8> {
    book(&[
        &assigns(2, b"a:"),
        b"\x02\x02P\x02\x02Q",
        &assigns(3, b"b:"),
        b"\x02\x03R",
    ])
}

#[test]
fn entries_erased_earlier_are_not_counted() {
    let mut buf = three_shots();
    assert_eq!(declared(&buf)[5], [(125, 6), (120, 5)]);
    for (place, number) in [(114, 4), (117, 3)] {
        assert_eq!(erase(&mut buf, 128, place), Ok(place + 1));
        let shot = [(125, number + 1), (120, number)];
        assert_eq!(declared(&buf).last(), Some(&shot));
        assert_eq!(wipe(&mut buf, 128, place, 9), Ok(2));
        assert_eq!(declared(&buf).last(), Some(&shot));
        let row = written(3, (123, 2), (120, number as u32));
        assert_eq!(rows_at(&buf, 125)[2], row);
    }
    // Padding and a deleted record before it are not counted either.
    let log = book(&[b"\x00\x00\x02\x00Z", &assigns(3, b"b:"), b"\x00\x01\x03"]);
    assert_eq!(declared(&log)[2], [(120, 3), (114, 2)]);
}

#[test]
fn entries_erased_behind_a_reading_stay_counted() {
    // Up to where the reading has come, what is erased, and what R reports.
    for (position, erased, report) in [
        (128, 117, None),
        (125, 114, Some([(125, 6), (120, 5)])),
        (120, 117, Some([(125, 6), (120, 5)])),
        (117, 117, Some([(125, 5), (120, 4)])),
        (117, 114, Some([(125, 6), (120, 5)])),
        (114, 117, Some([(125, 5), (120, 4)])),
        (0, 117, Some([(125, 5), (120, 4)])),
    ] {
        let mut buf = three_shots();
        let mut reading = Reading::fresh();
        let mut list = Vec::new();
        while reading.position < position {
            let (answer, next) = reading.step(&buf, 128);
            assert!(answer.is_ok(), "{answer:?}");
            reading = next;
        }
        assert_eq!(erase(&mut buf, 128, erased), Ok(erased + 1));
        while reading.position < 128 {
            let (answer, next) = reading.step(&buf, 128);
            list.push(answer.unwrap());
            reading = next;
        }
        assert_eq!(reports(&list).pop(), report, "{position} {erased}");
    }
}

#[test]
fn rows_keep_what_they_hold_when_others_come_and_go() {
    let (buf, used) = full_of_nine();
    let (list, end, _) = items(&buf[..used]);
    check_declared(&buf[..used], &list);
    // The first was declared at 109; then 111 and 1 were removed.
    for (row, index) in end.rows.iter().zip((0..32).rev()) {
        let declared = (row.declared_place, row.declared_number);
        if index == 0 {
            assert_eq!(declared, (109, 2));
        } else {
            // Size, type and number are in front of the URI.
            assert_eq!(declared, (row.place - 19, index + 4));
        }
    }
    // One in the middle goes, and then a smaller one comes.
    let mut more = buf.clone();
    let gone = assign(&mut more, used, falling(9), b"").unwrap();
    let came = assign(&mut more, gone.used, 7, b"b:").unwrap();
    let mut rows = end.rows.to_vec();
    assert_eq!(rows.remove(22).number, falling(9));
    let log = &more[..came.used];
    assert_eq!(rows_at(log, gone.used), rows);
    let uri = (came.used as u32 - 2, 2);
    rows.insert(0, written(7, uri, (gone.used as u32, 37)));
    assert_eq!(rows_at(log, came.used), rows);
    // A refused one leaves all as it was.
    let refused = [log, &record(falling(0), b"\x08b:")].concat();
    assert_eq!(rows_at(&refused, came.used), rows);
    assert_eq!(items(&refused).1.rows[..], rows);
}

#[test]
fn numbers_go_on_from_the_count_handed_in() {
    let log = book(&[&assigns(2, b"a:"), b"\x02\x02P"]);
    let before = Reading::fresh().step(&log, 117).1;
    for count in [0, 1, 2, 50, 108, 109] {
        let mut reading = before.clone();
        reading.count = count;
        let (first, next) = reading.step(&log, 117);
        let (second, end) = next.step(&log, 117);
        let list = [first.unwrap(), second.unwrap()];
        let declared = (109, count + 1);
        let expected = [[declared, NONE], [(114, count + 2), declared]];
        assert_eq!(reports(&list), expected);
        assert_eq!((next.count, end.count), (count + 1, count + 2));
        assert_eq!(next.rows[1].declared_number as usize, count + 1);
    }
    // As far as places and counts go.
    const MOST: usize = 16_777_216;
    let mut buf = vec![0; MOST - 5];
    buf.extend(assigns(2, b"a:"));
    let mut reading = before.clone();
    (reading.position, reading.count) = (MOST - 5, MOST - 5);
    let (answer, next) = reading.step(&buf, MOST);
    assert!(answer.is_ok());
    let far = (MOST as u32 - 5, MOST as u32 - 4);
    assert_eq!(next.rows[1], written(2, (MOST as u32 - 2, 2), far));
    assert_eq!(next.step(&buf, MOST).0, Ok(Item::End { place: MOST }));
}

/// Whether a reading at this position with this row alone fits or not.
fn check_row(row: Row, position: usize, fits: bool) {
    let log = book(&[&[0; 50]]);
    let mut reading = Reading::fresh();
    (reading.position, reading.held, reading.rows[0]) = (position, 1, row);
    let (answer, next) = reading.step(&log, log.len());
    assert_eq!(answer != refused(13, 0), fits, "{position} {row:?}");
    assert!(fits || next == reading);
}

#[test]
fn a_written_row_has_both_a_place_and_a_number() {
    let numbers = [0, 1, 2, 110, 111, 112, 65_536, u32::MAX - 1, u32::MAX];
    // The place is below the position, from 0 up, and not held against the URI's.
    for (position, place, below) in [
        (111, 0, true),
        (111, 1, true),
        (111, 108, true),
        (111, 109, true),
        (111, 110, true),
        (111, 111, false),
        (111, 112, false),
        (111, u32::MAX, false),
        (112, 111, true),
        (112, 112, false),
        (158, 157, true),
        (158, 158, false),
        (159, 158, true), // at the end
        (159, 159, false),
    ] {
        for number in numbers {
            for held in [1, 5, 111, LIMIT] {
                let row = written(held, (109, 2), (place, number));
                check_row(row, position, below && number != 0);
            }
        }
    }
    // As near to place 0 as a URI can be.
    check_row(written(5, (0, 1), (0, 1)), 1, true);
    check_row(written(5, (0, 1), (1, 1)), 1, false);
    check_row(written(5, (0, 1), (0, 0)), 1, false);
    check_row(written(5, (0, 1), (1, 1)), 2, true);
    // All else that makes a row fit stays.
    check_row(written(5, (109, 0), (109, 2)), 111, false);
    check_row(written(5, (110, 2), (109, 2)), 111, false);
    check_row(written(0, (109, 2), (109, 2)), 111, false);
}

#[test]
fn an_implied_row_has_neither() {
    for number in [1, 111] {
        for position in [0, 1, 2, 109, 111, 159] {
            check_row(implied(number), position, true);
            for (declared_place, declared_number) in [
                (0, 1),
                (1, 0),
                (1, 1),
                (108, 1),
                (109, 2),
                (0, u32::MAX),
                (u32::MAX, 0),
                (u32::MAX, u32::MAX),
            ] {
                let row = Row {
                    declared_place,
                    declared_number,
                    ..implied(number)
                };
                check_row(row, position, false);
            }
        }
    }
}

#[test]
fn unused_rows_are_zero_in_both() {
    let log = morning();
    for of in [Reading::fresh(), items(&log).1] {
        for index in of.held..32 {
            for (declared_place, declared_number) in
                [(0, 1), (1, 0), (1, 1), (u32::MAX, 0), (0, u32::MAX)]
            {
                let mut odd = of.clone();
                odd.rows[index] = Row {
                    declared_place,
                    declared_number,
                    ..Row::default()
                };
                assert_eq!(odd.step(&log, 145), (refused(13, 0), odd));
            }
        }
        assert!(of.step(&log, 145).0.is_ok());
    }
}

#[test]
fn each_row_is_judged_by_where_it_was_declared() {
    let (buf, used) = full_of_nine();
    let (_, end, _) = items(&buf[..used]);
    for index in 0..32 {
        for (place, number, fits) in [
            (used - 1, 1, true),
            (used, 1, false),
            (used - 1, 0, false),
            (0, u32::MAX, true),
        ] {
            let mut of = end.clone();
            of.rows[index].declared_place = place as u32;
            of.rows[index].declared_number = number;
            let answer = if fits {
                Ok(Item::End { place: used })
            } else {
                refused(13, 0)
            };
            assert_eq!(of.step(&buf, used), (answer, of), "{index}");
        }
    }
}

#[test]
fn what_is_handed_in_is_reported_as_it_is() {
    // An entry, an assignment, a removal of its own number, a header.
    let header = book(&[]);
    for (number, uri, behind) in [
        (5, &b"a:"[..], &b"\x02\x05Q"[..]),
        (5, b"urn:lozizol:type", b"\x04\x05\x07b:"),
        (5, b"urn:lozizol:type", b"\x02\x05\x05"),
        (5, b"urn:lozizol:type", b"\x04\x05\x05b:"),
        (111, b"urn:lozizol:header", &header),
    ] {
        let log = book(&[uri, behind]);
        let place = 109 + uri.len();
        for declared in [(0, 1), (7, u32::MAX), (place as u32 - 1, 3)] {
            let mut reading = Reading::fresh();
            (reading.position, reading.count, reading.held) = (place, 1, 1);
            reading.rows[0] = written(number, (109, uri.len() as u32), declared);
            let (answer, next) = reading.step(&log, log.len());
            let report = [(place, 2), (declared.0 as usize, declared.1 as usize)];
            assert_eq!(reports(&[answer.unwrap()]), [report]);
            // What it assigns was declared by it.
            let new = next.rows.iter().filter(|row| row.place as usize > place);
            for row in new {
                let declared = (row.declared_place, row.declared_number);
                assert_eq!(declared, (place as u32, 2));
            }
        }
    }
}

/// A call of a series, with its own request.
#[derive(Clone, Copy, Debug)]
enum Call {
    Append(&'static [u8]),
    Assign(u64, &'static [u8]),
    Erase(usize),
    Wipe(usize, usize),
    Step,
}

/// A logbook and a reading of it, with the list so far.
#[derive(Clone)]
struct Desk {
    buf: Vec<u8>,
    used: usize,
    reading: Reading,
    list: Vec<String>,
    ended: bool,
}

impl Desk {
    /// Makes a call and gives its answer; a step's is its item, with the bytes
    /// as they are then, and the reading.
    fn make(&mut self, call: Call) -> String {
        let (buf, used) = (&mut self.buf, self.used);
        let wrote = match call {
            Call::Append(uri) => append(buf, used, uri, b"dd"),
            Call::Assign(number, uri) => assign(buf, used, number, uri),
            Call::Erase(place) => return format!("{:?}", erase(buf, used, place)),
            Call::Wipe(place, limit) => return format!("{:?}", wipe(buf, used, place, limit)),
            Call::Step => return self.step(),
        };
        self.used = wrote.map_or(used, |wrote| wrote.used);
        format!("{wrote:?}")
    }

    fn step(&mut self) -> String {
        let (answer, next) = self.reading.step(&self.buf, self.used);
        let item = answer.unwrap();
        let says = format!("{item:?} {next:?}");
        if !self.ended {
            self.list.push(says.clone());
        }
        self.ended |= matches!(item, Item::End { .. });
        self.reading = next;
        says
    }

    /// Whether a call made now is late.
    fn is_late(&self, call: Call) -> bool {
        match call {
            _ if self.ended => true,
            Call::Erase(place) | Call::Wipe(place, _) => place < self.reading.position,
            _ => false,
        }
    }
}

/// A call picked for the desk as it is.
fn any_call(random: &mut Random, desk: &Desk) -> Call {
    let uris: [&[u8]; 6] = [b"a:", b"b:x", b"c:1", b"", b"urn:lozizol:type", b"bad"];
    let places: Vec<usize> = items(&desk.buf[..desk.used])
        .0
        .iter()
        .map(|item| match *item {
            Item::Padding { place } | Item::Deleted { place } => place,
            Item::Entry { place, .. } | Item::End { place } => place,
        })
        .collect();
    let place = random.pick(&places);
    match random.below(10) {
        0 | 1 => Call::Append(random.pick(&uris)),
        2 => Call::Assign(random.pick(&[0, 1, 2, 3, 111, 128]), random.pick(&uris)),
        3 | 4 => Call::Erase(place),
        5 => Call::Wipe(place, random.below(5)),
        _ => Call::Step,
    }
}

#[test]
fn demand_3_with_where_all_was_declared() {
    let mut random = Random(0x2545_F491_4F6C_DD1D);
    let (mut ends, mut behind) = (0, 0);
    for _ in 0..1_500 {
        let mut mixed = Desk {
            buf: book(&[&[0xAA; 200]]),
            used: 109,
            reading: Reading::fresh(),
            list: Vec::new(),
            ended: false,
        };
        for _ in 0..random.below(20) {
            let call = any_call(&mut random, &mixed);
            if !matches!(call, Call::Step) {
                mixed.make(call);
            }
        }
        let mut sorted = mixed.clone();
        let (mut early, mut late) = (Vec::new(), Vec::new());
        for _ in 0..random.pick(&[10, 30, 60]) {
            let call = any_call(&mut random, &mixed);
            let is_late = mixed.is_late(call);
            let answer = mixed.make(call);
            let erased = matches!(call, Call::Erase(_)) && answer.starts_with("Ok");
            behind += usize::from(erased && is_late && !mixed.ended);
            if is_late {
                late.push((call, answer));
            } else if !matches!(call, Call::Step) {
                early.push((call, answer));
            }
        }
        for (call, answer) in early {
            assert_eq!(sorted.make(call), answer, "{call:?}");
        }
        check_declared(
            &sorted.buf[..sorted.used],
            &items(&sorted.buf[..sorted.used]).0,
        );
        while !sorted.ended {
            sorted.step();
        }
        for (call, answer) in late {
            assert_eq!(sorted.make(call), answer, "{call:?}");
        }
        assert_eq!((mixed.used, &mixed.buf), (sorted.used, &sorted.buf));
        assert_eq!(mixed.list, sorted.list[..mixed.list.len()]);
        if mixed.ended {
            assert_eq!(mixed.list.len(), sorted.list.len());
            assert_eq!(mixed.reading, sorted.reading);
            ends += 1;
        }
    }
    assert!(ends > 300 && behind > 300, "{ends} {behind}");
}

/// The data of a shot.
fn shot(position: [i64; 3]) -> Vec<u8> {
    position.map(i64::to_be_bytes).concat()
}

/// The epoch that a URI gives, by a shot that stays where it is.
fn epoch(uri: &[u8], asked: i64) -> Result<i128, Refusal> {
    shift(uri, &shot([0; 3]), asked, [0; 3]).map(|shifted| shifted.epoch)
}

/// How a shot of epoch 2010 is refused.
fn refusal_of_shift(position: [i64; 3], asked: i64, motion: [i64; 3]) -> Option<Refusal> {
    shift(b"urn:ep:2010", &shot(position), asked, motion).err()
}

const OVER: Option<Refusal> = Some(Refusal {
    number: 26,
    place: 0,
});

#[test]
fn a_shot_is_moved() {
    // 700 and 720 move a point 504,000: seven years of 72 millimetres.
    let data = shot([5, -5, 0]);
    let moved = Shifted {
        epoch: 201_000,
        position: [5, -5, 0],
        point: [504_500, -504_500, 0],
        motion: [72_000, -72_000, 0],
    };
    let answer = shift(b"urn:ep:2010", &data, 201_700, [720, -720, 0]);
    assert_eq!(answer, Ok(moved));
    // 720 and 700 as well, and back: the difference has the other sign.
    let moved = shift(b"urn:ep:2010", &data, 201_720, [700, 0, 0]).unwrap();
    assert_eq!(moved.point, [504_500, -500, 0]);
    let moved = shift(b"urn:ep:2017", &data, 201_000, [720, -720, 1]).unwrap();
    assert_eq!(moved.point, [-503_500, 503_500, -700]);
    assert_eq!(moved.motion, [72_000, -72_000, 100]);
    // A hundredth of a year is a micrometre for each tenth of a millimetre.
    let moved = shift(b"urn:ep:2016.99", &data, 201_700, [1, -1, 7]).unwrap();
    assert_eq!((moved.epoch, moved.point), (201_699, [501, -501, 7]));
    // No difference and no motion: the point stays, the motion is yearly.
    let moved = shift(b"urn:ep:2017.00", &data, 201_700, [1, -1, 7]).unwrap();
    assert_eq!(
        (moved.point, moved.motion),
        ([500, -500, 0], [100, -100, 700])
    );
    let moved = shift(b"urn:ep:2010", &data, 201_700, [0; 3]).unwrap();
    assert_eq!((moved.point, moved.motion), ([500, -500, 0], [0; 3]));
}

#[test]
fn shots_of_a_logbook_are_moved_from_the_epoch_in_force() {
    let mut buf = book(&[&[0; 100]]);
    let data = shot([1_000, 2_000, -3_000]);
    let morning = append(&mut buf, 109, b"urn:ep:2010", &data).unwrap();
    let noon = assign(&mut buf, morning.used, 2, b"urn:ep:2017").unwrap();
    let later = append(&mut buf, noon.used, b"urn:ep:2017", &data).unwrap();
    let list = entries(&buf[..later.used]);
    let points: Vec<_> = list
        .iter()
        .map(|(_, uri, data)| shift(uri, data, 201_700, [720, 0, -720]))
        .map(|answer| answer.map(|shifted| shifted.point))
        .collect();
    let expected = [
        refused(24, 0), // the header
        refused(24, 0), // the assignments
        Ok([604_000, 200_000, -804_000]),
        refused(24, 0),
        Ok([100_000, 200_000, -300_000]),
    ];
    assert_eq!(points, expected);
}

#[test]
fn uris_of_an_epoch() {
    for (uri, hundredths) in [
        ("urn:ep:2010", 201_000),
        ("urn:ep:2017", 201_700),
        ("urn:ep:2017.00", 201_700),
        ("urn:ep:2017.01", 201_701),
        ("urn:ep:2017.10", 201_710),
        ("urn:ep:2017.50", 201_750),
        ("urn:ep:2017.99", 201_799),
        ("urn:ep:0000", 0),
        ("urn:ep:0000.00", 0),
        ("urn:ep:0000.01", 1),
        ("urn:ep:0001", 100),
        ("urn:ep:0123.45", 12_345),
        ("urn:ep:9999", 999_900),
        ("urn:ep:9999.99", 999_999),
    ] {
        let answer = epoch(uri.as_bytes(), hundredths);
        assert_eq!(answer, Ok(i128::from(hundredths)), "{uri}");
    }
    for year in 0..10_000 {
        let uri = format!("urn:ep:{year:04}");
        let hundredths = 100 * year;
        assert_eq!(
            epoch(uri.as_bytes(), hundredths),
            Ok(i128::from(hundredths))
        );
        for part in [0, 1, 9, 10, 99, year % 100] {
            let uri = format!("{uri}.{part:02}");
            let answer = epoch(uri.as_bytes(), hundredths);
            assert_eq!(answer, Ok(i128::from(hundredths + part)), "{uri}");
        }
    }
}

#[test]
fn other_uris() {
    for uri in [
        &b""[..],
        b"urn:ep:",
        b"urn:ep:201",
        b"urn:ep:20100",
        b"urn:ep:2010.",
        b"urn:ep:2010.5",
        b"urn:ep:2010.500",
        b"urn:ep:2010.50.",
        b"urn:ep:2010,50",
        b"urn:ep:201050",
        b"urn:ep:2010050",
        b"urn:ep:201.50",
        b"urn:ep:201.500",
        b"urn:ep:20100.50",
        b"urn:ep:.50",
        b"urn:ep:....",
        b"urn:ep:2010...",
        b"urn:ep:+201",
        b"urn:ep:-201",
        b"urn:ep:-2010",
        b"urn:ep:2010.+5",
        b"urn:ep:2010.-5",
        b"urn:ep:2e10",
        b"urn:ep:0x10",
        b"urn:ep:2010.5e",
        b"urn:ep: 2010",
        b" urn:ep:2010",
        b"urn:ep:2010 ",
        b"urn:ep:2010\0",
        b"urn:ep:2010\n",
        b"urn:ep:2010?",
        b"urn:ep:2010#",
        b"urn:ep:2010.50#",
        b"urn:ep:%32010",
        b"urn:ep:<2017>",
        b"urn:ep:20%1",
        b"urn:ep:urn:ep:2010",
        b"URN:ep:2010",
        b"urn:EP:2010",
        b"urn:epoch:2010",
        b"urn:ep2010",
        b"urn:ep::2010",
        b"urn:2010",
        b"2010",
        b"2010.50",
        b"urn:lozizol:type",
        b"urn:lozizol:header",
        b"urn:lozizol:deleted",
        "urn:ep:٢٠١٠".as_bytes(), // digits, but not bytes 30 to 39
        "urn:ep:２010".as_bytes(),
        &[b'2'; 300],
    ] {
        assert_eq!(epoch(uri, 201_000), refused(24, 0), "{uri:?}");
    }
    // Any byte in any place: digits may change, all else may not.
    for good in [&b"urn:ep:2010"[..], b"urn:ep:2010.50"] {
        for place in 0..good.len() {
            let digit = (7..11).contains(&place) || place > 11;
            for byte in 0..=255 {
                let mut uri = good.to_vec();
                uri[place] = byte;
                let fine = byte == good[place] || digit && byte.is_ascii_digit();
                // A year may be far from 2010, which is 26 and not 24.
                let other = epoch(&uri, 201_000) == refused(24, 0);
                assert_eq!(other, !fine, "{uri:?}");
            }
        }
        for length in 0..good.len() {
            let fine = length == 11;
            assert_eq!(epoch(&good[..length], 201_000).is_ok(), fine);
            assert_eq!(epoch(&good[good.len() - length..], 201_000), refused(24, 0));
        }
        for byte in 0..=255 {
            let behind = [good, &[byte]].concat();
            assert_eq!(epoch(&behind, 201_000), refused(24, 0));
            let before = [&[byte], good].concat();
            assert_eq!(epoch(&before, 201_000), refused(24, 0));
        }
    }
}

#[test]
fn the_bytes_of_a_shot() {
    for length in (0..100).chain([255, 256, 280, 65_535]) {
        let answer = shift(b"urn:ep:2010", &vec![0; length], 201_000, [0; 3]);
        let moved = Shifted {
            epoch: 201_000,
            position: [0; 3],
            point: [0; 3],
            motion: [0; 3],
        };
        let expected = if length == 24 {
            Ok(moved)
        } else {
            refused(25, 0)
        };
        assert_eq!(answer, expected, "{length}");
    }
    // The most significant byte first, and its top bit is the sign.
    for (bytes, value) in [
        (b"\x00\x00\x00\x00\x00\x00\x00\x00", Some(0)),
        (b"\x00\x00\x00\x00\x00\x00\x00\x01", Some(1)),
        (b"\x00\x00\x00\x00\x00\x00\x00\x7F", Some(127)),
        (b"\x00\x00\x00\x00\x00\x00\x00\x80", Some(128)),
        (b"\x00\x00\x00\x00\x00\x00\x00\xFF", Some(255)),
        (b"\x00\x00\x00\x00\x00\x00\x01\x00", Some(256)),
        (b"\x00\x00\x00\x00\x80\x00\x00\x00", Some(2_147_483_648)),
        (b"\x00\x00\x00\x17\x48\x76\xE7\xFF", Some(99_999_999_999)),
        (b"\x00\x00\x00\x17\x48\x76\xE8\x00", Some(100_000_000_000)),
        (b"\x00\x00\x00\x17\x48\x76\xE8\x01", None),
        (b"\x00\x00\x00\x20\x00\x00\x00\x00", None),
        (b"\x01\x00\x00\x00\x00\x00\x00\x00", None),
        (b"\x7F\xFF\xFF\xFF\xFF\xFF\xFF\xFF", None),
        (b"\x80\x00\x00\x00\x00\x00\x00\x00", None),
        (b"\x80\x00\x00\x00\x00\x00\x00\x01", None), // no sign beside a size
        (b"\x7F\xFF\xFF\xFF\xFF\xFF\xFF\xFE", None),
        (b"\xFF\xFF\xFF\xE8\xB7\x89\x17\xFF", None),
        (b"\xFF\xFF\xFF\xE8\xB7\x89\x18\x00", Some(-100_000_000_000)),
        (b"\xFF\xFF\xFF\xE8\xB7\x89\x18\x01", Some(-99_999_999_999)),
        (b"\xFF\xFF\xFF\xFF\x7F\xFF\xFF\xFF", Some(-2_147_483_649)),
        (b"\xFF\xFF\xFF\xFF\xFF\xFF\xFE\xFF", Some(-257)),
        (b"\xFF\xFF\xFF\xFF\xFF\xFF\xFF\x00", Some(-256)),
        (b"\xFF\xFF\xFF\xFF\xFF\xFF\xFF\x7F", Some(-129)),
        (b"\xFF\xFF\xFF\xFF\xFF\xFF\xFF\x80", Some(-128)),
        (b"\xFF\xFF\xFF\xFF\xFF\xFF\xFF\xFE", Some(-2)),
        (b"\xFF\xFF\xFF\xFF\xFF\xFF\xFF\xFF", Some(-1)),
    ] {
        for axis in 0..3 {
            let mut data = shot([0; 3]);
            data[8 * axis..8 * axis + 8].copy_from_slice(bytes);
            let answer = shift(b"urn:ep:2010", &data, 201_000, [0; 3]);
            let moved = |value: i128| {
                let mut position = [0; 3];
                position[axis] = value;
                Shifted {
                    epoch: 201_000,
                    position,
                    point: position.map(|coordinate| 100 * coordinate),
                    motion: [0; 3],
                }
            };
            let expected = value.map_or(refused(26, 0), |value| Ok(moved(value)));
            assert_eq!(answer, expected, "{bytes:X?}");
        }
    }
    // The three stand in order.
    let data = b"\x00\x00\x00\x01\x02\x03\x04\x05\
                 \xFF\xFF\xFF\xFE\x02\x03\x04\x05\
                 \x00\x00\x00\x00\x0A\x0B\x0C\x0D";
    let position = [
        0x01_02_03_04_05,
        0x02_03_04_05 - 0x02_00_00_00_00,
        0x0A_0B_0C_0D,
    ];
    let moved = shift(b"urn:ep:2010", data, 201_001, [1, 20, -300]).unwrap();
    assert_eq!(moved.position, position);
    assert_eq!(moved.motion, [100, 2_000, -30_000]);
    let [first, second, third] = position.map(|coordinate| 100 * coordinate);
    assert_eq!(moved.point, [first + 1, second + 20, third - 300]);
}

#[test]
fn the_order_of_a_shifts_refusals() {
    let (good, other) = (&b"urn:ep:2010"[..], &b"urn:ep:201"[..]);
    let (zero, far) = (shot([0; 3]), shot([i64::MAX, 0, i64::MIN]));
    for (asked, motion) in [
        (201_000, [0; 3]),
        (i64::MAX, [0; 3]),
        (201_000, [i64::MIN; 3]),
        (i64::MIN, [i64::MAX; 3]),
    ] {
        let fine = asked == 201_000 && motion == [0; 3];
        // 24 before all.
        for data in [&b""[..], &zero[..23], &zero, &far, &far.repeat(2)] {
            assert_eq!(shift(other, data, asked, motion), refused(24, 0));
        }
        // 25 before 26.
        for data in [&b""[..], &zero[1..], &far[..23], &far.repeat(2)] {
            assert_eq!(shift(good, data, asked, motion), refused(25, 0));
        }
        // Then each figure.
        assert_eq!(shift(good, &far, asked, motion), refused(26, 0));
        let answer = shift(good, &zero, asked, motion);
        assert_eq!(answer.is_ok(), fine);
        assert!(fine || answer == refused(26, 0));
    }
}

#[test]
fn the_bounds_of_a_shift() {
    let sized = |bound: i64| {
        [
            (bound - 1, None),
            (bound, None),
            (bound + 1, OVER),
            (1 - bound, None),
            (-bound, None),
            (-bound - 1, OVER),
            (i64::MAX, OVER),
            (i64::MIN, OVER),
            (i64::MIN + 1, OVER),
        ]
    };
    for axis in 0..3 {
        for (value, refusal) in sized(100_000_000_000) {
            let mut position = [0; 3];
            position[axis] = value;
            assert_eq!(refusal_of_shift(position, 201_000, [0; 3]), refusal);
            // With the other two at their bound: the three are judged apart.
            position = [100_000_000_000; 3];
            position[axis] = value;
            let motion = [10_000, -10_000, 10_000];
            assert_eq!(refusal_of_shift(position, 301_000, motion), refusal);
        }
        for (value, refusal) in sized(10_000) {
            let mut motion = [0; 3];
            motion[axis] = value;
            // Without a difference too.
            for asked in [201_000, 201_001, 301_000, 101_000] {
                assert_eq!(refusal_of_shift([0; 3], asked, motion), refusal);
            }
            motion = [-10_000; 3];
            motion[axis] = value;
            assert_eq!(refusal_of_shift([1; 3], 101_000, motion), refusal);
        }
    }
    // The difference, without a motion too; the asked epoch has no bound.
    for (uri, own) in [
        (&b"urn:ep:2010"[..], 201_000),
        (b"urn:ep:2010.01", 201_001),
        (b"urn:ep:0000", 0),
        (b"urn:ep:0999.99", 99_999),
        (b"urn:ep:9999.99", 999_999),
    ] {
        for (difference, refusal) in sized(100_000) {
            let asked = i64::saturating_add(own, difference);
            for motion in [[0; 3], [1, -1, 0], [10_000; 3]] {
                let answer = shift(uri, &shot([0; 3]), asked, motion);
                assert_eq!(answer.err(), refusal, "{own} {asked}");
            }
        }
    }
    for (uri, asked) in [
        (&b"urn:ep:0000"[..], -100_000),
        (b"urn:ep:9999.99", 1_099_999),
    ] {
        assert!(epoch(uri, asked).is_ok());
    }
    assert_eq!(epoch(b"urn:ep:0000", -100_001), refused(26, 0));
    assert_eq!(epoch(b"urn:ep:0000", 201_000), refused(26, 0));
    assert_eq!(epoch(b"urn:ep:9999", 201_000), refused(26, 0));
    // All at their bounds: below 2^53, so that a double holds it.
    let (most, large) = (10_001_000_000_000, 1 << 53);
    assert!(most < large);
    for (sign, asked) in [(1, 301_000), (-1, 301_000), (1, 101_000), (-1, 101_000)] {
        let turned = if asked > 201_000 { sign } else { -sign };
        let data = shot([sign * 100_000_000_000; 3]);
        let moved = shift(b"urn:ep:2010", &data, asked, [turned * 10_000; 3]).unwrap();
        assert_eq!(moved.point, [i128::from(sign) * most; 3]);
        assert_eq!(moved.motion, [i128::from(turned) * 1_000_000; 3]);
        let moved = shift(b"urn:ep:2010", &data, asked, [turned * -10_000; 3]).unwrap();
        assert_eq!(moved.point, [i128::from(sign) * 9_999_000_000_000; 3]);
    }
}

#[test]
fn the_ends_of_the_arguments() {
    let ends = [i64::MIN, i64::MIN + 1, -1, 0, 1, i64::MAX - 1, i64::MAX];
    let is_end = |value: i64| !(-1..=1).contains(&value);
    for uri in [&b"urn:ep:0000"[..], b"urn:ep:0000.01", b"urn:ep:9999.99"] {
        for coordinate in ends {
            for asked in ends {
                for yearly in ends {
                    let data = shot([coordinate, 0, coordinate]);
                    let answer = shift(uri, &data, asked, [0, yearly, yearly]);
                    let far = uri == b"urn:ep:9999.99" || is_end(asked);
                    let over = far || is_end(coordinate) || is_end(yearly);
                    assert_eq!(answer.is_err(), over);
                    assert!(!over || answer == refused(26, 0));
                }
            }
        }
    }
}

#[test]
fn random_shifts_keep_the_formula() {
    let mut random = Random(0xA076_1D64_78BD_642F);
    // Within the bound mostly, sometimes just past it or anywhere.
    let figure = |random: &mut Random, bound: i64| {
        let within = (random.below(2 * bound as usize + 1)) as i64 - bound;
        let anywhere = (random.below(usize::MAX) << 11) as i64;
        match random.below(40) {
            0 => random.pick(&[bound + 1, -bound - 1]),
            1 => anywhere,
            2..=5 => random.pick(&[bound, -bound, 0, 1, -1]),
            _ => within,
        }
    };
    let mut moved = 0;
    for _ in 0..100_000 {
        let own = random.below(1_000_000) as i64;
        let uri = format!("urn:ep:{:04}.{:02}", own / 100, own % 100);
        let position = [0; 3].map(|_| figure(&mut random, 100_000_000_000));
        let motion = [0; 3].map(|_| figure(&mut random, 10_000));
        let asked = figure(&mut random, 100_000).saturating_add(own);
        let data = shot(position);
        let over = position.iter().any(|p| p.unsigned_abs() > 100_000_000_000)
            || motion.iter().any(|m| m.unsigned_abs() > 10_000)
            || asked.abs_diff(own) > 100_000;
        let answer = shift(uri.as_bytes(), &data, asked, motion);
        if over {
            assert_eq!(answer, refused(26, 0));
            continue;
        }
        moved += 1;
        let shifted = answer.unwrap();
        assert_eq!(shifted.epoch, i128::from(own));
        assert_eq!(shifted.position, position.map(i128::from));
        for axis in 0..3 {
            // Within the bounds nothing passes an i64.
            let point = 100 * position[axis] + motion[axis] * (asked - own);
            assert_eq!(shifted.point[axis], i128::from(point));
            assert_eq!(shifted.motion[axis], i128::from(100 * motion[axis]));
            assert!(point.unsigned_abs() < 1 << 53);
        }
        // The short form of a whole year gives the same.
        if let Some(short) = uri.strip_suffix(".00") {
            assert_eq!(shift(short.as_bytes(), &data, asked, motion), answer);
        }
    }
    assert!(moved > 50_000 && moved < 90_000, "{moved}");
}
