//! Each refusal, as a call gives it, and its sentence.

mod common;

use common::{morning, FREE, UUID};
use logbook::{check, shift, Epoch, Logbook, Place, Reading, Refusal, Triple};

/// What a check says of a header with these bytes behind it.
fn behind_header(rest: &[u8]) -> Refusal {
    let mut buffer = vec![0; 109];
    Logbook::start(&mut buffer, &UUID, &FREE).expect("a header fits");
    buffer.extend_from_slice(rest);
    check(&buffer).expect_err("the rest is faulty")
}

/// A number, a place and a sentence, of one refusal.
#[track_caller]
fn says(refusal: Refusal, number: usize, place: Option<usize>, reason: &str) {
    let place = place.map(Place);
    assert_eq!((refusal.number(), refusal.place()), (number, place));
    let at = place.map_or(String::new(), |place| format!(" at place {place}"));
    assert_eq!(
        refusal.to_string(),
        format!("refusal {number}{at}: {reason}")
    );
    let found = Refusal::from_number(number, place.unwrap_or(Place(0)));
    assert_eq!(found, Some(refusal));
}

#[test]
fn used_length() {
    let refusal = Logbook::open(&mut [0; 8], 9).unwrap_err();
    says(
        refusal,
        1,
        None,
        "the used length is over the buffer's length or over 16,777,216 bytes",
    );
    let mut long = vec![0; 16_777_217];
    assert!(Logbook::open(&mut long, 16_777_216).is_ok());
    assert_eq!(Logbook::open(&mut long, 16_777_217).unwrap_err(), refusal);
    assert_eq!(check(&long), Err(refusal));
}

#[test]
fn incomplete() {
    let reason = "the record that starts there isn't whole at the used length";
    says(behind_header(b"\x03\x02P"), 2, Some(109), reason);
    says(check(b"").unwrap_err(), 2, Some(0), reason);
}

#[test]
fn not_header() {
    says(
        check(&[0; 109]).unwrap_err(),
        3,
        Some(0),
        "the header that starts there hasn't the header's form",
    );
}

#[test]
fn a_first_byte_80() {
    let reason = "the byte there is 80 and begins a size or a type, and none begins with 80";
    says(behind_header(b"\x80\x11"), 14, Some(109), reason);
    says(behind_header(b"\x80"), 14, Some(109), reason);
    says(behind_header(b"\0\x01\x80"), 14, Some(111), reason);
    says(behind_header(b"\x02\x80\x00"), 14, Some(110), reason);
}

#[test]
fn a_byte_too_many_asked_for() {
    let reason = "the byte there is the fourth of a size or the ninth of a type, \
                  the last one allowed, and it says that another follows";
    says(behind_header(b"\xFF\xFF\xFF\xFF"), 15, Some(112), reason);
    // In the first of these the type isn't over within its size either.
    for (size, last) in [(9, 0xFF), (10, 0xFF), (10, 0x01)] {
        let rest = [&[size][..], &[0xFF; 9], &[last]].concat();
        says(behind_header(&rest), 15, Some(118), reason);
    }
    let mut long = [&[0x81, 0x00, 0x81][..], &[0x80; 8]].concat();
    long.resize(2 + 128, 0);
    says(behind_header(&long), 15, Some(119), reason);
}

#[test]
fn a_type_past_its_size() {
    let reason = "the byte there is the last one of its record, \
                  and it says that the record's type goes on";
    says(behind_header(b"\0\x01\x81"), 16, Some(111), reason);
    // The byte behind the last of these records would be the type's ninth.
    for size in 1..=8 {
        let rest = [&[size][..], &[0xFF; 9][..usize::from(size) + 1]].concat();
        says(
            behind_header(&rest),
            16,
            Some(109 + usize::from(size)),
            reason,
        );
    }
}

#[test]
fn bad_assignment() {
    let reason = "the assignment that starts there has no number, a broken one or 0, \
                  or a URI that isn't allowed";
    let faulty: [&[u8]; 8] = [
        b"\x01\x01",
        b"\x02\x01\x00",
        b"\x04\x01\x02:a",
        // A broken number is none of 14, 15 and 16.
        b"\x02\x01\x80",
        b"\x0A\x01\xFF\xFF\xFF\xFF\xFF\xFF\xFF\xFF\xFF",
        b"\x0D\x01\x81\x80\x80\x80\x80\x80\x80\x80\x80\x00a:",
        b"\x05\x01\xFF\xFF\xFF\xFF",
        b"\x02\x01\x81",
    ];
    for rest in faulty {
        says(behind_header(rest), 5, Some(109), reason);
    }
}

#[test]
fn not_held() {
    let reason = "the record that starts there has a type number that isn't held";
    let others: [&[u8]; 4] = [
        b"\x03\x02P7",
        b"\x05\xFF\xFF\xFF\xFF\x01",
        b"\x09\xFF\xFF\xFF\xFF\xFF\xFF\xFF\xFF\x7F",
        // The lowest 32 bits are those of 1, which is held.
        b"\x05\x90\x80\x80\x80\x01",
    ];
    for rest in others {
        says(behind_header(rest), 6, Some(109), reason);
    }
}

#[test]
fn register_full() -> Result<(), Refusal> {
    let mut buffer = [0; 400];
    let mut log = Logbook::start(&mut buffer, &UUID, &FREE)?;
    for number in 2..=31 {
        log.assign(number, "a:")?;
    }
    let used = log.used();
    let refusal = log.append("urn:ep:2010", "P7").unwrap_err();
    let reason = "a further type number is to be assigned there, and 32 are held already";
    says(refusal, 7, Some(used), reason);
    assert_eq!(log.assign(32, "a:"), Err(refusal));
    assert_eq!(log.used(), used);

    // Removing one makes room; a held number may be reassigned, and any removed.
    log.assign(31, "b:")?;
    log.remove(77)?;
    log.remove(31)?;
    log.append("urn:ep:2010", "P7")?;
    Ok(())
}

#[test]
fn nothing_there_and_fixed() -> Result<(), Refusal> {
    let mut buffer = [0; 200];
    let mut log = morning(&mut buffer)?;
    let before = log.bytes().to_vec();
    let reason = "no live entry starts there that could be erased, \
                  or no deleted record that could be wiped";
    for place in [1, 124, 145, usize::MAX] {
        says(log.erase(Place(place)).unwrap_err(), 8, Some(place), reason);
        says(
            log.wipe_all(Place(place)).unwrap_err(),
            8,
            Some(place),
            reason,
        );
    }
    says(log.wipe(Place(0), 0).unwrap_err(), 8, Some(0), reason);
    let reason = "a header or an assignment starts there, and neither is ever erased";
    for place in [0, 109, 127] {
        says(log.erase(Place(place)).unwrap_err(), 9, Some(place), reason);
    }
    assert_eq!(log.bytes(), before);
    Ok(())
}

#[test]
fn bad_request() -> Result<(), Refusal> {
    let mut buffer = vec![0; 70_000];
    let mut log = Logbook::start(&mut buffer, &UUID, &FREE)?;
    let long_uri = format!("a:{}", "b".repeat(254));
    let requests = [
        log.append("", "P7"),
        log.append("urn:lozizol:type", "P7"),
        log.append("urn:lozizol:header", "P7"),
        log.append("urn:lozizol:deleted", "P7"),
        log.append("urn ep", "P7"),
        log.append(b"urn:\xFF", "P7"),
        log.append(&long_uri, "P7"),
        log.append("a:", vec![0; 65_536]),
        log.assign(0, "a:"),
        log.assign(9_223_372_036_854_775_808, "a:"),
        log.assign(u64::MAX, "a:"),
        log.assign(2, "urn:lozizol:header"),
        log.remove(0),
        log.remove(9_223_372_036_854_775_808),
        log.remove(u64::MAX),
    ];
    let reason = "the request asks for data over 65,535 bytes, a URI that isn't allowed, \
                  a number that is 0 or over 9,223,372,036,854,775,807, \
                  or a UUID or free part of another length";
    for answer in requests {
        says(answer.unwrap_err(), 10, None, reason);
    }
    log.append(&long_uri[..255], vec![0; 65_535])?;
    log.assign(9_223_372_036_854_775_807, "urn:lozizol:type")?;
    Ok(())
}

#[test]
fn no_type_number() -> Result<(), Refusal> {
    let mut buffer = [0; 200];
    let mut log = Logbook::start(&mut buffer, &UUID, &FREE)?;
    log.remove(1)?;
    let reason = "an assignment is needed, and no type number holds urn:lozizol:type";
    says(log.append("a:", "").unwrap_err(), 11, None, reason);
    says(log.remove(2).unwrap_err(), 11, None, reason);
    Ok(())
}

#[test]
fn no_room() -> Result<(), Refusal> {
    let reason = "the records don't fit there: the buffer ends, \
                  or the limit of 16,777,216 bytes is reached";
    let refusal = Logbook::start(&mut [0; 108], &UUID, &FREE).unwrap_err();
    says(refusal, 12, Some(0), reason);
    // The assignment alone would fit.
    let mut buffer = [0; 126];
    let mut log = Logbook::start(&mut buffer, &UUID, &FREE)?;
    let refusal = log.append("urn:ep:2010", "P7").unwrap_err();
    says(refusal, 12, Some(109), reason);
    assert_eq!(log.used(), 109);
    Ok(())
}

#[test]
fn not_fitting() -> Result<(), Refusal> {
    let mut buffer = [0; 200];
    let log = morning(&mut buffer)?;
    let mut reading = Reading::fresh();
    while let Some((_, next)) = log.step(&reading)? {
        reading = next;
    }
    let refusal = reading.step(log.bytes(), 144).unwrap_err();
    let reason = "the reading doesn't fit these bytes and this used length";
    says(refusal, 13, None, reason);
    Ok(())
}

#[test]
fn shots_that_are_not_shifted() {
    let motion = |x| Triple { x, y: 0, z: 0 };
    let shift = |uri: &str, data: &[u8], x| shift(uri, data, Epoch(201_000), motion(x));
    let reason = "the URI names no epoch: it isn't urn:ep: and four digits, \
                  or those, a point and two digits";
    let refused = shift("urn:ep:2010.5", &[0; 24], 0);
    says(refused.unwrap_err(), 24, None, reason);
    let reason = "the data isn't a shot's: that has 24 bytes";
    let refused = shift("urn:ep:2010", &[0; 23], 0);
    says(refused.unwrap_err(), 25, None, reason);
    let reason = "a coordinate is over 100,000,000,000 in size, \
                  the difference of the epochs over 100,000, or a motion over 10,000";
    let refused = shift("urn:ep:2010", &[0; 24], 10_001);
    says(refused.unwrap_err(), 26, None, reason);
    assert!(shift("urn:ep:2010", &[0; 24], 10_000).is_ok());
}

#[test]
fn a_refusal_ends_the_items() -> Result<(), Refusal> {
    let mut buffer = [0; 200];
    let log = morning(&mut buffer)?;
    let refusal = Refusal::Incomplete { place: Place(141) };
    let torn = &log.bytes()[..144];
    let mut items = logbook::items(torn).skip(4);
    assert_eq!(items.next(), Some(Err(refusal)));
    assert_eq!(items.next(), None);
    assert_eq!(logbook::entries(torn).count(), 5);
    Ok(())
}

#[test]
fn there_are_eighteen() {
    assert_eq!(Refusal::from_number(0, Place(0)), None);
    let numbers = (1..=100).filter(|&number| {
        let refusal = Refusal::from_number(number, Place(7)).expect("a refusal");
        assert_eq!(refusal.number(), number);
        !matches!(refusal, Refusal::Other { .. })
    });
    let numbers: Vec<usize> = numbers.collect();
    assert_eq!(
        numbers,
        [1, 2, 3, 5, 6, 7, 8, 9, 10, 11, 12, 13, 14, 15, 16, 24, 25, 26]
    );
}

#[test]
fn a_number_without_a_name_is_kept() {
    for number in [4, 17, 23, 27, usize::MAX] {
        let place = Place(7);
        says(
            Refusal::Other { number, place },
            number,
            Some(7),
            "this version has no name for that number",
        );
    }
}
