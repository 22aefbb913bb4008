//! The morning's file, built, read back, erased and wiped.

mod common;

use common::{morning, FREE, UUID};
use logbook::{
    Declared, Entry, EntryNumber, Item, Kind, Logbook, Place, Reading, Refusal, Summary,
};

const LISTING: &str = "\
0\t1\turn:lozizol:header\t107
109\t2\turn:lozizol:type\t12
123\t3\turn:ep:2010\t2
127\t4\turn:lozizol:type\t12
141\t5\turn:ep:2017\t2
end\t145
";

const WIPED_LISTING: &str = "\
0\t1\turn:lozizol:header\t107
109\t2\turn:lozizol:type\t12
127\t3\turn:lozizol:type\t12
141\t4\turn:ep:2017\t2
end\t145
";

fn listed(log: &Logbook<'_>) -> String {
    String::from_utf8_lossy(&logbook::listing(log.bytes())).into_owned()
}

#[test]
fn its_bytes() -> Result<(), Refusal> {
    let mut buffer = [0xEE; 200];
    let log = morning(&mut buffer)?;
    let mut expected = b"lozizol 0.5 5b0c7f1e-93d2-4a68-8e17-c64f20a9d3b5 ".to_vec();
    expected.extend_from_slice(&FREE);
    expected
        .extend_from_slice(b"\x0D\x01\x02urn:ep:2010\x03\x02P7\x0D\x01\x02urn:ep:2017\x03\x02P8");
    assert_eq!(log.bytes(), expected);
    let (buffer, used) = log.into_parts();
    assert!(buffer[used..].iter().all(|byte| *byte == 0xEE));
    Ok(())
}

#[test]
fn its_places_and_listing() -> Result<(), Refusal> {
    let mut buffer = [0; 200];
    let mut log = Logbook::start(&mut buffer, &UUID, &FREE)?;
    assert_eq!(log.append("urn:ep:2010", "P7"), Ok(Place(123)));
    assert_eq!(log.assign(2, "urn:ep:2017"), Ok(Place(127)));
    assert_eq!(log.append("urn:ep:2017", "P8"), Ok(Place(141)));
    assert_eq!(log.used(), 145);
    assert_eq!(listed(&log), LISTING);
    Ok(())
}

/// The record that gave a number its meaning.
fn declared(place: usize, number: usize) -> Option<Declared> {
    Some(Declared {
        place: Place(place),
        number: EntryNumber(number),
    })
}

#[test]
fn its_entries() -> Result<(), Refusal> {
    let mut buffer = [0; 200];
    let log = morning(&mut buffer)?;
    let entries = log.entries().collect::<Result<Vec<_>, _>>()?;
    assert_eq!(entries.len(), 5);
    assert_eq!(entries[0].kind, Kind::Header);
    assert_eq!(entries[0].uri, b"urn:lozizol:header");
    assert_eq!(entries[0].data.len(), 107);
    let assignment = Entry {
        place: Place(127),
        number: EntryNumber(4),
        type_place: Place(128),
        type_number: 1,
        uri: b"urn:lozizol:type",
        declared: None,
        data_place: Place(129),
        data: b"\x02urn:ep:2017",
        kind: Kind::Assignment {
            number: 2,
            uri: b"urn:ep:2017",
        },
    };
    assert_eq!(entries[3], assignment);
    let shot = Entry {
        place: Place(123),
        number: EntryNumber(3),
        type_place: Place(124),
        type_number: 2,
        uri: b"urn:ep:2010",
        declared: declared(109, 2),
        data_place: Place(125),
        data: b"P7",
        kind: Kind::Plain,
    };
    assert_eq!(entries[2], shot);
    let records: Vec<_> = entries.iter().map(|entry| entry.declared).collect();
    assert_eq!(
        records,
        [None, None, declared(109, 2), None, declared(127, 4)]
    );
    Ok(())
}

#[test]
fn erased_and_wiped() -> Result<(), Refusal> {
    let mut buffer = [0; 200];
    let mut log = morning(&mut buffer)?;
    let before = log.bytes().to_vec();
    assert_eq!(log.erase(Place(123)), Ok(Place(124)));
    assert_eq!(&log.bytes()[123..127], b"\x03\x00P7");
    assert_eq!(listed(&log), WIPED_LISTING);

    // Each single store: 125, 126, then the size at 123.
    for stored in [&b"\x03\x00\x007"[..], b"\x03\x00\x00\x00", b"\0\0\0\0"] {
        assert_eq!(log.wipe(Place(123), 1), Ok(1));
        assert_eq!(&log.bytes()[123..127], stored);
        assert_eq!(listed(&log), WIPED_LISTING);
    }
    assert_eq!(&log.bytes()[..123], &before[..123]);
    assert_eq!(&log.bytes()[127..], &before[127..]);
    Ok(())
}

#[test]
fn wiped_at_once() -> Result<(), Refusal> {
    let mut buffer = [0; 200];
    let mut log = morning(&mut buffer)?;
    let nothing = Refusal::NothingThere { place: Place(123) };
    assert_eq!(log.wipe_all(Place(123)), Err(nothing));
    log.erase(Place(123))?;
    assert_eq!(log.wipe(Place(123), 0), Ok(0));
    assert_eq!(log.wipe_all(Place(123)), Ok(3));
    assert_eq!(log.wipe_all(Place(123)), Err(nothing));
    let summary = Summary {
        entries: 4,
        padding: 4,
        deleted: 0,
        used: 145,
    };
    assert_eq!(logbook::check(log.bytes()), Ok(summary));
    Ok(())
}

#[test]
fn a_deleted_record_is_an_item() -> Result<(), Refusal> {
    let mut buffer = [0; 200];
    let mut log = morning(&mut buffer)?;
    log.erase(Place(123))?;
    log.wipe(Place(123), 1)?;
    let items = log.items().collect::<Result<Vec<_>, _>>()?;
    let deleted = Item::Deleted {
        place: Place(123),
        body_place: Place(124),
        body: b"\x00\x007",
    };
    assert_eq!(items[2], deleted);
    assert_eq!(items.len(), 5);
    log.wipe_all(Place(123))?;
    let padding = log
        .items()
        .filter(|item| matches!(item, Ok(Item::Padding { .. })));
    assert_eq!(padding.count(), 4);
    Ok(())
}

#[test]
fn a_removal_and_the_numbers_held() -> Result<(), Refusal> {
    let mut buffer = [0; 200];
    let mut log = morning(&mut buffer)?;
    let mut reading = Reading::fresh();
    assert_eq!(reading.held(log.bytes(), log.used()).count(), 0);
    while let Some((_, next)) = log.step(&reading)? {
        reading = next;
    }
    assert_eq!((reading.position(), reading.count()), (Place(145), 5));
    let held = reading.held(log.bytes(), log.used()).collect::<Vec<_>>();
    let expected: [(u64, &[u8]); 3] = [
        (1, b"urn:lozizol:type"),
        (2, b"urn:ep:2017"),
        (111, b"urn:lozizol:header"),
    ];
    assert_eq!(held, expected);

    // The reading goes on behind what is appended after its end.
    assert_eq!(log.remove(2), Ok(Place(145)));
    let Some((Item::Entry(removal), reading)) = log.step(&reading)? else {
        panic!("the removal is a live entry");
    };
    assert_eq!(
        removal.kind,
        Kind::Assignment {
            number: 2,
            uri: b""
        }
    );
    assert_eq!(removal.number, EntryNumber(6));
    assert_eq!(reading.held(log.bytes(), log.used()).count(), 2);
    Ok(())
}

/// 02 [5], "Bigger type numbers": what a recorder makes from its station's serial.
#[test]
fn a_number_of_nine_bytes() -> Result<(), Refusal> {
    let (serial, uri) = (9_223_372_036_854_775_807, &b"urn:station:7"[..]);
    let mut buffer = [0; 200];
    let mut log = morning(&mut buffer)?;
    assert_eq!(log.assign(serial, uri), Ok(Place(145)));
    assert_eq!(log.append(uri, "P9"), Ok(Place(169)));
    assert_eq!(
        &log.bytes()[170..],
        b"\xFF\xFF\xFF\xFF\xFF\xFF\xFF\xFF\x7FP9"
    );

    let entries = log.entries().collect::<Result<Vec<_>, Refusal>>()?;
    let number = serial;
    assert_eq!(entries[5].kind, Kind::Assignment { number, uri });
    assert_eq!((entries[6].type_number, entries[6].uri), (serial, uri));
    assert_eq!(
        (entries[6].data_place, entries[6].data),
        (Place(179), &b"P9"[..])
    );
    let mut reading = Reading::fresh();
    while let Some((_, next)) = log.step(&reading)? {
        reading = next;
    }
    let held = reading.held(log.bytes(), log.used());
    assert_eq!(held.last(), Some((serial, uri)));
    assert_eq!(log.remove(serial), Ok(Place(181)));
    Ok(())
}

#[test]
fn a_listing_in_pieces() -> Result<(), Refusal> {
    let mut buffer = [0; 200];
    let log = morning(&mut buffer)?;
    let mut listing = logbook::Listing::new(log.bytes());
    assert_eq!(listing.fill(&mut [0; 319]), 0);
    let mut text = Vec::new();
    let mut out = [0; 320];
    while !listing.is_over() {
        let length = listing.fill(&mut out);
        assert_eq!(
            out[..length].iter().filter(|byte| **byte == b'\n').count(),
            1
        );
        text.extend_from_slice(&out[..length]);
    }
    assert_eq!(String::from_utf8_lossy(&text), LISTING);
    assert_eq!(listing.fill(&mut out), 0);
    Ok(())
}

#[test]
fn a_listing_to_a_stream_says_how_it_ends() -> Result<(), Box<dyn std::error::Error>> {
    let mut buffer = [0; 200];
    let log = morning(&mut buffer)?;
    let mut text = Vec::new();
    assert!(logbook::write_listing(log.bytes(), &mut text)?);
    assert_eq!(String::from_utf8_lossy(&text), LISTING);
    text.clear();
    assert!(!logbook::write_listing(&log.bytes()[..144], &mut text)?);
    assert!(text.ends_with(b"127\t4\turn:lozizol:type\t12\nrefused\t2\t141\n"));
    text.clear();
    assert!(!logbook::write_listing(&vec![0; 65_537], &mut text)?);
    assert_eq!(text, b"refused\t1\t0\n");
    Ok(())
}
