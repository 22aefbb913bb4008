//! The C interface: what the header says of each answer, and arguments that fit nothing.

mod common;

use common::{morning, FREE, UUID};
use logbook::raw::{
    self, Appended, Erased, Item, Motion, Point, Reading, Row, Shifted, Started, Triple, UriAnswer,
    Wiped, IMPLIED_NAMES,
};
use logbook::{Logbook, Refusal};

const NO_ROW: Row = Row {
    number: 0,
    place: 0,
    length: 0,
};

/// An item of a kind at a place, with nothing else to say.
fn item(kind: usize, refusal: usize, place: usize) -> Item {
    Item {
        kind,
        refusal,
        place,
        number: 0,
        type_place: 0,
        data_place: 0,
        data_length: 0,
        row: NO_ROW,
        declared_place: 0,
        declared_number: 0,
        assigned: 0,
        assigned_place: 0,
    }
}

fn row(number: u64, place: u32, length: u32) -> Row {
    Row {
        number,
        place,
        length,
    }
}

#[test]
fn starting() {
    let started = |refusal, used| Started {
        refusal,
        place: 0,
        used,
    };
    let mut buf = [0xEE; 110];
    assert_eq!(raw::start(&mut buf, &UUID, &FREE), started(0, 109));
    assert_eq!(buf[109], 0xEE);
    let before = buf;
    assert_eq!(raw::start(&mut buf, &UUID[1..], &FREE), started(10, 0));
    assert_eq!(raw::start(&mut buf, &UUID, &FREE[1..]), started(10, 0));
    assert_eq!(raw::start(&mut buf, &[], &[]), started(10, 0));
    assert_eq!(raw::start(&mut buf[..108], &UUID, &FREE), started(12, 0));
    assert_eq!(raw::start(&mut [], &UUID, &FREE), started(12, 0));
    assert_eq!(buf, before);
}

#[test]
fn calls_that_write() -> Result<(), Refusal> {
    let mut buffer = [0; 200];
    let (buf, used) = morning(&mut buffer)?.into_parts();
    let appended = |refusal, place, used| Appended {
        refusal,
        place,
        used,
    };
    let answer = raw::append(buf, used, b"urn:ep:2017", b"P9");
    assert_eq!(answer, appended(0, 145, 149));
    // A refused call answers the used length that it was given, whatever that is.
    let answer = raw::append(buf, 1 << 40, b"a:", b"");
    assert_eq!(answer, appended(1, 0, 1 << 40));
    assert_eq!(raw::append(&mut [], 0, b"a:", b""), appended(2, 0, 0));
    assert_eq!(raw::assign(buf, used, 0, b"a:"), appended(10, 0, used));
    assert_eq!(raw::assign(buf, used, 3, b"a:"), appended(0, 145, 150));
    let erased = |refusal, place| Erased { refusal, place };
    assert_eq!(raw::erase(buf, used, 123), erased(0, 124));
    assert_eq!(raw::erase(buf, used, 109), erased(9, 109));
    assert_eq!(raw::erase(buf, 201, 109), erased(1, 0));
    let wiped = |refusal, place, stores| Wiped {
        refusal,
        place,
        stores,
    };
    assert_eq!(raw::wipe(buf, used, 123, 2), wiped(0, 0, 2));
    assert_eq!(raw::wipe(buf, used, 123, usize::MAX), wiped(0, 0, 1));
    assert_eq!(raw::wipe(buf, used, 123, usize::MAX), wiped(8, 123, 0));
    Ok(())
}

#[test]
fn the_items_of_the_morning() -> Result<(), Refusal> {
    let mut buffer = [0; 200];
    let mut log = morning(&mut buffer)?;
    log.erase(logbook::Place(141))?;
    let mut items = Vec::new();
    let mut reading = raw::fresh();
    loop {
        let step = raw::step(log.bytes(), log.used(), reading);
        items.push(step.item);
        if step.item.kind == raw::END {
            assert_eq!(step.reading, reading);
            break;
        }
        reading = step.reading;
    }
    let live = |kind, place, number, length, row| Item {
        number,
        type_place: place + 1,
        data_place: place + 2,
        data_length: length,
        row,
        ..item(kind, 0, place)
    };
    let assignment = |place, number| Item {
        assigned: 2,
        assigned_place: place + 3,
        ..live(raw::ASSIGNMENT, place, number, 12, row(1, 0, 0))
    };
    let deleted = Item {
        type_place: 142,
        data_place: 142,
        data_length: 3,
        ..item(raw::DELETED, 0, 141)
    };
    let expected = [
        live(raw::HEADER, 0, 1, 107, row(111, 0, 0)),
        assignment(109, 2),
        Item {
            declared_place: 109,
            declared_number: 2,
            ..live(raw::ENTRY, 123, 3, 2, row(2, 112, 11))
        },
        assignment(127, 4),
        deleted,
        item(raw::END, 0, 145),
    ];
    assert_eq!(items, expected);
    assert_eq!((reading.count, reading.held), (4, 3));
    assert_eq!(reading.numbers[..4], [1, 2, 111, 0]);
    assert_eq!(reading.places[..4], [0, 130, 0, 0]);
    assert_eq!(reading.lengths[..4], [0, 11, 0, 0]);
    assert_eq!(reading.declared_places[..4], [0, 127, 0, 0]);
    assert_eq!(reading.declared_numbers[..4], [0, 4, 0, 0]);
    Ok(())
}

#[test]
fn numbers_of_nine_bytes() {
    let most = raw::NUMBER_LIMIT;
    let mut buf = [0; 200];
    raw::start(&mut buf, &UUID, &FREE);
    let done = raw::assign(&mut buf, 109, most, b"a:");
    assert_eq!((done.refusal, done.place, done.used), (0, 109, 122));
    let done = raw::append(&mut buf, 122, b"a:", b"P7");
    assert_eq!((done.refusal, done.place, done.used), (0, 122, 134));
    let header = raw::step(&buf, 134, raw::fresh());
    let assignment = raw::step(&buf, 134, header.reading);
    let expected = Item {
        number: 2,
        type_place: 110,
        data_place: 111,
        data_length: 11,
        row: row(1, 0, 0),
        assigned: most,
        assigned_place: 120,
        ..item(raw::ASSIGNMENT, 0, 109)
    };
    assert_eq!(assignment.item, expected);
    assert_eq!(assignment.reading.numbers[..4], [1, 111, most, 0]);
    assert_eq!(assignment.reading.places[..4], [0, 0, 120, 0]);
    let entry = raw::step(&buf, 134, assignment.reading);
    let expected = Item {
        number: 3,
        type_place: 123,
        data_place: 132,
        data_length: 2,
        row: row(most, 120, 2),
        declared_place: 109,
        declared_number: 2,
        ..item(raw::ENTRY, 0, 122)
    };
    assert_eq!(entry.item, expected);
}

#[test]
fn rows_of_nine_bytes() -> Result<(), Refusal> {
    let mut buffer = [0; 200];
    let mut log = Logbook::start(&mut buffer, &UUID, &FREE)?;
    log.append("a:", "")?;
    log.assign(raw::NUMBER_LIMIT, "b:")?;
    let entry = log.append("b:", "")?.0;
    let mut reading = raw::fresh();
    while reading.position < entry {
        reading = raw::step(log.bytes(), log.used(), reading).reading;
    }
    assert_eq!(reading.numbers[..5], [1, 2, 111, raw::NUMBER_LIMIT, 0]);
    let step = |number| {
        let mut other = reading;
        other.numbers[3] = number;
        raw::step(log.bytes(), log.used(), other).item
    };
    assert_eq!(step(raw::NUMBER_LIMIT).kind, raw::ENTRY);
    // The lowest 32 bits of the second are those of the entry's type.
    for number in [112, u32::MAX.into(), raw::NUMBER_LIMIT - 1] {
        assert_eq!(step(number), item(raw::REFUSED, 6, entry));
    }
    for number in [0, 111, raw::NUMBER_LIMIT + 1, u64::MAX] {
        assert_eq!(step(number), item(raw::REFUSED, 13, 0));
    }
    Ok(())
}

#[test]
fn readings_that_do_not_fit() -> Result<(), Refusal> {
    let mut buffer = [0; 200];
    let log = morning(&mut buffer)?;
    let good = raw::step(log.bytes(), log.used(), raw::fresh()).reading;
    let changed = |change: fn(&mut Reading)| {
        let mut reading = good;
        change(&mut reading);
        reading
    };
    let readings = [
        changed(|reading| reading.position = 146),
        changed(|reading| reading.position = usize::MAX),
        changed(|reading| reading.count = 110),
        changed(|reading| reading.held = 33),
        changed(|reading| reading.held = usize::MAX),
        changed(|reading| reading.held = 1),
        changed(|reading| reading.numbers[1] = 1),
        changed(|reading| reading.numbers[0] = 2),
        changed(|reading| reading.places[0] = 1),
        changed(|reading| reading.lengths[0] = 256),
        changed(|reading| (reading.places[0], reading.lengths[0]) = (105, 5)),
        changed(|reading| (reading.places[0], reading.lengths[0]) = (u32::MAX, 2)),
        changed(|reading| reading.numbers[1] = 1 << 32 | 111),
        changed(|reading| reading.numbers[31] = 1 << 32),
        changed(|reading| reading.lengths[31] = 1),
        changed(|reading| reading.declared_places[0] = 1),
        changed(|reading| reading.declared_numbers[1] = 1),
        changed(|reading| reading.declared_places[2] = 1),
        changed(|reading| reading.declared_numbers[31] = 1),
        changed(|reading| (reading.places[0], reading.lengths[0]) = (12, 2)),
    ];
    for reading in readings {
        let step = raw::step(log.bytes(), log.used(), reading);
        assert_eq!(step.item, item(raw::REFUSED, 13, 0));
        assert_eq!(step.reading, reading);
        let mut out = [0; 320];
        let listed = raw::list(reading, log.bytes(), &mut out);
        assert_eq!((listed.length, listed.over), (13, 1));
        assert_eq!(&out[..13], b"refused\t13\t0\n");
    }
    let step = raw::step(log.bytes(), 201, good);
    assert_eq!((step.item, step.reading), (item(raw::REFUSED, 1, 0), good));
    Ok(())
}

#[test]
fn uris_of_rows() {
    let answer = |refusal, implied, place, length| UriAnswer {
        refusal,
        implied,
        place,
        length,
    };
    let uri = |row| raw::uri(200, 145, row);
    assert_eq!(uri(row(1, 0, 0)), answer(0, 1, 0, 16));
    assert_eq!(uri(row(111, 0, 0)), answer(0, 1, 16, 18));
    assert_eq!(&IMPLIED_NAMES[..16], b"urn:lozizol:type");
    assert_eq!(&IMPLIED_NAMES[16..], b"urn:lozizol:header");
    assert_eq!(uri(row(2, 112, 11)), answer(0, 0, 112, 11));
    assert_eq!(uri(row(2, 134, 11)), answer(0, 0, 134, 11));
    for number in [1 << 32, raw::NUMBER_LIMIT] {
        assert_eq!(uri(row(number, 112, 11)), answer(0, 0, 112, 11));
    }
    for bad in [
        row(2, 135, 11),
        row(2, u32::MAX, 11),
        row(2, u32::MAX, u32::MAX),
        row(2, 0, 256),
        row(2, 0, 0),
        row(1, 1, 0),
        row(0, 112, 11),
        row(raw::NUMBER_LIMIT + 1, 112, 11),
        row(u64::MAX, 112, 11),
        row(1 << 32, 112, 0),
        row(1 << 32 | 1, 0, 0),
    ] {
        assert_eq!(uri(bad), answer(13, 0, 0, 0));
    }
    assert_eq!(raw::uri(144, 145, row(1, 0, 0)), answer(1, 0, 0, 0));
}

/// What a refused shift answers: all is 0 but the number.
fn not_shifted(refusal: usize) -> Shifted {
    let (x, y, z) = (0.0, 0.0, 0.0);
    Shifted {
        refusal,
        place: 0,
        epoch: 0,
        position: Triple { x: 0, y: 0, z: 0 },
        point: Point { x, y, z },
        motion: Motion { x, y, z },
    }
}

#[test]
fn shifting() {
    let motion = Triple { x: 1, y: -2, z: 3 };
    let position = Triple { x: -4, y: 5, z: -6 };
    let data = b"\xFF\xFF\xFF\xFF\xFF\xFF\xFF\xFC\0\0\0\0\0\0\0\x05\
                 \xFF\xFF\xFF\xFF\xFF\xFF\xFF\xFA";
    let shifted = Shifted {
        epoch: 201_750,
        position,
        point: Point {
            x: -390.0,
            y: 480.0,
            z: -570.0,
        },
        motion: Motion {
            x: 100.0,
            y: -200.0,
            z: 300.0,
        },
        ..not_shifted(0)
    };
    let shift = |uri: &[u8], data: &[u8], asked| raw::shift(uri, data, asked, motion);
    assert_eq!(shift(b"urn:ep:2017.50", data, 201_760), shifted);
    assert_eq!(shift(b"urn:ep:2017.5", data, 201_760), not_shifted(24));
    assert_eq!(
        shift(b"urn:ep:2017.50", &data[1..], 201_760),
        not_shifted(25)
    );
    assert_eq!(shift(b"urn:ep:2017.50", data, 301_751), not_shifted(26));
    assert_eq!(shift(b"", b"", i64::MIN), not_shifted(24));
    assert_eq!(shift(b"urn:ep:2017", b"", i64::MIN), not_shifted(25));
}
