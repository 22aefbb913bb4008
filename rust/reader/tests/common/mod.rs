//! What the tests write and expect: numbers, records, a logbook, a refusal, where
//! entries were declared, chance.

use reader::*;

pub const UUID: [u8; 16] = [
    0x03, 0x93, 0x43, 0xBB, 0x90, 0x19, 0x4D, 0x6E, 0x82, 0x5E, 0x63, 0x1A, 0xA5, 0x78, 0xFF, 0x7F,
];

/// The largest type number, 128^9 - 1.
pub const LIMIT: u64 = 9_223_372_036_854_775_807;

/// A header and then these bytes.
pub fn book(parts: &[&[u8]]) -> Vec<u8> {
    let mut buf = vec![0; 109];
    assert_eq!(start(&mut buf, &UUID, &[b'.'; 60]), Ok(109));
    buf.extend(parts.concat());
    buf
}

/// The one writing of a number: its digits to the base 128.
pub fn writing(number: u64) -> Vec<u8> {
    let (mut bytes, mut rest) = (vec![(number % 128) as u8], number / 128);
    while rest > 0 {
        bytes.insert(0, 128 + (rest % 128) as u8);
        rest /= 128;
    }
    bytes
}

/// The record of this type number and data.
pub fn record(number: u64, data: &[u8]) -> Vec<u8> {
    let body = [&writing(number), data].concat();
    [writing(body.len() as u64), body].concat()
}

/// A record under number 1 that assigns the URI to the number.
pub fn assigns(number: u64, uri: &[u8]) -> Vec<u8> {
    record(1, &[&writing(number), uri].concat())
}

pub fn refused<T>(number: u8, place: usize) -> Result<T, Refusal> {
    Err(Refusal { number, place })
}

/// What a live entry reports of itself and of where it was declared: its place and
/// number, and those of the record that assigned its type number.
pub type Report = [(usize, usize); 2];

/// The reports of the live entries of a list.
pub fn reports(list: &[Item]) -> Vec<Report> {
    let live = list.iter().filter_map(|item| match *item {
        Item::Entry {
            place,
            number,
            declared_place,
            declared_number,
            ..
        } => Some([(place, number), (declared_place, declared_number)]),
        _ => None,
    });
    live.collect()
}

/// The integer at the front of these bytes, and the bytes behind it.
fn integer(bytes: &[u8]) -> (u64, &[u8]) {
    let last = bytes.iter().position(|&byte| byte < 0x80).unwrap();
    let digits = bytes[..=last].iter().map(|byte| u64::from(byte % 0x80));
    let value = digits.fold(0, |value, digit| value * 128 + digit);
    (value, &bytes[last + 1..])
}

/// Whether each live entry of the list of `log` reports the latest assignment of
/// its type number before it, as the list has that one, or none where there is a
/// header behind that or there is no such one; and whether they are counted.
pub fn check_declared(log: &[u8], list: &[Item]) {
    let live: Vec<&Item> = list
        .iter()
        .filter(|item| matches!(item, Item::Entry { .. }))
        .collect();
    for (index, report) in reports(list).into_iter().enumerate() {
        let [(place, number), declared] = report;
        assert_eq!(number, index + 1);
        let (_, body) = integer(&log[place..]);
        let (held, _) = integer(body);
        let latest = live[..index].iter().rev().find_map(|before| match before {
            Item::Entry {
                kind: Kind::Header, ..
            } => Some((0, 0)),
            Item::Entry {
                kind: Kind::Assignment,
                place,
                number,
                data,
                ..
            } if integer(data).0 == held => Some((*place, *number)),
            _ => None,
        });
        assert_eq!(declared, latest.unwrap_or((0, 0)), "{place} {list:?}");
    }
}

/// A small generator, so that each run is the same.
pub struct Random(pub u64);

impl Random {
    pub fn below(&mut self, bound: usize) -> usize {
        self.0 ^= self.0 << 13;
        self.0 ^= self.0 >> 7;
        self.0 ^= self.0 << 17;
        (self.0 >> 11) as usize % bound
    }

    pub fn pick<T: Copy>(&mut self, from: &[T]) -> T {
        from[self.below(from.len())]
    }
}
