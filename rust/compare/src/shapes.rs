//! Logbooks of one shape from front to end, for the benchmarks.

use crate::pieces::*;
use crate::random::Random;
use std::ops::Range;

/// Five epochs.
pub const URIS: [&[u8]; 5] = [
    b"urn:ep:2010",
    b"urn:ep:2012",
    b"urn:ep:2014",
    b"urn:ep:2017",
    b"urn:ep:2020",
];

/// A logbook that fills its buffer with items of one shape.
pub struct Shape {
    /// What the items are.
    pub name: &'static str,
    /// Its bytes, all used.
    pub log: Vec<u8>,
    /// How many of them come before those items: a header and assignments.
    pub front: usize,
}

impl Shape {
    /// A header, the assignments of `front`, then what `next` writes, as long as it fits.
    fn new(
        name: &'static str,
        bytes: usize,
        front: &[(u64, &[u8])],
        next: impl Fn(usize, &mut Vec<u8>),
    ) -> Shape {
        let mut log = Vec::with_capacity(bytes + 70_000);
        push_header(&mut log, &mut Random::new(1, 1));
        for &(number, uri) in front {
            push_assignment(&mut log, 1, number, uri);
        }
        let front = log.len();
        for index in 0.. {
            let place = log.len();
            next(index, &mut log);
            if log.len() >= bytes {
                log.truncate(place);
                break;
            }
        }
        Shape { name, log, front }
    }
}

/// The items of a logbook, its end not among them.
pub fn count_items(log: &[u8]) -> usize {
    let (mut reading, mut items) = (reader::Reading::fresh(), 0);
    loop {
        let (answer, next) = reading.step(log, log.len());
        if let reader::Item::End { .. } = answer.expect("a sound logbook") {
            return items;
        }
        items += 1;
        reading = next;
    }
}

/// (a) to (h), of less than that many bytes. Sizes and types have one byte in (a) and (d), more in
/// (e), (f) and (g); in (h) the types alone have more.
pub fn shapes(bytes: usize) -> Vec<Shape> {
    let (most, greatest) = (SIZE_LIMIT - 4, NUMBER_LIMIT - 4);
    let (one, two, four, nine) = (five(2), five(200), five(most), five(greatest));
    let typed = [&two[..], &[(300, TYPE)]].concat();
    let long = assignments(300, 301..325, 140, 200);
    let short = assignments(1, 2..32, 11, 30);
    vec![
        Shape::new("(a) shots of 30 bytes", bytes, &one, entries(2, 30)),
        Shape::new("(b) entries of 65,000", bytes, &one, entries(2, 65_000)),
        Shape::new("(c) padding", bytes, &one, |_, log| log.push(0)),
        Shape::new("(d) assignments, 32 held", bytes, &one, short),
        Shape::new("(e) two bytes: entries", bytes, &two, entries(200, 200)),
        Shape::new("(f) two bytes: assignments", bytes, &typed, long),
        Shape::new(
            "(g) three and four bytes",
            bytes,
            &four,
            entries(most, 20_000),
        ),
        Shape::new("(h) nine bytes: shots", bytes, &nine, entries(greatest, 30)),
    ]
}

/// The five URIs under the numbers from `first` on.
fn five(first: u64) -> Vec<(u64, &'static [u8])> {
    (first..).zip(URIS).collect()
}

/// Entries of that many data bytes, under five numbers in turn.
fn entries(first: u64, length: usize) -> impl Fn(usize, &mut Vec<u8>) {
    let data = vec![0x33; length];
    move |index, log| push_record(log, first + index as u64 % 5, &data)
}

/// In turn an assignment, its URI brought to that many bytes, and an entry under its number.
fn assignments(
    under: u64,
    numbers: Range<u64>,
    uri_length: usize,
    length: usize,
) -> impl Fn(usize, &mut Vec<u8>) {
    let data = vec![0x33; length];
    move |index, log| {
        let number = numbers.start + (index / 2) as u64 % (numbers.end - numbers.start);
        let mut uri = URIS[index % 5].to_vec();
        uri.resize(uri_length, b'/');
        match index % 2 {
            0 => push_assignment(log, under, number, &uri),
            _ => push_record(log, number, &data),
        }
    }
}
