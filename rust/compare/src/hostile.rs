//! Logbooks that are damaged, cut off or made to mislead.

use crate::books::{great, long_uri, Book};
use crate::pieces::*;
use crate::random::Random;

/// A logbook of any make, by the round: grown, damaged, crafted or noise.
pub fn any_make(random: &mut Random, round: usize) -> Book {
    let items = random.below(30);
    match round % 4 {
        0 => Book::grown(random, items),
        1 => damaged(random, items),
        2 => crafted(random, items),
        _ => noise(random),
    }
}

/// Bytes that make records behind a header, each likely to mislead.
const NOISE: [u8; 16] = [
    0x00, 0x01, 0x02, 0x03, 0x04, 0x05, 0x07, 0x6F, 0x6C, 0x7F, 0x80, 0x81, 0xFF, b'a', b':', b'u',
];

/// Ends of a logbook: sizes cut off, running past, broken; types the same.
const TAILS: [&[u8]; 42] = [
    b"\x80",
    b"\x81",
    b"\xFF\xFF",
    b"\xFF\xFF\xFF",
    b"\xFF\xFF\xFF\xFF",
    b"\xFF\xFF\xFF\x7F",
    b"\xFF\xFF\xFF\x80",
    b"\xFF\xFF\xFF\xFF\x01",
    b"\x81\x80",
    b"\x81\x80\x80",
    b"\x81\x80\x80\x80",
    b"\x81\x80\x80\x00",
    b"\x80\x11",
    b"\x80\x00",
    b"\x05\x80",
    b"\x01",
    b"\x02\x01",
    b"\x02\x00",
    b"\x81\x00\x01",
    b"\x87\xFF\xFF\x7F\x01",
    b"\x01\x80",
    b"\x01\x81",
    b"\x02\x81\x80",
    b"\x02\x81\x01",
    b"\x03\xFF\xFF\xFF",
    b"\x04\xFF\xFF\xFF\xFF",
    b"\x05\xFF\xFF\xFF\xFF\x01",
    b"\x02\x80\x02",
    b"\x05\xFF\xFF\xFF\x7F\x01",
    b"\x81\x00",
    b"\x05\x81\x80\x80\x80\x80",
    b"\x05\x81\x80\x80\x80\x00",
    b"\x06\x90\x80\x80\x80\x01x",
    b"\x08\xFF\xFF\xFF\xFF\xFF\xFF\xFF\xFF",
    b"\x08\xFF\xFF\xFF\xFF\xFF\xFF\xFF\xFF\xFF",
    b"\x09\xFF\xFF\xFF\xFF\xFF\xFF\xFF\xFF",
    b"\x09\xFF\xFF\xFF\xFF\xFF\xFF\xFF\xFF\x7F",
    b"\x09\xFF\xFF\xFF\xFF\xFF\xFF\xFF\xFF\xFF",
    b"\x09\x80\xFF\xFF\xFF\xFF\xFF\xFF\xFF\xFF",
    b"\x0A\xFF\xFF\xFF\xFF\xFF\xFF\xFF\xFF\xFF\x01",
    b"\x0A\xFF\xFF\xFF\xFF\xFF\xFF\xFF\xFF\xFF\xFF",
    b"\x0B\x81\x80\x80\x80\x80\x80\x80\x80\x80\x00x",
];

/// Data of an assignment with a fault each; a few sound ones among them.
const ASSIGNMENTS: [&[u8]; 36] = [
    b"",
    b"\x00",
    b"\x00a:",
    b"\x80",
    b"\x80\x02a:",
    b"\x81",
    b"\xFF\xFF\xFF",
    b"\xFF\xFF\xFF\xFFa:",
    b"\xFF\xFF\xFF\xFF\x01a:",
    b"\xFF\xFF\xFF\x7Fa:",
    b"\x02a",
    b"\x02:",
    b"\x02:a",
    b"\x021:",
    b"\x02+a:",
    b"\x02a b:",
    b"\x02a_:",
    b"\x02a: ",
    b"\x02a:\x7F",
    b"\x02a:b\x80",
    b"\x02a:\x00",
    b"\x02urn:lozizol:deleted",
    b"\x6Furn:lozizol:deleted",
    b"\x02urn:lozizol:header",
    b"\x01urn:lozizol:header",
    b"\x6Furn:lozizol:header",
    b"\x90\x80\x80\x80\x6Furn:lozizol:header",
    b"\x90\x80\x80\x80\x02a:",
    b"\x81\x80\x80\x80\x80\x80\x80\x80\x00a:",
    b"\x81\x80\x80\x80\x80\x80\x80\x80\x80\x00a:",
    b"\xFF\xFF\xFF\xFF\xFF\xFF\xFF\xFF",
    b"\xFF\xFF\xFF\xFF\xFF\xFF\xFF\xFF\x7F",
    b"\xFF\xFF\xFF\xFF\xFF\xFF\xFF\xFF\x7Fa:",
    b"\xFF\xFF\xFF\xFF\xFF\xFF\xFF\xFF\xFF",
    b"\xFF\xFF\xFF\xFF\xFF\xFF\xFF\xFF\xFFa:",
    b"\xFF\xFF\xFF\xFF\xFF\xFF\xFF\xFF\xFF\x01a:",
];

/// A sound logbook, then a few bytes changed, put in, taken out or cut off.
pub fn damaged(random: &mut Random, items: usize) -> Book {
    let mut book = Book::grown(random, items);
    for _ in 0..random.between(1, 3) {
        let bytes = &mut book.bytes;
        // Mostly behind the header, or nothing further would be read.
        let first = if random.one_in(6) { 0 } else { HEADER_LENGTH };
        if bytes.len() <= first {
            break;
        }
        let place = random.between(first, bytes.len() - 1);
        match random.below(8) {
            0 | 1 => bytes[place] ^= 1 << random.below(8),
            2 => bytes[place] = random.byte(),
            3 => bytes[place] = random.pick(&NOISE),
            4 => bytes.truncate(place),
            5 => bytes.insert(place, random.pick(&NOISE)),
            6 => drop(bytes.remove(place)),
            _ => {
                let end = bytes.len().min(place + random.between(1, 8));
                bytes[place..end].fill_with(|| random.byte());
            }
        }
    }
    book
}

/// A logbook with a fault that was made on purpose, and perhaps more behind it.
pub fn crafted(random: &mut Random, items: usize) -> Book {
    let mut book = Book::grown(random, items);
    if random.one_in(8) {
        book.fill(random);
    }
    book.places.push(book.bytes.len());
    push_fault(&mut book.bytes, random);
    if random.one_in(3) {
        book.places.push(book.bytes.len());
        push_fault(&mut book.bytes, random);
    }
    book
}

fn push_fault(out: &mut Vec<u8>, random: &mut Random) {
    match random.below(8) {
        0..=2 => out.extend_from_slice(random.pick(&TAILS)),
        3 | 4 => push_record(out, 1, random.pick(&ASSIGNMENTS)),
        5 => {
            let length = random.between(254, 257);
            let uri = long_uri(random, length);
            push_assignment(out, 1, 2, &uri);
        }
        6 => {
            let number = match random.below(6) {
                0 => great(random),
                // Ten bytes.
                1 => random.bits() | 1 << 63,
                _ => random.between(2, 300) as u64,
            };
            if random.one_in(2) {
                push_record(out, number, b"x");
            } else {
                push_assignment(out, 1, number, b"a:");
            }
        }
        _ => push_bad_header(out, random),
    }
}

/// A later header that is one byte off, longer, or shorter.
fn push_bad_header(out: &mut Vec<u8>, random: &mut Random) {
    let place = out.len();
    push_header(out, random);
    match random.below(4) {
        0 => {
            out[place] += 1;
            out.push(b'.');
        }
        1 => {
            out[place] -= 1;
            out.pop();
        }
        _ => {
            let near = place + random.below(50);
            out[near] = random.pick(b"g-0 F\x00\x6F");
        }
    }
}

/// Bytes without plan, behind a sound header or none.
pub fn noise(random: &mut Random) -> Book {
    let mut book = Book::start(random);
    let length = random.below(300);
    if random.one_in(4) {
        book.bytes.clear();
    }
    let plain = random.one_in(4);
    for _ in 0..length {
        if random.one_in(4) {
            book.places.push(book.bytes.len());
        }
        let byte = if plain {
            random.byte()
        } else {
            random.pick(&NOISE)
        };
        book.bytes.push(byte);
        // Runs as long as a type may be, or one byte longer.
        if random.one_in(24) {
            let (byte, run) = (random.pick(&[0x80, 0x81, 0xFF]), random.between(2, 9));
            book.bytes.resize(book.bytes.len() + run, byte);
        }
    }
    book
}
