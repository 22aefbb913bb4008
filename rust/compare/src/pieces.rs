//! The pieces of a logbook, byte by byte.

use crate::random::Random;

/// The URI of an assignment.
pub const TYPE: &[u8] = b"urn:lozizol:type";
/// The URI of a header.
pub const HEADER: &[u8] = b"urn:lozizol:header";
/// The URI of a deleted record.
pub const DELETED: &[u8] = b"urn:lozizol:deleted";
/// The greatest type number: nine bytes.
pub const NUMBER_LIMIT: u64 = 9_223_372_036_854_775_807;
/// The greatest size: four bytes.
pub const SIZE_LIMIT: u64 = 268_435_455;
/// The greatest used length.
pub const USED_LIMIT: usize = 16_777_216;
/// The length of a header.
pub const HEADER_LENGTH: usize = 109;

/// Writes an integer; one over [`NUMBER_LIMIT`] has ten bytes.
pub fn push_integer(out: &mut Vec<u8>, value: u64) {
    for place in (1..width(value)).rev() {
        out.push((value >> (7 * place)) as u8 | 0x80);
    }
    out.push((value & 0x7F) as u8);
}

/// How many bytes an integer takes.
pub fn width(value: u64) -> usize {
    (1..10)
        .find(|&width| value >> (7 * width) == 0)
        .unwrap_or(10)
}

/// The integer at the front of these bytes and its length; they hold a sound one.
pub fn integer(bytes: &[u8]) -> (u64, usize) {
    let length = 1 + bytes.iter().take_while(|&&byte| byte >= 0x80).count();
    let value = bytes[..length]
        .iter()
        .fold(0, |value, byte| value << 7 | u64::from(byte & 0x7F));
    (value, length)
}

/// Writes a record; number 0 makes a deleted one.
pub fn push_record(out: &mut Vec<u8>, number: u64, data: &[u8]) {
    push_integer(out, (width(number) + data.len()) as u64);
    push_integer(out, number);
    out.extend_from_slice(data);
}

/// Writes an assignment of `uri` to `number`, a removal where `uri` is empty.
pub fn push_assignment(out: &mut Vec<u8>, under: u64, number: u64, uri: &[u8]) {
    push_integer(out, (width(under) + width(number) + uri.len()) as u64);
    push_integer(out, under);
    push_integer(out, number);
    out.extend_from_slice(uri);
}

/// Writes a header with any UUID, its digits in either case, and any free bytes.
pub fn push_header(out: &mut Vec<u8>, random: &mut Random) {
    out.extend_from_slice(b"lozizol 0.5 ");
    for index in 0..36 {
        out.push(match index {
            8 | 13 | 18 | 23 => b'-',
            _ => random.pick(b"0123456789abcdefABCDEF"),
        });
    }
    out.push(b' ');
    out.extend(random.bytes(60));
}

/// The string of this length whose bytes are this number's digits, the lowest first.
pub fn string(bytes: &[u8], length: usize, mut number: usize) -> Vec<u8> {
    let digits = (0..length).map(|_| {
        let byte = bytes[number % bytes.len()];
        number /= bytes.len();
        byte
    });
    digits.collect()
}
