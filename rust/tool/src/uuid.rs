//! UUIDs: from their text, and fresh ones.

use crate::arguments::hexadecimal;
use std::fs::File;
use std::io::{self, Read};

/// The source of fresh ones.
pub const SOURCE: &str = "/dev/urandom";

/// Reads 8-4-4-4-12 hexadecimal digits, in either case.
pub fn parse(text: &[u8]) -> Option<[u8; 16]> {
    let groups: Vec<&[u8]> = text.split(|byte| *byte == b'-').collect();
    let lengths: Vec<usize> = groups.iter().map(|group| group.len()).collect();
    if lengths != [8, 4, 4, 4, 12] {
        return None;
    }
    hexadecimal(&groups.concat())?.try_into().ok()
}

/// A fresh one: 122 random bits, the others say so (RFC 4122, version 4).
pub fn random() -> io::Result<[u8; 16]> {
    let mut uuid = [0; 16];
    File::open(SOURCE)?.read_exact(&mut uuid)?;
    uuid[6] = uuid[6] & 0x0F | 0x40;
    uuid[8] = uuid[8] & 0x3F | 0x80;
    Ok(uuid)
}
