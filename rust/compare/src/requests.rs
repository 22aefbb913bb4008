//! What is asked of a logbook: usual requests, and those at every bound.

use crate::books::{data_length, long_uri, number, uri, URIS};
use crate::case::{Case, Track};
use crate::pieces::*;
use crate::random::Random;
use crate::readings::{outside, outside_slow};
use crate::sides::Request;
use logbook::raw;

/// The most data of an appended entry.
const DATA_LIMIT: usize = 65_535;

/// A request for this logbook, and the used length to hand in with it.
pub fn draw(random: &mut Random, case: &Case) -> (usize, Request) {
    let used = used_length(random, case);
    let request = match random.below(48) {
        0..=10 => Request::Step {
            reading: Box::new(reading(random, case)),
        },
        40.. => Request::Move {
            slow: Box::new(slow(random, case)),
        },
        11 => Request::List {
            room: random.pick(&[320, 321, 700, 2_000]),
        },
        12 => start(random),
        _ => writing(random, &case.track),
    };
    (used, request)
}

/// An append, an assignment, an erase or a wipe.
pub fn writing(random: &mut Random, track: &Track) -> Request {
    match random.below(27) {
        0..=7 => Request::Append {
            uri: asked_uri(random),
            data: asked_data(random),
        },
        8..=13 => Request::Assign {
            number: asked_number(random),
            uri: assigned_uri(random),
        },
        14..=19 => Request::Erase {
            place: place(random, track, false),
        },
        _ => Request::Wipe {
            place: place(random, track, true),
            limit: limit(random),
        },
    }
}

/// The used length; at times another one.
fn used_length(random: &mut Random, case: &Case) -> usize {
    if !random.one_in(16) {
        return case.track.used;
    }
    let length = case.buf().len();
    match random.below(8) {
        0 => random.pick(&[0, 1, 108, 109, 110]),
        1 => random.pick(&[USED_LIMIT, USED_LIMIT + 1, usize::MAX, usize::MAX - 1]),
        2 => length,
        3 => length + 1,
        4 => case.track.used.saturating_sub(1),
        5 => case.track.used + 1,
        _ => random.below(length + 1),
    }
}

/// A place: of an item, beside one, or at a bound.
fn place(random: &mut Random, track: &Track, deleted: bool) -> usize {
    let likely = if deleted {
        &track.erased
    } else {
        &track.entries
    };
    if !likely.is_empty() && random.one_in(2) {
        return random.pick(likely);
    }
    match random.below(12) {
        0 => random.below(track.used + 2),
        1 => random.pick(&[0, 1, 2, 108, 109, USED_LIMIT, usize::MAX - 1, usize::MAX]),
        2 => track.used.saturating_sub(random.below(3)),
        3 => track.used + random.below(3),
        4 => random.pick(&[track.reading.position, track.slow.reading.position]),
        _ if track.places.is_empty() => 0,
        5 => random.pick(&track.places).wrapping_add(1),
        6 => random.pick(&track.places).wrapping_sub(1),
        _ => random.pick(&track.places),
    }
}

/// A wipe's limit.
fn limit(random: &mut Random) -> usize {
    match random.below(6) {
        0 => usize::MAX,
        1 => 0,
        2 => random.below(20),
        3 => 1_000,
        _ => 1,
    }
}

/// The reading that came back last, a fresh one, or one from outside.
fn reading(random: &mut Random, case: &Case) -> raw::Reading {
    match random.below(12) {
        0..=7 => case.track.reading,
        8 => raw::fresh(),
        _ => outside(random, case.buf(), &case.track),
    }
}

/// The slow reading that came back last, a fresh one, or one from outside.
fn slow(random: &mut Random, case: &Case) -> raw::Slow {
    match random.below(16) {
        0..=12 => case.track.slow,
        13 => raw::slow_fresh(),
        _ => outside_slow(random, case.buf(), &case.track),
    }
}

/// A URI as it may be asked for: mostly a sound one.
fn asked_uri(random: &mut Random) -> Vec<u8> {
    match random.below(24) {
        0 => random.pick(&[TYPE, HEADER, DELETED]).to_vec(),
        1 => random
            .pick(&[
                &b""[..],
                b":",
                b"a",
                b"1:",
                b"a b:",
                b"a: ",
                b"a:\x7F",
                b"a:\x80",
                b"@:",
                b"[:",
                b"`:",
                b"{:",
                b"a/:",
            ])
            .to_vec(),
        2 => {
            let length = random.pick(&[2, 254, 255, 256, 257, 300]);
            long_uri(random, length)
        }
        3 => random.bytes(1),
        _ => uri(random),
    }
}

/// A URI to assign, the empty one and the names among them.
fn assigned_uri(random: &mut Random) -> Vec<u8> {
    match random.below(8) {
        0 | 1 => Vec::new(),
        2 => TYPE.to_vec(),
        3 => random.pick(&[HEADER, DELETED]).to_vec(),
        4 => asked_uri(random),
        _ => random.pick(&URIS).to_vec(),
    }
}

/// A number to assign, at times one out of bounds.
fn asked_number(random: &mut Random) -> u64 {
    match random.below(16) {
        0 => random.pick(&[0, NUMBER_LIMIT + 1, 1 << 63 | 2, u64::MAX - 1, u64::MAX]),
        1..=4 => random.pick(&[1, 111]),
        5..=7 => random.between(1, 40) as u64,
        8 => random.between(1, 400) as u64,
        _ => number(random),
    }
}

/// Data to append, seldom as long as may be, or longer.
fn asked_data(random: &mut Random) -> Vec<u8> {
    let length = match random.below(1_000) {
        0 => random.pick(&[DATA_LIMIT - 1, DATA_LIMIT, DATA_LIMIT + 1, 70_000]),
        _ => data_length(random),
    };
    random.bytes(length)
}

/// A start, at times with parts of another length.
fn start(random: &mut Random) -> Request {
    let uuid = random.pick(&[16, 16, 16, 0, 15, 17]);
    let free = random.pick(&[60, 60, 60, 0, 59, 61]);
    Request::Start {
        uuid: random.bytes(uuid),
        free: random.bytes(free),
    }
}
