//! Readings handed in from outside: without plan, nearly fitting, or made to mislead.

use crate::books::great;
use crate::case::Track;
use crate::pieces::*;
use crate::random::Random;
use logbook::raw;

/// A reading from outside for a logbook, of which the track's reading may fit.
pub fn outside(random: &mut Random, buf: &[u8], track: &Track) -> raw::Reading {
    let known = &track.reading;
    match random.below(8) {
        0 => anything(random, track.used),
        1..=4 => nearly(random, track.used, known),
        5 => elsewhere(random, track.used, known),
        _ => naming(random, &buf[..track.used], &track.places),
    }
}

/// A slow reading from outside: what it holds is near the bounds of the fit, or anything.
pub fn outside_slow(random: &mut Random, buf: &[u8], track: &Track) -> raw::Slow {
    let mut slow = track.slow;
    if random.one_in(4) {
        slow.reading = outside(random, buf, track);
    }
    match random.below(4) {
        0 => {
            slow.type_place = edge(random, track.used);
            slow.end = edge(random, track.used);
            slow.number = number_edge(random);
            slow.data_place = edge(random, track.used);
        }
        1 => one_held(random, track.used, &mut slow),
        _ => near_bounds(random, track.used, &mut slow),
    }
    slow
}

/// One field of what is held changed.
fn one_held(random: &mut Random, used: usize, slow: &mut raw::Slow) {
    let field = match random.below(4) {
        0 => {
            slow.number = near_number(random, slow.number);
            return;
        }
        1 => &mut slow.type_place,
        2 => &mut slow.end,
        _ => &mut slow.data_place,
    };
    *field = match random.below(4) {
        0 => field.wrapping_add(1),
        1 => field.wrapping_sub(1),
        2 => 0,
        _ => edge(random, used),
    };
}

/// A size or a type held, each number of it at a bound of the fit or beside one.
fn near_bounds(random: &mut Random, used: usize, slow: &mut raw::Slow) {
    let past = |from: usize, by: usize| from.wrapping_add(by);
    slow.type_place = past(slow.reading.position, random.pick(&[0, 1, 1, 2, 3, 4, 5]));
    slow.end = match random.below(6) {
        0 => past(slow.type_place, random.below(2)),
        1 => past(used, random.below(2)),
        _ => past(slow.type_place, random.below(20)).min(used),
    };
    (slow.number, slow.data_place) = (0, 0);
    if random.one_in(3) {
        return;
    }
    let held = slow.reading.held.clamp(1, raw::ROWS);
    slow.number = slow.reading.numbers[random.below(held)];
    if random.one_in(8) {
        slow.number = near_number(random, slow.number);
    }
    slow.data_place = match random.below(6) {
        0 => past(slow.end, random.below(2)),
        _ => past(slow.type_place, random.pick(&[0, 1, 1, 2, 8, 9, 10])),
    };
}

/// A place or a count at a bound.
fn edge(random: &mut Random, used: usize) -> usize {
    let bounds = [
        0,
        1,
        2,
        HEADER_LENGTH - 1,
        HEADER_LENGTH,
        used.saturating_sub(1),
        used,
        used + 1,
        USED_LIMIT,
        USED_LIMIT + 1,
        u32::MAX as usize,
        u32::MAX as usize + 1,
        usize::MAX,
    ];
    match random.below(3) {
        0 => random.pick(&bounds),
        _ => random.below(used + 1),
    }
}

/// A row's place or length at a bound.
fn row_edge(random: &mut Random, used: usize) -> u32 {
    let bounds = [
        0,
        1,
        2,
        110,
        111,
        112,
        255,
        256,
        257,
        511,
        512,
        USED_LIMIT as u32,
        USED_LIMIT as u32 + 1,
        u32::MAX - 255,
        u32::MAX - 1,
        u32::MAX,
    ];
    match random.below(3) {
        0 => random.pick(&bounds),
        1 => random.below(used + 2) as u32,
        _ => random.below(300) as u32,
    }
}

/// A row's number at a bound, of five to nine bytes, or small.
fn number_edge(random: &mut Random) -> u64 {
    let bounds = [
        0,
        1,
        2,
        110,
        111,
        112,
        SIZE_LIMIT,
        SIZE_LIMIT + 1,
        u32::MAX.into(),
        1 << 32,
        1 << 32 | 1,
        1 << 32 | 111,
        NUMBER_LIMIT - 1,
        NUMBER_LIMIT,
        NUMBER_LIMIT + 1,
        u64::MAX - 1,
        u64::MAX,
    ];
    match random.below(6) {
        0 | 1 => random.pick(&bounds),
        2 => great(random),
        _ => random.below(300) as u64,
    }
}

/// The number of the record that assigned a row: none, small, or any.
fn entry_edge(random: &mut Random) -> u32 {
    match random.below(4) {
        0 => random.pick(&[0, 1, 1_000_000_000, u32::MAX]),
        _ => random.below(300) as u32,
    }
}

/// Random fields.
fn anything(random: &mut Random, used: usize) -> raw::Reading {
    let mut reading = raw::fresh();
    reading.position = edge(random, used);
    reading.count = edge(random, used);
    reading.held = random.pick(&[0, 1, 2, 3, 31, 32, 33, 34, usize::MAX]);
    for row in 0..reading.held.min(raw::ROWS) {
        reading.numbers[row] = number_edge(random);
        reading.places[row] = row_edge(random, used);
        reading.lengths[row] = row_edge(random, used);
        if reading.lengths[row] != 0 || random.one_in(4) {
            reading.declared_places[row] = row_edge(random, used);
            reading.declared_numbers[row] = entry_edge(random);
        }
    }
    if random.one_in(2) {
        reading.numbers.sort_unstable();
    }
    reading
}

/// A known reading with one field changed.
fn nearly(random: &mut Random, used: usize, known: &raw::Reading) -> raw::Reading {
    let mut reading = *known;
    let last = reading.held.clamp(1, raw::ROWS);
    let row = match random.below(4) {
        0 => last - 1,
        1 => last.min(raw::ROWS - 1),
        2 => random.below(raw::ROWS),
        _ => random.below(last),
    };
    let field = match random.below(8) {
        0 => return moved(random, used, reading, |reading| &mut reading.position),
        1 => return moved(random, used, reading, |reading| &mut reading.count),
        2 => return moved(random, used, reading, |reading| &mut reading.held),
        3 => {
            reading.numbers[row] = near_number(random, reading.numbers[row]);
            return reading;
        }
        4 => &mut reading.places[row],
        5 => &mut reading.lengths[row],
        6 => &mut reading.declared_places[row],
        _ => &mut reading.declared_numbers[row],
    };
    *field = match random.below(3) {
        0 => field.wrapping_add(1),
        1 => field.wrapping_sub(1),
        _ => row_edge(random, used),
    };
    reading
}

/// A number beside this one, with another upper half, or at a bound.
fn near_number(random: &mut Random, number: u64) -> u64 {
    match random.below(8) {
        0..=2 => number.wrapping_add(1),
        3 | 4 => number.wrapping_sub(1),
        5 => number ^ 1 << random.between(32, 63),
        _ => number_edge(random),
    }
}

/// The reading with one of its counts changed.
fn moved(
    random: &mut Random,
    used: usize,
    mut reading: raw::Reading,
    field: fn(&mut raw::Reading) -> &mut usize,
) -> raw::Reading {
    let field = field(&mut reading);
    *field = match random.below(4) {
        0 => field.wrapping_add(1),
        1 => field.wrapping_sub(1),
        2 => random.pick(&[31, 32, 33]),
        _ => edge(random, used),
    };
    reading
}

/// A known reading at any other position, within a record or the header too.
fn elsewhere(random: &mut Random, used: usize, known: &raw::Reading) -> raw::Reading {
    let mut reading = *known;
    reading.position = random.below(used + 1);
    reading.count = random.below(reading.position + 1);
    reading
}

/// A fitting reading whose written rows name any bytes, the three names among them.
fn naming(random: &mut Random, log: &[u8], places: &[usize]) -> raw::Reading {
    let mut reading = raw::fresh();
    reading.position = match places {
        [] => random.below(log.len() + 1),
        places => random.pick(places).min(log.len()),
    };
    reading.count = random.below(reading.position + 1);
    let passed = &log[..reading.position];
    if passed.is_empty() {
        return reading;
    }
    let names: Vec<(usize, usize)> = [TYPE, HEADER, DELETED]
        .iter()
        .filter_map(|name| Some((find(passed, name)?, name.len())))
        .collect();
    let mut number = 0;
    for row in 0..random.between(1, raw::ROWS) {
        number += match random.below(48) {
            0 => 1 << random.between(28, 57),
            1..=8 => 105,
            _ => 1,
        };
        let (place, length) = match random.below(3) {
            0 | 1 if !names.is_empty() => random.pick(&names),
            _ => span(random, passed.len()),
        };
        reading.held = row + 1;
        reading.numbers[row] = number;
        reading.places[row] = place as u32;
        reading.lengths[row] = length as u32;
        reading.declared_places[row] = random.below(passed.len()) as u32;
        reading.declared_numbers[row] = entry_edge(random).max(1);
    }
    reading
}

/// A place and a length of 1 to 255 that end within this length.
fn span(random: &mut Random, length: usize) -> (usize, usize) {
    let span = random.between(1, length.min(255));
    (random.below(length - span + 1), span)
}

/// Where these bytes stand.
fn find(bytes: &[u8], name: &[u8]) -> Option<usize> {
    bytes.windows(name.len()).position(|part| part == name)
}
