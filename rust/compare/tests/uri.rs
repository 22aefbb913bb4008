//! Where the URI of a row stands, and which rows are refused.

use compare::books::great;
use compare::pieces::{HEADER, NUMBER_LIMIT, TYPE, USED_LIMIT};
use compare::random::Random;
use compare::settings::{spread, Settings};
use logbook::raw;

/// Rows of the usual run.
const ROWS: usize = 2_000_000;

/// Done, 1 and 13.
type Counts = [u64; 3];

/// 01, "Reading": whether a reading at the used length could have this row.
fn fits(used: usize, row: raw::Row) -> bool {
    let number = (1..=NUMBER_LIMIT).contains(&row.number);
    match row.length {
        0 => matches!(row.number, 1 | 111) && row.place == 0,
        1..=255 => number && row.place as u64 + u64::from(row.length) <= used as u64,
        _ => false,
    }
}

/// The whole answer that is due.
fn expected(length: usize, used: usize, row: raw::Row) -> raw::UriAnswer {
    let refusal = match () {
        _ if used > length || used > USED_LIMIT => 1,
        _ if !fits(used, row) => 13,
        _ => 0,
    };
    let (implied, place, length) = match (refusal, row.length, row.number) {
        (0, 0, 1) => (1, 0, TYPE.len()),
        (0, 0, _) => (1, TYPE.len(), HEADER.len()),
        (0, _, _) => (0, row.place as usize, row.length as usize),
        _ => (0, 0, 0),
    };
    raw::UriAnswer {
        refusal,
        implied,
        place,
        length,
    }
}

/// A number at a bound, near another one, or any.
fn edge(random: &mut Random, near: usize) -> usize {
    let bounds = [
        0,
        1,
        16,
        110,
        111,
        112,
        254,
        255,
        256,
        257,
        511,
        65_536,
        USED_LIMIT,
        USED_LIMIT + 1,
        NUMBER_LIMIT as usize,
        NUMBER_LIMIT as usize + 1,
        u32::MAX as usize,
        usize::MAX,
    ];
    match random.below(4) {
        0 => random.pick(&bounds),
        1 => near.wrapping_add(random.below(5)).wrapping_sub(2),
        2 => random.below(300),
        _ => random.below(near.saturating_add(1).max(1)),
    }
}

fn check(seed: u64, round: usize, counts: &mut Counts) {
    let random = &mut Random::new(seed, round);
    let used = edge(random, USED_LIMIT);
    let length = match random.below(4) {
        0 => edge(random, used),
        _ => used.saturating_add(random.below(3)),
    };
    let number = match random.below(4) {
        0 => great(random),
        _ => edge(random, 111) as u64,
    };
    let span = edge(random, 255) as u32;
    let place = match random.below(3) {
        0 => used.wrapping_sub(span as usize) as u32,
        1 => 0,
        _ => edge(random, used) as u32,
    };
    let row = raw::Row {
        number,
        place,
        length: span,
    };
    let answer = raw::uri(length, used, row);
    let due = expected(length, used, row);
    assert_eq!(answer, due, "length {length}, used {used}, {row:?}");
    counts[match answer.refusal {
        0 => 0,
        1 => 1,
        _ => 2,
    }] += 1;
}

#[test]
fn rows_are_refused_as_they_fit() {
    let names = &raw::IMPLIED_NAMES[..];
    assert_eq!(names, [TYPE, HEADER].concat());
    let Settings { seed, rounds } = Settings::read("uri");
    let counts: Counts = spread(
        ROWS * rounds,
        |round, counts| check(seed, round, counts),
        |whole, part| (0..3).for_each(|index| whole[index] += part[index]),
    );
    println!("done, 1, 13: {counts:?}");
    assert!(counts.iter().all(|&count| count >= 50_000));
}
