//! Every call of the library against the independent one, and the table of refusals.

use compare::settings::{spread, Settings};
use compare::tally::{Tally, CALLS, COLUMNS, FULL_FOR_REQUEST};

/// Rounds of the usual run.
const ROUNDS: usize = 54_000;
/// The calls that the usual run compares at least.
const CALLS_AT_LEAST: u64 = 2_000_000;

/// 01, "Refusals and their order", with 02 [1]: what each call can come to, 0 for its result.
/// A step or a move looks at its own item only, the walk knows 2 to 7 (4 was withdrawn) and 14 to 16.
fn can_occur(call: &str) -> Vec<usize> {
    let walk = [0, 1, 2, 3, 5, 6, 7, 14, 15, 16];
    match call {
        "start" => vec![0, 10, 12],
        "append" | "assign" => [&walk[..], &[10, 11, 12, FULL_FOR_REQUEST]].concat(),
        "erase" => [&walk[..], &[8, 9]].concat(),
        "wipe" => [&walk[..], &[8]].concat(),
        "step" | "move" => [&walk[..], &[13]].concat(),
        "list" => walk.to_vec(),
        _ => unreachable!("{call} is no call"),
    }
}

#[test]
fn every_call_agrees_and_every_refusal_occurs() {
    let Settings { seed, rounds } = Settings::read("calls");
    let mut tally = spread(
        ROUNDS * rounds,
        |round, tally| compare::calls::round(seed, round, tally),
        Tally::join,
    );
    compare::calls::bounds(seed, &mut tally);
    compare::calls::large(seed, &mut tally);
    println!("{} calls compared\n{tally}", tally.calls());
    assert!(tally.calls() >= CALLS_AT_LEAST, "too few calls");
    let entries = tally.of(5, 0);
    assert!(tally.great >= entries / 20, "too few great numbers");
    assert!(tally.great <= entries / 2, "too many great numbers");
    for (call, name) in CALLS.iter().enumerate() {
        let can = can_occur(name);
        for column in 0..COLUMNS {
            let seen = tally.of(call, column) > 0;
            assert_eq!(seen, can.contains(&column), "{name}: column {column}");
        }
    }
}
