//! A short run of the comparisons, for a memory checker: every buffer is an
//! allocation of just its length.

use compare::files::{check, check_changes, demo};
use compare::series::{Counts, Pace, Series};
use compare::shifts;
use compare::slow;
use compare::tally::Tally;

const SEED: u64 = 1;

fn main() {
    let mut tally = Tally::default();
    for round in 0..270 {
        compare::calls::round(SEED, round, &mut tally);
    }
    compare::calls::bounds(SEED, &mut tally);
    for (name, file) in demo() {
        for length in (0..=file.len()).step_by(29) {
            check(
                format!("{name} up to {length}"),
                &file[..length],
                &mut tally,
            );
        }
        for place in (0..file.len()).step_by(83) {
            check_changes(&name, &file, place, false, &mut tally);
        }
    }
    let mut counts = Counts::default();
    for round in 0..100 {
        Series::draw(Pace::Steps, SEED, round).check(&mut counts);
        Series::draw(Pace::Moves { premise: true }, SEED, round).check(&mut counts);
    }
    let mut alike = slow::Counts::default();
    for round in 0..60 {
        slow::round(SEED, round, &mut alike);
    }
    let mut shifted = shifts::Counts::default();
    for round in 0..5_000 {
        shifts::round(SEED, round, &mut shifted);
    }
    println!(
        "{} calls compared, {} series in both orders, {} items in moves, {shifted}",
        tally.calls(),
        counts.series,
        alike.items
    );
}
