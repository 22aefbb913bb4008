//! Demand 3: every series gives the same in both orders, by steps and by moves, and a wrong
//! order shows.

use compare::series::{as_demanded, Counts, Event, Pace, Series, Sort, Sorter, Stand};
use compare::settings::{spread, Settings};
use compare::sides::Request;

/// Series of the usual run, by steps and by moves each.
const SERIES: usize = 60_000;
/// Events that the usual run has at least, by moves.
const EVENTS_AT_LEAST: u64 = 1_000_000;
/// Moves under the premise of 02 [9].
const SLOWLY: Pace = Pace::Moves { premise: true };
/// Series that the wrong sorters are tried on.
const CONTROLS: usize = 4_000;

/// Runs series in both orders, and asks that enough of each kind was among them.
fn both_orders(name: &str, pace: Pace) -> Counts {
    let Settings { seed, rounds } = Settings::read(name);
    let counts: Counts = spread(
        SERIES * rounds,
        |round, counts| Series::draw(pace, seed, round).check(counts),
        Counts::join,
    );
    println!("{counts:?}");
    assert!(counts.series >= 20_000 && counts.ended >= counts.series / 10);
    assert!(counts.ended <= counts.series - counts.series / 10);
    assert!(
        counts.passed >= counts.series / 2,
        "too few passed places hit"
    );
    assert!(counts.refused >= counts.series, "too few refused calls");
    counts
}

#[test]
fn both_orders_give_the_same() {
    both_orders("demand 3", Pace::Steps);
}

#[test]
fn both_orders_give_the_same_slowly() {
    let counts = both_orders("demand 3, slowly", SLOWLY);
    assert!(counts.events >= EVENTS_AT_LEAST, "too few events");
    assert!(counts.sized >= counts.series / 5, "too few sizes held");
    assert!(counts.typed >= counts.series / 20, "too few types held");
}

/// Wrong: an erase or wipe of a passed place counts as early.
fn passed_as_early(event: &Event, stand: Stand, ended: bool) -> Sort {
    match (event, as_demanded(event, stand, ended)) {
        (Event::Call(_), Sort::Late) if !ended => Sort::Early,
        (_, sort) => sort,
    }
}

/// Wrong: the position itself counts as passed.
fn position_as_passed(event: &Event, stand: Stand, ended: bool) -> Sort {
    let position = stand.position.saturating_add(1);
    as_demanded(event, Stand { position, ..stand }, ended)
}

/// Wrong for moves: only what is below the position counts as passed.
fn below_as_passed(event: &Event, stand: Stand, ended: bool) -> Sort {
    let typed = false;
    as_demanded(event, Stand { typed, ..stand }, ended)
}

/// Wrong for moves: the position counts as passed once its size is taken.
fn sized_as_passed(event: &Event, stand: Stand, ended: bool) -> Sort {
    let typed = stand.sized;
    as_demanded(event, Stand { typed, ..stand }, ended)
}

/// Wrong: appends and assignments wait for the reading's end.
fn appends_as_late(event: &Event, stand: Stand, ended: bool) -> Sort {
    match event {
        Event::Call(Request::Append { .. } | Request::Assign { .. }) => Sort::Late,
        _ => as_demanded(event, stand, ended),
    }
}

#[test]
fn wrong_orders_differ() {
    let Settings { seed, .. } = Settings::read("demand 3, wrong orders");
    let wrong: [(&str, Pace, Sorter); 7] = [
        ("passed as early", Pace::Steps, passed_as_early),
        ("position as passed", Pace::Steps, position_as_passed),
        ("appends as late", Pace::Steps, appends_as_late),
        ("below as passed, slowly", SLOWLY, below_as_passed),
        ("sized as passed, slowly", SLOWLY, sized_as_passed),
        ("passed as early, slowly", SLOWLY, passed_as_early),
        (
            "no premise, slowly",
            Pace::Moves { premise: false },
            as_demanded,
        ),
    ];
    for (name, pace, sorter) in wrong {
        let differ = (0..CONTROLS)
            .filter(|&round| Series::draw(pace, seed, round).compare(sorter).is_err())
            .count();
        println!("{name}: {differ} of {CONTROLS} series differ");
        assert!(differ > CONTROLS / 100, "{name} is hardly seen");
    }
}
