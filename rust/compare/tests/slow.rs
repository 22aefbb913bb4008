//! A slow reading (02 [9]): moves against steps, and what is held at every bound of the fit.

use compare::books::Book;
use compare::calls::move_through;
use compare::case::Case;
use compare::pieces::{push_assignment, push_record};
use compare::random::Random;
use compare::settings::{spread, Settings};
use compare::sides::{Answer, Request};
use compare::slow::{round, Counts};
use compare::tally::Tally;
use logbook::raw;

/// Rounds of the usual run.
const ROUNDS: usize = 40_000;

#[test]
fn three_moves_are_one_step() {
    let Settings { seed, rounds } = Settings::read("moves and steps");
    let counts: Counts = spread(
        ROUNDS * rounds,
        |number, counts| round(seed, number, counts),
        Counts::join,
    );
    println!("{counts:?}");
    assert!(counts.items >= 20 * ROUNDS as u64, "too few items");
    assert!(counts.threes >= counts.items / 10, "too few whole records");
    assert!(counts.refused >= counts.items / 50, "too few refusals");
}

/// A logbook with sizes of one to three bytes, types of one, two and nine, an empty entry and one that
/// ends at the used length.
fn book(random: &mut Random) -> Book {
    let mut book = Book::start(random);
    for (number, data) in [(2, 0), (300, 5), (1 << 62, 140), (2, 16_500), (300, 1)] {
        book.places.push(book.bytes.len());
        push_assignment(&mut book.bytes, 1, number, b"urn:ep:2010");
        book.places.push(book.bytes.len());
        push_record(&mut book.bytes, number, &random.bytes(data));
    }
    book
}

/// A number, the ones beside it, and those at the ends of its type.
fn around(numbers: &[usize]) -> Vec<usize> {
    let beside = |&number: &usize| [number.wrapping_sub(1), number, number.wrapping_add(1)];
    let mut all: Vec<usize> = numbers.iter().flat_map(beside).collect();
    all.extend([0, usize::MAX - 9, usize::MAX]);
    all.sort_unstable();
    all.dedup();
    all
}

/// Every reading on the way, with each field of what it holds at every bound of the fit, and all of
/// these with each other.
#[test]
fn every_bound_of_the_fit_agrees() {
    let Settings { seed, .. } = Settings::read("bounds of the fit");
    let random = &mut Random::new(seed, 0);
    let book = book(random);
    let mut case = Case::of(format!("bounds of the fit, seed {seed}"), &book, 3, random);
    let mut tally = Tally::default();
    let used = case.track.used;
    for known in move_through(&mut case, &mut tally) {
        let position = known.reading.position;
        let ends = [position, position + 5, known.end, used];
        for type_place in around(&[position + 1, position + 4]) {
            for end in around(&ends) {
                let slow = raw::Slow {
                    type_place,
                    end,
                    ..known
                };
                types(&mut case, slow, &mut tally);
            }
        }
    }
    println!("{} moves compared\n{tally}", tally.calls());
    assert!(tally.of(7, 0) > 1_000, "too few that fit");
    assert!(tally.of(7, 13) > 100_000, "too few that don't");
}

/// The held type and the data's place at their bounds.
fn types(case: &mut Case, slow: raw::Slow, tally: &mut Tally) {
    let used = case.track.used;
    let mut places = around(&[
        slow.type_place.wrapping_add(1),
        slow.type_place.wrapping_add(9),
    ]);
    places.extend([slow.end, slow.end.wrapping_add(1)]);
    for number in [0, 1, 2, 3, 111, 300, 1 << 62, u64::MAX] {
        for &data_place in &places {
            let slow = Box::new(raw::Slow {
                number,
                data_place,
                ..slow
            });
            case.ask(used, &Request::Move { slow }, tally);
        }
    }
}

/// 02 [9]: a record erased and wiped between size and type shows as deleted here, undisturbed as padding;
/// one erased between type and data is shown all the same.
#[test]
fn erased_on_the_way() {
    let random = &mut Random::new(9, 9);
    let mut book = Book::start(random);
    push_assignment(&mut book.bytes, 1, 2, b"a:");
    let place = book.bytes.len();
    push_record(&mut book.bytes, 2, b"x");
    push_record(&mut book.bytes, 2, b"y");
    for (moves, wiped, kind) in [(5, true, raw::DELETED), (6, false, raw::ENTRY)] {
        let mut case = Case::of("erased on the way".into(), &book, 0, random);
        let tally = &mut Tally::default();
        let used = case.track.used;
        let mut last = raw::PADDING;
        for count in 0..=6 {
            if count == moves {
                case.ask(used, &Request::Erase { place }, tally);
            }
            if count == moves && wiped {
                let limit = usize::MAX;
                case.ask(used, &Request::Wipe { place, limit }, tally);
                assert_eq!(case.buf()[place..place + 3], [0, 0, 0]);
            }
            let slow = Box::new(case.track.slow);
            if let Answer::Moved { moved, .. } = case.ask(used, &Request::Move { slow }, tally) {
                last = moved.item.kind;
            }
            if count >= moves && last != raw::TYPE_HELD {
                break;
            }
        }
        assert_eq!(last, kind);
        assert_eq!(case.track.slow.reading.position, place + 3);
    }
}
