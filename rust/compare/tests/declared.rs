//! Where a type number was declared (02 [6]): the library alone against the assignments that its own reading
//! has passed, and with the independent reader every bound of the fit.

use compare::books::Book;
use compare::calls::read_through;
use compare::case::{hex, Case};
use compare::hostile::any_make;
use compare::pieces::{push_assignment, push_record};
use compare::random::Random;
use compare::settings::{spread, Settings};
use compare::sides::{is_live, our_step, Answer, Request};
use compare::tally::Tally;
use logbook::raw;
use std::collections::HashMap;

/// Rounds of the usual run.
const ROUNDS: usize = 40_000;

/// What was read.
#[derive(Clone, Copy, Default, Debug)]
struct Counts {
    /// Live entries.
    entries: u64,
    /// Those under a number that an assignment declared.
    declared: u64,
    /// Those whose number had another meaning before.
    anew: u64,
}

impl Counts {
    fn join(&mut self, other: Counts) {
        self.entries += other.entries;
        self.declared += other.declared;
        self.anew += other.anew;
    }
}

/// What a table of the assignments so far says: the latest of each number, and how many it had.
#[derive(Default)]
struct Assignments(HashMap<u64, (usize, usize, u64)>);

impl Assignments {
    /// Place and number of the record that declared a number, and how often it was declared.
    fn latest(&self, number: u64) -> (usize, usize, u64) {
        self.0.get(&number).copied().unwrap_or_default()
    }

    fn take(&mut self, item: &raw::Item) {
        let end = item.data_place + item.data_length;
        match item.kind {
            raw::HEADER => self.0.clear(),
            raw::ASSIGNMENT if item.assigned_place == end => {
                self.0.remove(&item.assigned);
            }
            raw::ASSIGNMENT => {
                let times = self.latest(item.assigned).2 + 1;
                let record = (item.place, item.number, times);
                self.0.insert(item.assigned, record);
            }
            _ => {}
        }
    }
}

/// Reads a logbook of any make to its end or refusal; each entry tells the latest assignment of its number.
fn round(seed: u64, round: usize, counts: &mut Counts) {
    let book = any_make(&mut Random::new(seed, round), round);
    let (mut reading, mut assignments) = (raw::fresh(), Assignments::default());
    loop {
        let answer = our_step(&book.bytes, book.bytes.len(), &reading);
        let Answer::Stepped { step, .. } = answer else {
            unreachable!("a step is answered by a step");
        };
        let item = step.item;
        if matches!(item.kind, raw::END | raw::REFUSED) {
            return;
        }
        let (place, number, times) = match is_live(&item) {
            true => assignments.latest(item.row.number),
            false => (0, 0, 0),
        };
        let told = (item.declared_place, item.declared_number);
        if told != (place, number) {
            eprintln!("round {round} of seed {seed}: {}", hex(&book.bytes));
            panic!("{told:?} is told and ({place}, {number}) is right: {item:?}");
        }
        counts.entries += u64::from(is_live(&item));
        counts.declared += u64::from(times > 0);
        counts.anew += u64::from(times > 1);
        assignments.take(&item);
        reading = step.reading;
    }
}

#[test]
fn each_entry_tells_the_latest_assignment() {
    let Settings { seed, rounds } = Settings::read("declared");
    let counts: Counts = spread(
        ROUNDS * rounds,
        |number, counts| round(seed, number, counts),
        Counts::join,
    );
    println!("{counts:?}");
    assert!(counts.entries >= 5 * ROUNDS as u64, "too few entries");
    assert!(counts.declared >= counts.entries / 5, "too few declared");
    assert!(
        counts.anew >= counts.declared / 100,
        "too few declared anew"
    );
}

/// A field at its bounds, one off at each side.
fn bounds(reading: &raw::Reading, row: usize) -> Vec<(u32, u32)> {
    let position = reading.position as u32;
    let known = (reading.declared_places[row], reading.declared_numbers[row]);
    let places = [0, 1, known.0, position.wrapping_sub(1), position, u32::MAX];
    let numbers = [0, 1, known.1, position + 1, 1_000_000_000, u32::MAX];
    let all = places
        .iter()
        .flat_map(|&place| numbers.map(|number| (place, number)));
    all.collect()
}

/// Every row of every reading on the way, unused ones too, with place and number at their bounds: by a step and by a move.
#[test]
fn every_bound_of_the_fit_agrees() {
    let Settings { seed, .. } = Settings::read("bounds of a declaration");
    let random = &mut Random::new(seed, 0);
    let mut book = Book::start(random);
    for (number, uri) in [
        (2, "urn:ep:2010"),
        (111, "urn:ep:2017"),
        (2, ""),
        (300, "a:"),
        (2, "b:"),
    ] {
        push_assignment(&mut book.bytes, 1, number, uri.as_bytes());
        push_record(&mut book.bytes, 1, &[&[7], uri.as_bytes()].concat());
    }
    let mut case = Case::of(
        format!("bounds of a declaration, seed {seed}"),
        &book,
        3,
        random,
    );
    let (used, mut tally) = (case.track.used, Tally::default());
    for known in read_through(&mut case, &mut tally) {
        for row in 0..(known.held + 2).min(raw::ROWS) {
            for (place, number) in bounds(&known, row) {
                let mut reading = known;
                (reading.declared_places[row], reading.declared_numbers[row]) = (place, number);
                let step = Box::new(reading);
                case.ask(used, &Request::Step { reading: step }, &mut tally);
                let slow = Box::new(raw::Slow {
                    reading,
                    ..raw::slow_fresh()
                });
                case.ask(used, &Request::Move { slow }, &mut tally);
            }
        }
    }
    println!("{} calls compared\n{tally}", tally.calls());
    for call in [5, 7] {
        assert!(tally.of(call, 0) > 100, "too few that fit");
        assert!(tally.of(call, 13) > 500, "too few that don't");
    }
}

/// Reads a logbook with both and answers what each live entry tells of its number.
fn told(bytes: &[u8]) -> Vec<(usize, usize, usize)> {
    let mut case = Case::new("declared".into(), bytes.to_vec(), bytes.len());
    let mut tally = Tally::default();
    let readings = read_through(&mut case, &mut tally);
    let items = readings
        .iter()
        .map(|reading| raw::step(bytes, bytes.len(), *reading).item);
    items
        .filter(is_live)
        .map(|item| (item.place, item.declared_place, item.declared_number))
        .collect()
}

/// A header, then these bytes.
fn behind_header(push: impl FnOnce(&mut Vec<u8>)) -> Vec<u8> {
    let mut book = Book::start(&mut Random::new(6, 6));
    push(&mut book.bytes);
    book.bytes
}

/// The settled reading's own case: an assignment tells of the number that it is written under, not of itself.
#[test]
fn an_assignment_under_a_declared_number() {
    let bytes = behind_header(|out| {
        push_assignment(out, 1, 1, b"urn:lozizol:type");
        push_assignment(out, 1, 2, b"a:");
        push_assignment(out, 1, 1, b"urn:lozizol:type");
        push_record(out, 1, b"\x02");
    });
    let second = bytes.len() - 3 - 19;
    assert_eq!(
        told(&bytes),
        [
            (0, 0, 0),
            (109, 0, 0),
            (128, 109, 2),
            (second, 109, 2),
            (second + 19, second, 4)
        ]
    );
}

/// Assigning the same URI again declares it anew; an entry erased before isn't counted; a later header leaves none.
#[test]
fn declared_anew_erased_and_emptied() {
    let mut bytes = behind_header(|out| {
        push_assignment(out, 1, 2, b"a:");
        push_record(out, 2, b"x");
        push_assignment(out, 1, 2, b"a:");
        push_record(out, 2, b"y");
    });
    let all = told(&bytes);
    assert_eq!(all[2..], [(114, 109, 2), (117, 0, 0), (122, 117, 4)]);
    bytes[115] = 0;
    assert_eq!(told(&bytes)[2..], [(117, 0, 0), (122, 117, 3)]);
    let header = bytes[..109].to_vec();
    push_assignment(&mut bytes, 1, 111, b"urn:lozizol:header");
    let (assigned, later) = (125, bytes.len());
    bytes.extend_from_slice(&header);
    let last = bytes.len();
    push_assignment(&mut bytes, 1, 2, b"b:");
    push_record(&mut bytes, 2, b"z");
    let all = told(&bytes);
    assert_eq!(
        all[4..],
        [
            (assigned, 0, 0),
            (later, assigned, 5),
            (last, 0, 0),
            (last + 5, last, 7)
        ]
    );
}
