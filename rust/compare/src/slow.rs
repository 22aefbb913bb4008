//! Moves against steps on the library alone: undisturbed, three moves are one step.

use crate::case::{hex, Track};
use crate::hostile::any_make;
use crate::random::Random;
use crate::readings::outside;
use crate::sides::{our_move, our_step, Answer};
use logbook::raw;

/// What was read in both ways.
#[derive(Clone, Copy, Default, Debug)]
pub struct Counts {
    /// Items read by a step and by moves, ends and refusals among them.
    pub items: u64,
    /// Those that took three moves.
    pub threes: u64,
    /// Those that were refused.
    pub refused: u64,
}

impl Counts {
    /// Takes over what another one counted.
    pub fn join(&mut self, other: Counts) {
        self.items += other.items;
        self.threes += other.threes;
        self.refused += other.refused;
    }
}

/// A reading that holds nothing.
fn idle(reading: raw::Reading) -> raw::Slow {
    raw::Slow {
        reading,
        ..raw::slow_fresh()
    }
}

/// Up to three moves, until one of them shows an item: their answer, and how many there were.
fn moves(buf: &[u8], used: usize, reading: raw::Reading) -> (Answer, u64) {
    let mut slow = idle(reading);
    for count in 1..=3 {
        let answer = our_move(buf, used, &slow);
        let Answer::Moved { moved, .. } = &answer else {
            unreachable!("a move is answered by a move");
        };
        if !matches!(moved.item.kind, raw::SIZE_HELD | raw::TYPE_HELD) {
            return (answer, count);
        }
        assert_eq!(moved.slow.reading, reading, "the reading stays");
        slow = moved.slow;
    }
    panic!("three moves have shown nothing: {slow:?}");
}

/// Reads the item at a reading in both ways and compares; the step's answer.
fn compare(buf: &[u8], used: usize, reading: raw::Reading, counts: &mut Counts) -> raw::Step {
    let step = our_step(buf, used, &reading);
    let (last, count) = moves(buf, used, reading);
    let (Answer::Stepped { step, uri, data }, Answer::Moved { moved, .. }) = (step, &last) else {
        unreachable!("a step is answered by a step");
    };
    let slow = match step.item.kind {
        // What was held when a move was refused stays.
        raw::REFUSED => raw::Slow {
            reading,
            ..moved.slow
        },
        _ => idle(step.reading),
    };
    let moved = Box::new(raw::Moved {
        item: step.item,
        slow,
    });
    let alike = Answer::Moved { moved, uri, data };
    if last != alike {
        eprintln!("used length {used}, buffer {}", hex(buf));
        eprintln!("reading: {reading:?}\nby a step: {alike:?}\nby moves:  {last:?}");
        panic!("three moves are not one step");
    }
    counts.items += 1;
    counts.threes += u64::from(count == 3);
    counts.refused += u64::from(step.item.kind == raw::REFUSED);
    *step
}

/// One round: a logbook of any make to its end or refusal, then readings from outside.
pub fn round(seed: u64, round: usize, counts: &mut Counts) {
    let random = &mut Random::new(seed, round);
    let book = any_make(random, round);
    let used = book.bytes.len();
    let mut track = Track::new(used, book.places);
    let mut known = vec![track.reading];
    loop {
        let step = compare(&book.bytes, used, track.reading, counts);
        if matches!(step.item.kind, raw::END | raw::REFUSED) {
            break;
        }
        track.reading = step.reading;
        known.push(step.reading);
    }
    for _ in 0..20 {
        track.reading = random.pick(&known);
        let reading = outside(random, &book.bytes, &track);
        compare(&book.bytes, used, reading, counts);
    }
}
