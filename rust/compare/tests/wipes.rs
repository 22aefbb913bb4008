//! Each wipe replayed store by store.

use compare::books::Book;
use compare::case::hex;
use compare::hostile::damaged;
use compare::pieces::{integer, push_integer};
use compare::random::Random;
use compare::settings::{spread, Settings};
use compare::sides::{is_live, our_step, Answer};
use logbook::raw;

/// Rounds of the usual run.
const ROUNDS: usize = 6_000;
/// Body lengths around the widths of a size; the last ones are seldom taken.
const BODIES: [usize; 12] = [
    1, 2, 3, 126, 127, 128, 129, 16_383, 16_384, 16_385, 2_097_151, 2_097_152,
];

/// What the replayed wipes were.
#[derive(Clone, Copy, Default, Debug)]
struct Counts {
    wipes: u64,
    stores: u64,
    refused: u64,
}

impl Counts {
    fn join(&mut self, other: Counts) {
        self.wipes += other.wipes;
        self.stores += other.stores;
        self.refused += other.refused;
    }
}

/// A logbook of the library alone, and the wipe that is tried on it.
struct Wipe {
    name: String,
    buf: Box<[u8]>,
    used: usize,
    place: usize,
    limit: usize,
}

/// A live entry: place, URI and data; the last is the end or the refusal.
type Listed = (usize, usize, Vec<u8>, Vec<u8>);

/// The live entries, then where and how the reading ends.
fn entries(buf: &[u8], used: usize) -> Vec<Listed> {
    let (mut list, mut reading) = (Vec::new(), raw::fresh());
    loop {
        let Answer::Stepped { step, uri, data } = our_step(buf, used, &reading) else {
            unreachable!("a step is answered by a step");
        };
        let over = matches!(step.item.kind, raw::END | raw::REFUSED);
        if over || is_live(&step.item) {
            list.push((step.item.place, step.item.refusal, uri, data));
        }
        if over {
            return list;
        }
        reading = step.reading;
    }
}

impl Wipe {
    fn expect(&self, fine: bool, what: &str) {
        if !fine {
            eprintln!("{}, buffer: {}", self.name, hex(&self.buf));
            let Wipe {
                used, place, limit, ..
            } = self;
            panic!(
                "{}: {what}: used {used}, place {place}, limit {limit}",
                self.name
            );
        }
    }

    /// 01, "Erasing and wiping": the places of all stores of the record, in their order.
    fn order(&self) -> Vec<usize> {
        let (size, width) = integer(&self.buf[self.place..]);
        let body = self.place + width;
        let nonzero = |place: &usize| self.buf[*place] != 0;
        let bytes = (body..body + size as usize).filter(nonzero);
        let sizes = (self.place..body).rev().filter(nonzero);
        bytes.chain(sizes).collect()
    }

    /// One call, then the same by ones, each state looked at.
    fn replay(&self, counts: &mut Counts) {
        let order = self.order();
        let stores = order.len().min(self.limit);
        let mut at_once = self.buf.clone();
        let answer = raw::wipe(&mut at_once, self.used, self.place, self.limit);
        self.expect(
            (answer.refusal, answer.stores) == (0, stores),
            "count of stores",
        );
        let differ = self.buf.iter().zip(&at_once[..]).filter(|(a, b)| a != b);
        self.expect(differ.count() == stores, "bytes that differ");
        let list = entries(&self.buf, self.used);
        let mut state = self.buf.clone();
        for (store, &place) in order.iter().take(stores).enumerate() {
            let before = state.clone();
            let answer = raw::wipe(&mut state, self.used, self.place, 1);
            self.expect((answer.refusal, answer.stores) == (0, 1), "a single store");
            let changed = before[..place] == state[..place]
                && before[place + 1..] == state[place + 1..]
                && (before[place] != 0 && state[place] == 0);
            self.expect(changed, &format!("store {store} is not at {place} alone"));
            self.expect(entries(&state, self.used) == list, "the list changed");
        }
        self.expect(state == at_once, "by ones and at once");
        counts.wipes += 1;
        counts.stores += stores as u64;
        if stores == order.len() {
            let answer = raw::wipe(&mut state, self.used, self.place, self.limit);
            let refused = (answer.refusal, answer.place, answer.stores);
            self.expect(refused == (8, self.place, 0), "nothing is left");
            self.expect(state == at_once, "a refused wipe stores nothing");
            counts.refused += 1;
        }
    }
}

/// The places of the deleted records, as a reading of the library meets them.
fn deleted(buf: &[u8], used: usize) -> Vec<usize> {
    let (mut places, mut reading) = (Vec::new(), raw::fresh());
    loop {
        let step = raw::step(buf, used, reading);
        match step.item.kind {
            raw::END | raw::REFUSED => return places,
            raw::DELETED => places.push(step.item.place),
            _ => {}
        }
        reading = step.reading;
    }
}

/// The deleted records of a logbook of any make; entries are erased first at times.
fn any_record(name: &str, random: &mut Random, counts: &mut Counts) {
    let book = match random.below(4) {
        0 => damaged(random, 14),
        _ => Book::grown(random, 14),
    };
    let used = book.bytes.len();
    let mut buf: Box<[u8]> = [book.bytes, random.bytes(5)].concat().into();
    for place in book.places {
        if random.one_in(2) {
            raw::erase(&mut buf, used, place);
        }
    }
    for place in deleted(&buf, used) {
        let (size, _) = integer(&buf[place..]);
        if size < 400 {
            let limit = random.pick(&[0, 1, 2, 5, size as usize, usize::MAX]);
            wipe(name, &buf, used, place, limit).replay(counts);
        }
    }
}

/// A deleted record of a given length, nearly all zero, between two entries.
fn sparse_record(name: &str, random: &mut Random, counts: &mut Counts) {
    let longest = if random.one_in(60) { 12 } else { 10 };
    let length = BODIES[random.below(longest)];
    let mut bytes = Book::grown(random, 6).bytes;
    let place = bytes.len();
    push_integer(&mut bytes, length as u64);
    let body = bytes.len();
    bytes.resize(body + length, 0);
    for _ in 0..random.below(6) {
        let any = random.below(length);
        let near = random.pick(&[1.min(length - 1), length - 1, any]);
        bytes[body + near] = random.byte();
    }
    // The type's byte.
    bytes[body] = 0;
    bytes.push(0);
    let used = bytes.len();
    let limit = random.pick(&[0, 1, 2, usize::MAX, usize::MAX]);
    wipe(name, &bytes, used, place, limit).replay(counts);
}

fn wipe(name: &str, buf: &[u8], used: usize, place: usize, limit: usize) -> Wipe {
    Wipe {
        name: name.to_owned(),
        buf: buf.into(),
        used,
        place,
        limit,
    }
}

#[test]
fn every_store_keeps_the_list() {
    let Settings { seed, rounds } = Settings::read("wipes");
    let counts = spread(
        ROUNDS * rounds,
        |round, counts| {
            let random = &mut Random::new(seed, round);
            let name = format!("wipe, seed {seed}, round {round}");
            match round % 4 {
                0 => sparse_record(&name, random, counts),
                _ => any_record(&name, random, counts),
            }
        },
        Counts::join,
    );
    println!("{counts:?}");
    assert!(counts.wipes >= 10_000 && counts.stores >= 50_000 && counts.refused >= 1_000);
}
