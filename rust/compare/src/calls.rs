//! Every call against the independent one, over logbooks and requests of every make.

use crate::books::{long_uri, number, Book, URIS};
use crate::case::Case;
use crate::hostile::{crafted, damaged, noise};
use crate::pieces::*;
use crate::random::Random;
use crate::readings::{outside, outside_slow};
use crate::requests::draw;
use crate::sides::{is_live, theirs, Answer, Request};
use crate::tally::Tally;
use logbook::raw;

/// Numbers to assign at their bounds.
const NUMBER_BOUNDS: [u64; 11] = [
    0,
    1,
    111,
    127,
    128,
    SIZE_LIMIT,
    SIZE_LIMIT + 1,
    1 << 32 | 111,
    NUMBER_LIMIT,
    NUMBER_LIMIT + 1,
    u64::MAX,
];
/// Requests to a logbook in one round.
const REQUESTS: usize = 40;

/// One round, which follows from the seed and its own number.
pub fn round(seed: u64, round: usize, tally: &mut Tally) {
    let random = &mut Random::new(seed, round);
    let name = |kind: &str| format!("{kind}, seed {seed}, round {round}");
    match round % 9 {
        0..=2 => {
            let items = random.below(40);
            let book = Book::grown(random, items);
            mixed(name("sound"), random, &book, tally);
        }
        3 | 4 => {
            let items = random.below(30);
            let book = damaged(random, items);
            mixed(name("damaged"), random, &book, tally);
        }
        5 => {
            let items = random.below(20);
            let book = crafted(random, items);
            mixed(name("crafted"), random, &book, tally);
        }
        6 => {
            let book = noise(random);
            mixed(name("noise"), random, &book, tally);
        }
        7 => from_outside(name("readings from outside"), random, tally),
        _ => tight(name("exact room"), random, tally),
    }
}

/// Any calls in any order, after a reading from front to end in some rounds.
fn mixed(name: String, random: &mut Random, book: &Book, tally: &mut Tally) {
    let slack = random.pick(&[0, 1, 5, 30, 200, 500]);
    let mut case = Case::of(name, book, slack, random);
    if random.one_in(3) {
        read_through(&mut case, tally);
        case.track.reading = raw::fresh();
    }
    if random.one_in(6) {
        move_through(&mut case, tally);
        case.track.slow = raw::slow_fresh();
    }
    for _ in 0..REQUESTS {
        let (used, request) = draw(random, &case);
        case.ask(used, &request, tally);
    }
}

/// Reads to the end or the refusal, and answers the readings on the way.
pub fn read_through(case: &mut Case, tally: &mut Tally) -> Vec<raw::Reading> {
    let mut readings = vec![raw::fresh()];
    case.track.reading = raw::fresh();
    loop {
        let request = Request::Step {
            reading: Box::new(case.track.reading),
        };
        let Answer::Stepped { step, .. } = case.ask(case.track.used, &request, tally) else {
            unreachable!("a step is answered by a step");
        };
        if !is_live(&step.item) && !matches!(step.item.kind, raw::PADDING | raw::DELETED) {
            return readings;
        }
        readings.push(step.reading);
    }
}

/// The same in moves.
pub fn move_through(case: &mut Case, tally: &mut Tally) -> Vec<raw::Slow> {
    let mut readings = vec![raw::slow_fresh()];
    case.track.slow = raw::slow_fresh();
    loop {
        let request = Request::Move {
            slow: Box::new(case.track.slow),
        };
        let Answer::Moved { moved, .. } = case.ask(case.track.used, &request, tally) else {
            unreachable!("a move is answered by a move");
        };
        if matches!(moved.item.kind, raw::END | raw::REFUSED) {
            return readings;
        }
        readings.push(moved.slow);
    }
}

/// Steps and moves of readings that the logbook never gave.
fn from_outside(name: String, random: &mut Random, tally: &mut Tally) {
    let items = random.between(2, 30);
    let book = match random.below(3) {
        0 => crafted(random, items),
        _ => Book::grown(random, items),
    };
    let mut case = Case::of(name, &book, 3, random);
    let known = read_through(&mut case, tally);
    for _ in 0..2 * REQUESTS {
        case.track.reading = random.pick(&known);
        let reading = Box::new(outside(random, case.buf(), &case.track));
        let mut request = Request::Step { reading };
        // Some go on from there: what they bring along stays in force.
        for _ in 0..random.pick(&[1, 1, 1, 4]) {
            case.ask(case.track.used, &request, tally);
            request = Request::Step {
                reading: Box::new(case.track.reading),
            };
        }
    }
    slow_from_outside(&mut case, random, tally);
}

/// The same in moves.
fn slow_from_outside(case: &mut Case, random: &mut Random, tally: &mut Tally) {
    let known = move_through(case, tally);
    for _ in 0..2 * REQUESTS {
        case.track.slow = random.pick(&known);
        case.track.reading = case.track.slow.reading;
        let slow = Box::new(outside_slow(random, case.buf(), &case.track));
        let mut request = Request::Move { slow };
        for _ in 0..random.pick(&[1, 1, 2, 4]) {
            case.ask(case.track.used, &request, tally);
            request = Request::Move {
                slow: Box::new(case.track.slow),
            };
        }
    }
}

/// Appends and assignments into a buffer that has just the room, or a byte more or less.
fn tight(name: String, random: &mut Random, tally: &mut Tally) {
    let items = random.below(12);
    let book = Book::grown(random, items);
    for _ in 0..4 {
        let request = match random.below(3) {
            0 => Request::Assign {
                number: match random.below(3) {
                    0 => number(random),
                    _ => random.between(1, 300) as u64,
                },
                uri: random.pick(&URIS).to_vec(),
            },
            _ => {
                let length = match random.below(60) {
                    0 => random.pick(&[16_384, 65_534, 65_535, 65_536]),
                    _ => random.below(140),
                };
                Request::Append {
                    uri: random.pick(&URIS).to_vec(),
                    data: random.bytes(length),
                }
            }
        };
        let need = room_needed(&book.bytes, &request);
        for slack in [need, need.saturating_sub(1), need + 1, need / 2] {
            let mut case = Case::of(name.clone(), &book, slack, random);
            case.ask(book.bytes.len(), &request, tally);
        }
    }
}

/// How many bytes the request's records take, as the independent writer has it; 0 where refused.
fn room_needed(book: &[u8], request: &Request) -> usize {
    let mut buf = book.to_vec();
    buf.resize(book.len() + 67_000, 0);
    match theirs(&mut buf, book.len(), request) {
        Answer::Appended(done) => done.used - book.len(),
        _ => 0,
    }
}

/// Every stated bound of every request, each with each.
pub fn bounds(seed: u64, tally: &mut Tally) {
    let random = &mut Random::new(seed, usize::MAX);
    starts(random, tally);
    for kind in 0..5 {
        let mut book = Book::start(random);
        match kind {
            0 => {}
            1 => book = Book::grown(random, 12),
            2 => book.fill(random),
            3 => push_assignment(&mut book.bytes, 1, 1, b""),
            _ => book.bytes.push(0x80),
        }
        let name = format!("bounds {kind}, seed {seed}");
        let case = &mut Case::of(name, &book, 40, random);
        let (used, length) = (case.track.used, case.buf().len());
        let lengths = [0, 1, 108, 109, used - 1, used + 1, length, length + 1];
        for used in [used].into_iter().chain(lengths).chain([usize::MAX]) {
            assignments(case, used, random, tally);
            places(case, used, tally);
        }
    }
    for data in [65_535, 65_536] {
        let book = Book::start(random);
        let name = format!("long data, seed {seed}");
        let mut case = Case::of(name, &book, 66_000, random);
        case.ask(HEADER_LENGTH, &append(b"a:", data), tally);
        read_through(&mut case, tally);
    }
}

fn starts(random: &mut Random, tally: &mut Tally) {
    for length in [0, 1, 108, 109, 110, 200] {
        for uuid in [0, 15, 16, 17] {
            for free in [0, 59, 60, 61] {
                let name = format!("start in {length} bytes");
                let mut case = Case::new(name, random.bytes(length), 0);
                let request = Request::Start {
                    uuid: random.bytes(uuid),
                    free: random.bytes(free),
                };
                case.ask(0, &request, tally);
            }
        }
    }
}

fn assignments(case: &mut Case, used: usize, random: &mut Random, tally: &mut Tally) {
    let mut uris = vec![
        Vec::new(),
        b"a".to_vec(),
        b":".to_vec(),
        b"a:".to_vec(),
        long_uri(random, 255),
        long_uri(random, 256),
    ];
    uris.extend([TYPE, HEADER, DELETED].map(<[u8]>::to_vec));
    for uri in uris {
        case.ask(used, &append(&uri, 3), tally);
        for number in NUMBER_BOUNDS {
            case.ask(used, &assign(number, &uri), tally);
        }
    }
}

fn places(case: &mut Case, used: usize, tally: &mut Tally) {
    let mut places = vec![0, 1, 108, 109, usize::MAX - 1, usize::MAX];
    places.extend([
        used.wrapping_sub(1),
        used,
        used.wrapping_add(1),
        case.buf().len(),
    ]);
    places.extend(case.track.places.iter().take(8));
    for place in places {
        for limit in [0, 1, 2, 3, usize::MAX] {
            case.ask(used, &Request::Wipe { place, limit }, tally);
        }
        case.ask(used, &Request::Erase { place }, tally);
    }
}

/// A buffer at and over the greatest used length, with a URI that stands near its end.
pub fn large(seed: u64, tally: &mut Tally) {
    let random = &mut Random::new(seed, usize::MAX - 1);
    let mut book = Book::start(random);
    push_assignment(&mut book.bytes, 1, 2, b"a:");
    let place = book.bytes.len();
    // An entry that leaves 20 bytes up to the limit, its size four bytes long.
    let near = USED_LIMIT - 20;
    push_record(&mut book.bytes, 2, &random.bytes(near - place - 5));
    assert_eq!(book.bytes.len(), near);
    let case = &mut Case::of(format!("large, seed {seed}"), &book, 40, random);
    for used in [USED_LIMIT, USED_LIMIT + 1, USED_LIMIT + 20, near] {
        let reading = Box::new(case.track.reading);
        case.ask(used, &Request::Step { reading }, tally);
        case.ask(used, &Request::Erase { place: usize::MAX }, tally);
        case.ask(used, &append(b"a:", 19), tally);
    }
    case.ask(near, &assign(3, b"b:"), tally);
    case.ask(near + 5, &append(b"b:", 14), tally);
    case.ask(near + 5, &append(b"b:", 13), tally);
    assert_eq!(case.track.used, USED_LIMIT);
    let rows = read_through(case, tally).pop().expect("a reading");
    assert_eq!(rows.places[2] as usize, near + 3);
    case.ask(USED_LIMIT, &append(b"a:", 0), tally);
    case.ask(USED_LIMIT, &assign(2, b""), tally);
    case.ask(USED_LIMIT, &Request::Erase { place: near }, tally);
    case.ask(USED_LIMIT, &Request::Erase { place: near + 5 }, tally);
    case.ask(USED_LIMIT, &Request::Erase { place }, tally);
    case.ask(USED_LIMIT, &Request::Wipe { place, limit: 3 }, tally);
    case.ask(USED_LIMIT, &Request::List { room: 320 }, tally);
}

fn append(uri: &[u8], data: usize) -> Request {
    Request::Append {
        uri: uri.to_vec(),
        data: vec![7; data],
    }
}

fn assign(number: u64, uri: &[u8]) -> Request {
    let uri = uri.to_vec();
    Request::Assign { number, uri }
}
