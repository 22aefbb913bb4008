//! 02 [5], "Bigger type numbers": numbers at the ends of every width, by every call and in readings
//! handed in; as many of nine bytes as the register takes.

use compare::calls::read_through;
use compare::case::Case;
use compare::pieces::*;
use compare::random::Random;
use compare::records::{ask_all, behind_header, WALKS};
use compare::settings::Settings;
use compare::sides::{Answer, Request};
use compare::tally::Tally;
use logbook::raw;

/// Every power of 128 and its neighbours, the ends of 32 and of 64 bits, numbers whose lowest 32
/// bits are those of an implied one, and 0.
fn edges() -> Vec<u64> {
    let powers = (1..=9).flat_map(|power| {
        let least = 1u64 << (7 * power);
        [least - 1, least, least + 1]
    });
    let bits = [31, 32].map(|bits| 1 << bits);
    let mut all: Vec<u64> = powers.chain(bits).collect();
    all.extend([0, u32::MAX.into(), 1 << 32 | 1, 1 << 32 | 111]);
    all.extend([1 << 63 | 111, u64::MAX - 1, u64::MAX]);
    all.sort_unstable();
    all.dedup();
    assert_eq!(all.len(), 3 * 9 + 9);
    all
}

/// Whether a number may be assigned.
fn is_sound(number: u64) -> bool {
    number != 0 && number < 1 << 63
}

/// A number's bytes.
fn written(number: u64) -> Vec<u8> {
    let mut bytes = Vec::new();
    push_integer(&mut bytes, number);
    assert_eq!(bytes.len(), 1 + number.ilog2() as usize / 7);
    bytes
}

fn append(uri: &[u8], data: &[u8]) -> Request {
    let (uri, data) = (uri.to_vec(), data.to_vec());
    Request::Append { uri, data }
}

fn assign(number: u64, uri: &[u8]) -> Request {
    let uri = uri.to_vec();
    Request::Assign { number, uri }
}

fn erase(place: usize) -> Request {
    Request::Erase { place }
}

/// Asks at the used length; answers the refusal's number and the place.
fn ask(case: &mut Case, request: &Request, tally: &mut Tally) -> (usize, usize) {
    case.ask(case.track.used, request, tally).refusal()
}

/// Asks for records that are written; they are these, and nothing else changes before them.
#[track_caller]
fn writes(case: &mut Case, request: &Request, records: &[u8], tally: &mut Tally) -> usize {
    let (used, before) = (case.track.used, case.buf().to_vec());
    let (refusal, place) = ask(case, request, tally);
    assert_eq!(refusal, 0, "{request:?}");
    assert_eq!(case.buf()[..used], before[..used], "{request:?}");
    assert_eq!(&case.buf()[used..case.track.used], records, "{request:?}");
    place
}

/// Reads and lists to the end.
fn read(case: &mut Case, tally: &mut Tally) -> raw::Reading {
    assert_eq!(ask(case, &Request::List { room: 320 }, tally), (0, 0));
    let last = *read_through(case, tally).last().expect("a reading");
    assert_eq!(last.position, case.track.used);
    last
}

/// A record of this type number.
fn record(number: u64, data: &[u8]) -> Vec<u8> {
    let mut bytes = Vec::new();
    push_record(&mut bytes, number, data);
    bytes
}

/// An assignment under a number.
fn assignment(under: u64, number: u64, uri: &[u8]) -> Vec<u8> {
    let mut bytes = Vec::new();
    push_assignment(&mut bytes, under, number, uri);
    bytes
}

/// Asks for an assignment, which is written under a number; answers its place.
#[track_caller]
fn assigns(case: &mut Case, under: u64, number: u64, uri: &[u8], tally: &mut Tally) -> usize {
    writes(
        case,
        &assign(number, uri),
        &assignment(under, number, uri),
        tally,
    )
}

/// Asks for an entry, which is written under a number alone; answers its place.
#[track_caller]
fn appends(case: &mut Case, number: u64, uri: &[u8], data: &[u8], tally: &mut Tally) -> usize {
    writes(case, &append(uri, data), &record(number, data), tally)
}

/// A header with this room behind it.
fn fresh(name: String, room: usize) -> Case {
    Case::new(name, behind_header(&vec![0xEE; room]), HEADER_LENGTH)
}

/// Assigns a number and appends under it; then the entry is erased and wiped by ones.
fn entries(number: u64, tally: &mut Tally) {
    let case = &mut fresh(format!("entries under {number}"), 200);
    assigns(case, 1, number, b"a:", tally);
    let place = appends(case, number, b"a:", b"P7", tally);
    let last = read(case, tally);
    assert!(last.numbers[..last.held].contains(&number));
    assert_eq!(ask(case, &erase(place), tally), (0, place + 1));
    let rest = [&[0], &written(number)[1..], b"P7"].concat();
    assert_eq!(&case.buf()[place + 1..case.track.used], rest);
    let nonzero = 1 + rest.iter().filter(|&&byte| byte != 0).count();
    for _ in 0..nonzero {
        let wiped = case.ask(case.track.used, &Request::Wipe { place, limit: 1 }, tally);
        assert!(matches!(wiped, Answer::Wiped(done) if done.stores == 1));
        read(case, tally);
    }
    assert!(case.buf()[place..case.track.used]
        .iter()
        .all(|&byte| byte == 0));
    assert_eq!(
        ask(case, &Request::Wipe { place, limit: 1 }, tally),
        (8, place)
    );
}

/// Lets a number alone assign, and be removed by an assignment under itself.
fn assignments(number: u64, tally: &mut Tally) {
    let case = &mut fresh(format!("assignments under {number}"), 300);
    assigns(case, 1, number, TYPE, tally);
    assigns(case, 1, 1, b"", tally);
    assigns(case, number, number - 1, b"b:", tally);
    // The smallest number that isn't held.
    let both = [assignment(number, 1, b"c:"), record(1, b"P7")].concat();
    writes(case, &append(b"c:", b"P7"), &both, tally);
    let place = appends(case, number - 1, b"b:", b"", tally);
    read(case, tally);
    let first = HEADER_LENGTH;
    assert_eq!(ask(case, &erase(first), tally), (9, first));
    assert_eq!(ask(case, &erase(place), tally), (0, place + 1));
    assigns(case, number, number, b"", tally);
    assert_eq!(ask(case, &append(b"d:", b""), tally), (11, 0));
    assert_eq!(read(case, tally).held, 3);
}

/// No number but 111 takes urn:lozizol:header, none urn:lozizol:deleted: in a request and in a file.
fn reserved_names(number: u64, tally: &mut Tally) {
    for name in [HEADER, DELETED] {
        let case = &mut fresh(format!("names for {number}"), 60);
        assert_eq!(ask(case, &assign(number, name), tally), (10, 0));
        let bytes = behind_header(&assignment(1, number, name));
        let answers = ask_all(format!("{number} in a file"), &bytes, HEADER_LENGTH, tally);
        assert_eq!(answers, [(5, HEADER_LENGTH); WALKS], "{number}");
    }
}

#[test]
fn every_call_takes_them() {
    let mut tally = Tally::default();
    let (sound, over): (Vec<u64>, Vec<u64>) =
        edges().into_iter().partition(|&number| is_sound(number));
    assert_eq!((sound.len(), over.len()), (30, 6));
    for number in sound {
        entries(number, &mut tally);
        assignments(number, &mut tally);
        reserved_names(number, &mut tally);
    }
    for number in over {
        let case = &mut fresh(format!("number {number}"), 200);
        let before = case.buf().to_vec();
        for uri in [&b"a:"[..], b"", TYPE, HEADER, DELETED, b"no"] {
            assert_eq!(
                ask(case, &assign(number, uri), &mut tally),
                (10, 0),
                "{number}"
            );
        }
        assert_eq!(case.buf(), before);
    }
    println!("{} calls compared\n{tally}", tally.calls());
    assert!(tally.great >= 300 && tally.of(2, 10) == 36 + 60);
}

/// A header, `a:` in an assignment, and entries: under each of the two numbers that may be one's,
/// and under 3. Answers where the entries are.
fn entries_under(numbers: [u64; 2]) -> (Vec<u8>, Vec<(u64, usize)>) {
    let mut bytes = behind_header(&assignment(1, 2, b"a:"));
    let mut places = Vec::new();
    for number in numbers
        .into_iter()
        .filter(|&number| is_sound(number))
        .chain([3])
    {
        places.push((number, bytes.len()));
        push_record(&mut bytes, number, b"P7");
    }
    (bytes, places)
}

/// A reading at a place, with these numbers for `a:`, which stands at 112.
fn holding(position: usize, numbers: &[u64]) -> raw::Reading {
    let mut reading = raw::fresh();
    (reading.position, reading.count, reading.held) = (position, 2, numbers.len());
    for (row, &number) in numbers.iter().enumerate() {
        reading.numbers[row] = number;
        (reading.places[row], reading.lengths[row]) = (112, 2);
        (reading.declared_places[row], reading.declared_numbers[row]) = (109, 2);
    }
    reading
}

/// Steps a reading that is handed in.
fn step(case: &mut Case, reading: raw::Reading, tally: &mut Tally) -> raw::Step {
    let reading = Box::new(reading);
    match case.ask(case.track.used, &Request::Step { reading }, tally) {
        Answer::Stepped { step, .. } => *step,
        _ => unreachable!("a step is answered by a step"),
    }
}

#[test]
fn readings_with_two_of_them() {
    let (mut tally, mut fitting) = (Tally::default(), 0);
    for pair in edges()
        .into_iter()
        .flat_map(|a| edges().into_iter().map(move |b| [a, b]))
    {
        let fits = pair[0] < pair[1] && pair.iter().all(|&number| is_sound(number));
        let (bytes, places) = entries_under(pair);
        let used = bytes.len();
        let case = &mut Case::new(format!("rows of {pair:?}"), bytes, used);
        for (number, place) in places {
            let reading = holding(place, &pair);
            let stepped = step(case, reading, &mut tally);
            let item = stepped.item;
            match (fits, number) {
                (false, _) => assert_eq!((item.refusal, item.place), (13, 0), "{pair:?}"),
                (_, 3) => assert_eq!((item.refusal, item.place), (6, place), "{pair:?}"),
                _ => assert_eq!(
                    (item.kind, item.row.number),
                    (raw::ENTRY, number),
                    "{pair:?}"
                ),
            }
            assert_eq!(stepped.reading.numbers, reading.numbers);
        }
        fitting += usize::from(fits);
    }
    println!(
        "{fitting} pairs fit, {} calls compared\n{tally}",
        tally.calls()
    );
    assert_eq!(fitting, 30 * 29 / 2);
    assert!(tally.of(5, 13) >= 2_000 && tally.great >= 400);
}

/// Only 1 and 111 are implied.
#[test]
fn readings_with_one_of_them_implied() {
    let mut tally = Tally::default();
    for number in edges().into_iter().chain([1, 111]) {
        let (bytes, places) = entries_under([number, 0]);
        let used = bytes.len();
        let case = &mut Case::new(format!("an implied {number}"), bytes, used);
        let mut reading = holding(places[0].1, &[number]);
        (reading.places[0], reading.lengths[0]) = (0, 0);
        (reading.declared_places[0], reading.declared_numbers[0]) = (0, 0);
        let refusal = step(case, reading, &mut tally).item.refusal;
        assert_eq!(refusal != 13, matches!(number, 1 | 111), "{number}");
    }
    println!("{} calls compared\n{tally}", tally.calls());
    assert_eq!(tally.of(5, 13), 36);
}

/// Thirty-three different numbers of nine bytes, rising: the last ones there are, ones with the
/// same lowest 32 bits, any.
fn of_nine_bytes(kind: usize, random: &mut Random) -> Vec<u64> {
    let numbers = (0..33).map(|index| match kind {
        0 => NUMBER_LIMIT - 32 + index,
        1 => 1 << 56 | index << 32 | 2,
        _ => (1 << 56) + (index << 57) / 2 + (random.bits() >> 9),
    });
    let numbers: Vec<u64> = numbers.collect();
    assert!(numbers.windows(2).all(|pair| pair[0] < pair[1]));
    assert!(numbers.iter().all(|&number| written(number).len() == 9));
    numbers
}

/// The URI of the number at an index.
fn uri(index: usize) -> Vec<u8> {
    format!("a:{index}").into_bytes()
}

/// Thirty numbers beside 1 and 111, assigned in this order; the thirty-first is one too many.
fn fill(numbers: &[u64], order: &[usize], tally: &mut Tally) {
    let case = &mut fresh(format!("{numbers:?} by {order:?}"), 2_000);
    for &index in order {
        let (number, uri) = (numbers[index], uri(index));
        assigns(case, 1, number, &uri, tally);
    }
    let used = case.track.used;
    assert_eq!(ask(case, &assign(numbers[30], b"b:"), tally), (7, used));
    assert_eq!(ask(case, &append(b"b:", b""), tally), (7, used));
    let further = [&case.buf()[..used], &assignment(1, numbers[30], b"b:")].concat();
    let answers = ask_all(format!("{numbers:?} and one more"), &further, used, tally);
    assert_eq!(answers, [(7, used); WALKS]);
    for (index, &number) in numbers[..30].iter().enumerate() {
        appends(case, number, &uri(index), b"P7", tally);
    }
    let last = read(case, tally);
    assert_eq!(last.numbers[..], [&[1, 111], &numbers[..30]].concat());
    // One that isn't held, one that is, and its room again.
    for number in [numbers[30], numbers[7]] {
        assigns(case, 1, number, b"", tally);
    }
    assigns(case, 1, numbers[30], b"b:", tally);
    let used = case.track.used;
    assert_eq!(ask(case, &assign(numbers[7], b"b:"), tally), (7, used));
    assert_eq!(read(case, tally).held, 32);
}

#[test]
fn thirty_of_nine_bytes_beside_the_implied() {
    let Settings { seed, .. } = Settings::read("numbers of nine bytes");
    let mut tally = Tally::default();
    for kind in 0..3 {
        let random = &mut Random::new(seed, kind);
        let numbers = of_nine_bytes(kind, random);
        let rising: Vec<usize> = (0..30).collect();
        let falling: Vec<usize> = (0..30).rev().collect();
        let mut mixed = rising.clone();
        (0..30).for_each(|index| mixed.swap(index, random.below(30)));
        for order in [rising, falling, mixed] {
            fill(&numbers, &order, &mut tally);
        }
    }
    println!("{} calls compared\n{tally}", tally.calls());
    assert!(tally.great >= 9 * 60);
}

/// Thirty-two numbers and no other: the first one stands for urn:lozizol:type, and the implied ones
/// are removed.
fn fill_alone(numbers: &[u64], tally: &mut Tally) {
    let case = &mut fresh(format!("{numbers:?} alone"), 2_000);
    let under = numbers[0];
    assigns(case, 1, under, TYPE, tally);
    assigns(case, 1, 1, b"", tally);
    assigns(case, under, 111, b"", tally);
    for (index, &number) in numbers.iter().enumerate().take(32).skip(1) {
        assigns(case, under, number, &uri(index), tally);
    }
    let used = case.track.used;
    assert_eq!(ask(case, &assign(numbers[32], b"b:"), tally), (7, used));
    assert_eq!(ask(case, &append(b"b:", b""), tally), (7, used));
    let places: Vec<usize> = (1..32)
        .map(|index| appends(case, numbers[index], &uri(index), b"P7", tally))
        .collect();
    assert_eq!(read(case, tally).numbers[..], numbers[..32]);
    for place in places {
        assert_eq!(ask(case, &erase(place), tally), (0, place + 1));
        let wiped = case.ask(case.track.used, &Request::Wipe { place, limit: 99 }, tally);
        assert!(matches!(wiped, Answer::Wiped(done) if done.refusal == 0 && done.stores > 3));
    }
    assert_eq!(read(case, tally).count, 35);
}

#[test]
fn thirty_two_of_nine_bytes_alone() {
    let Settings { seed, .. } = Settings::read("numbers of nine bytes alone");
    let mut tally = Tally::default();
    for kind in 0..3 {
        fill_alone(
            &of_nine_bytes(kind, &mut Random::new(seed, kind)),
            &mut tally,
        );
    }
    println!("{} calls compared\n{tally}", tally.calls());
    assert!(tally.great >= 3 * 60);
}

/// A reading from outside whose 32 rows all have nine bytes, the eighth for urn:lozizol:type.
fn full_reading(position: usize, numbers: &[u64]) -> raw::Reading {
    let mut reading = holding(position, &numbers[..32]);
    (reading.places[7], reading.lengths[7]) = (117, TYPE.len() as u32);
    reading
}

/// A header, `a:` at 112, urn:lozizol:type at 117, and these records; answers where they start.
fn with_names(records: &[Vec<u8>]) -> (Vec<u8>, Vec<usize>) {
    let names = [assignment(1, 2, b"a:"), assignment(1, 3, TYPE)].concat();
    let mut bytes = behind_header(&names);
    assert_eq!((&bytes[112..114], &bytes[117..133]), (&b"a:"[..], TYPE));
    let places = records.iter().map(|record| {
        bytes.extend_from_slice(record);
        bytes.len() - record.len()
    });
    let places = places.collect();
    (bytes, places)
}

/// Each of the 32 numbers is found, one beside it in its row isn't taken for it, and the 33rd isn't
/// held.
fn find_each(numbers: &[u64], tally: &mut Tally) {
    let plain: Vec<Vec<u8>> = numbers
        .iter()
        .map(|&number| record(number, b"P7"))
        .collect();
    let (bytes, places) = with_names(&plain);
    let used = bytes.len();
    let case = &mut Case::new(format!("rows of {numbers:?}"), bytes, used);
    for (row, &place) in places.iter().enumerate().filter(|(row, _)| *row != 7) {
        let reading = full_reading(place, numbers);
        let item = step(case, reading, tally).item;
        if row == 32 {
            assert_eq!((item.refusal, item.place), (6, place));
            continue;
        }
        assert_eq!((item.kind, item.row.number), (raw::ENTRY, numbers[row]));
        let mut other = reading;
        other.numbers[row] += 1;
        let twice = row < 31 && other.numbers[row] == numbers[row + 1];
        let due = if twice { (13, 0) } else { (6, place) };
        let item = step(case, other, tally).item;
        assert_eq!((item.refusal, item.place), due);
        other.numbers[row] = numbers[row] | 1 << 63;
        assert_eq!(step(case, other, tally).item.refusal, 13);
    }
}

/// Assignments under a number of nine bytes, with 32 such numbers held.
fn assign_further(numbers: &[u64], tally: &mut Tally) {
    let (under, held, further) = (numbers[7], numbers[31], numbers[32]);
    let (bytes, places) = with_names(&[
        assignment(under, further, b"b:"),
        assignment(under, held, b"b:"),
        assignment(under, held, b""),
        assignment(under, further, b"c:"),
        record(further, b"P7"),
    ]);
    let used = bytes.len();
    let case = &mut Case::new(format!("assignments under {under}"), bytes, used);
    let refused = step(case, full_reading(places[0], numbers), tally);
    assert_eq!((refused.item.refusal, refused.item.place), (7, places[0]));
    let mut stepped = step(case, full_reading(places[1], numbers), tally);
    assert_eq!((stepped.item.assigned, stepped.reading.held), (held, 32));
    assert_eq!(stepped.reading.places[31] as usize, places[2] - 2);
    stepped = step(case, stepped.reading, tally);
    assert_eq!((stepped.item.assigned, stepped.reading.held), (held, 31));
    assert_eq!(stepped.reading.numbers[30..], [numbers[30], 0]);
    stepped = step(case, stepped.reading, tally);
    assert_eq!((stepped.item.assigned, stepped.reading.held), (further, 32));
    assert_eq!(stepped.reading.numbers[30..], [numbers[30], further]);
    stepped = step(case, stepped.reading, tally);
    assert_eq!(
        (stepped.item.kind, stepped.item.row.number),
        (raw::ENTRY, further)
    );
}

#[test]
fn readings_with_32_of_nine_bytes() {
    let Settings { seed, .. } = Settings::read("readings of nine bytes");
    let mut tally = Tally::default();
    for kind in 0..3 {
        let numbers = of_nine_bytes(kind, &mut Random::new(seed, kind));
        find_each(&numbers, &mut tally);
        assign_further(&numbers, &mut tally);
    }
    println!("{} calls compared\n{tally}", tally.calls());
    assert!(tally.great >= 3 * 34 && tally.of(5, 7) == 3);
}
