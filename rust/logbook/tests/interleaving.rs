//! Calls made while a reading is under way give the same as made before or after it.

mod common;

use common::morning;
use logbook::{raw, Item, Logbook, Place, Reading, Refusal};

#[derive(Clone, Debug)]
enum Call {
    Append(&'static str, Vec<u8>),
    Assign(u64, &'static str),
    Erase(Place),
    Wipe(Place, usize),
    Step,
}

const NUMBERS: [u64; 6] = [0, 1, 2, 3, 1 << 32 | 2, raw::NUMBER_LIMIT];
const URIS: [&str; 5] = ["", "urn:ep:2010", "urn:ep:2017", "a:", "urn:lozizol:type"];

/// A series' state: the logbook, one reading of it, and whether that has come to its end.
struct Series<'a> {
    log: Logbook<'a>,
    reading: Reading,
    ended: bool,
    list: Vec<String>,
}

impl<'a> Series<'a> {
    fn new(log: Logbook<'a>) -> Series<'a> {
        Series {
            log,
            reading: Reading::fresh(),
            ended: false,
            list: Vec::new(),
        }
    }

    /// Makes a call and answers all that it answered.
    fn make(&mut self, call: &Call) -> String {
        match call {
            Call::Append(uri, data) => format!("{:?}", self.log.append(uri, data)),
            Call::Assign(number, uri) => format!("{:?}", self.log.assign(*number, uri)),
            Call::Erase(place) => format!("{:?}", self.log.erase(*place)),
            Call::Wipe(place, limit) => format!("{:?}", self.log.wipe(*place, *limit)),
            Call::Step => self.step(),
        }
    }

    fn step(&mut self) -> String {
        let (answer, next) = match self.log.step(&self.reading) {
            Ok(Some((item, next))) => (format!("{item:?} {next:?}"), next),
            other => (format!("{other:?}"), self.reading),
        };
        self.reading = next;
        if !self.ended {
            self.ended = answer == "Ok(None)";
            self.list.push(answer.clone());
        }
        answer
    }

    /// Whether a call is to be made before the reading in the other order.
    fn is_early(&self, call: &Call) -> bool {
        match call {
            Call::Erase(place) | Call::Wipe(place, _) => {
                !self.ended && *place >= self.reading.position()
            }
            _ => !self.ended,
        }
    }
}

/// A generator of numbers that look random: the same ones on every run.
struct Numbers(u64);

impl Numbers {
    fn below(&mut self, bound: usize) -> usize {
        self.0 ^= self.0 << 13;
        self.0 ^= self.0 >> 7;
        self.0 ^= self.0 << 17;
        (self.0 % bound as u64) as usize
    }

    fn call(&mut self, used: usize) -> Call {
        let place = Place(self.below(used + 4));
        match self.below(9) {
            0 => Call::Append(URIS[self.below(5)], vec![7; self.below(9)]),
            1 => Call::Assign(NUMBERS[self.below(6)], URIS[self.below(5)]),
            2..=3 => Call::Erase(place),
            4 => Call::Wipe(place, self.below(4)),
            _ => Call::Step,
        }
    }

    /// A place where an item starts, so that erases and wipes find something.
    fn item_place(&mut self, log: &Logbook<'_>) -> Place {
        let places = log.items().filter_map(|item| match item {
            Ok(Item::Entry(entry)) => Some(entry.place),
            Ok(Item::Deleted { place, .. }) => Some(place),
            _ => None,
        });
        let places: Vec<_> = places.collect();
        places[self.below(places.len())]
    }
}

/// Runs a series as it comes, then in the other order, and holds both against each other.
fn same_in_both_orders(numbers: &mut Numbers) -> Result<(), Refusal> {
    let (mut one, mut other) = ([0; 400], [0; 400]);
    let mut series = Series::new(morning(&mut one)?);
    let (mut early, mut late) = (Vec::new(), Vec::new());
    for _ in 0..40 {
        let mut call = numbers.call(series.log.used());
        if numbers.below(4) > 0 {
            let place = numbers.item_place(&series.log);
            match &mut call {
                Call::Erase(asked) | Call::Wipe(asked, _) => *asked = place,
                _ => {}
            }
        }
        let is_early = series.is_early(&call);
        let is_listed = matches!(call, Call::Step) && !series.ended;
        let answer = series.make(&call);
        match (is_listed, is_early) {
            (true, _) => {}
            (false, true) => early.push((call, answer)),
            (false, false) => late.push((call, answer)),
        }
    }
    let mut sorted = Series::new(morning(&mut other)?);
    for (call, answer) in early {
        assert_eq!(sorted.make(&call), answer, "{call:?}");
    }
    while !sorted.ended {
        sorted.step();
    }
    for (call, answer) in late {
        assert_eq!(sorted.make(&call), answer, "{call:?}");
    }
    let length = series.list.len();
    assert_eq!(series.list, sorted.list[..length]);
    assert!(!series.ended || length == sorted.list.len());
    assert_eq!(series.log.into_parts(), sorted.log.into_parts());
    Ok(())
}

#[test]
fn any_series() -> Result<(), Refusal> {
    let mut numbers = Numbers(0x9E37_79B9_7F4A_7C15);
    for _ in 0..3000 {
        same_in_both_orders(&mut numbers)?;
    }
    Ok(())
}

#[test]
fn a_tablet_reads_while_a_shot_is_erased() -> Result<(), Refusal> {
    let mut buffer = [0; 200];
    let mut log = morning(&mut buffer)?;
    let mut reading = Reading::fresh();
    let mut shots = Vec::new();
    while let Some((item, next)) = log.step(&reading)? {
        if let Item::Entry(entry) = item {
            shots.push((entry.uri.to_vec(), entry.data.to_vec()));
        }
        reading = next;
        if reading.position() == Place(127) {
            // P7 has been passed; the assignment behind it can't be hit.
            log.erase(Place(123))?;
            log.wipe_all(Place(123))?;
            assert_eq!(
                log.erase(Place(127)),
                Err(Refusal::Fixed { place: Place(127) })
            );
            log.append("urn:ep:2010", "P9")?;
        }
    }
    let shots: Vec<_> = shots
        .iter()
        .filter(|(uri, _)| uri.starts_with(b"urn:ep:"))
        .map(|(uri, data)| (uri.as_slice(), data.as_slice()))
        .collect();
    let expected: [(&[u8], &[u8]); 3] = [
        (b"urn:ep:2010", b"P7"),
        (b"urn:ep:2017", b"P8"),
        (b"urn:ep:2010", b"P9"),
    ];
    assert_eq!(shots, expected);
    Ok(())
}
