//! The listing in pieces: whole lines, joined the text of the independent reader.

use compare::books::Book;
use compare::case::hex;
use compare::hostile::{crafted, damaged, noise};
use compare::pieces::push_record;
use compare::random::Random;
use compare::readings::outside;
use compare::settings::{spread, Settings};
use compare::sides::{from_theirs, to_theirs};
use logbook::raw;

/// Files of the usual run.
const FILES: usize = 12_000;
/// Rooms for a piece; with less than 320 nothing is written.
const ROOMS: [usize; 7] = [0, 1, 319, 320, 321, 1_000, 30_000];

/// What the listed files were.
#[derive(Clone, Copy, Default, Debug)]
struct Counts {
    files: u64,
    pieces: u64,
    empty: u64,
}

impl Counts {
    fn join(&mut self, other: Counts) {
        self.files += other.files;
        self.pieces += other.pieces;
        self.empty += other.empty;
    }
}

/// One piece into `room` bytes: whole lines, nothing behind them, no room left unused.
fn piece(file: &[u8], reading: raw::Reading, room: usize, text: &mut Vec<u8>) -> raw::Listed {
    let mut out = vec![0xEE; room].into_boxed_slice();
    let listed = raw::list(reading, file, &mut out);
    let (written, rest) = out.split_at(listed.length);
    assert!(written.is_empty() || written.ends_with(b"\n"));
    assert!(
        rest.iter().all(|&byte| byte == 0xEE),
        "written past the length"
    );
    assert!(
        listed.over == 1 || rest.len() < raw::LINE_LIMIT,
        "stopped with room left"
    );
    assert!(
        room >= raw::LINE_LIMIT || (listed.length, listed.over) == (0, 0),
        "written without room"
    );
    text.extend_from_slice(written);
    listed
}

/// Lists a file from a reading on, a piece of another room each time, and compares.
fn check(file: &[u8], from: raw::Reading, random: &mut Random, counts: &mut Counts) {
    let expected = lines(file, &from);
    let (mut text, mut reading) = (Vec::new(), from);
    let fixed = random.one_in(2).then(|| random.pick(&ROOMS[3..]));
    loop {
        let room = fixed.unwrap_or_else(|| random.pick(&ROOMS));
        let listed = piece(file, reading, room, &mut text);
        counts.pieces += 1;
        counts.empty += u64::from(listed.length == 0);
        if listed.over == 1 {
            break;
        }
        reading = listed.reading;
    }
    let text = String::from_utf8_lossy(&text);
    let expected = String::from_utf8_lossy(&expected);
    assert_eq!(text, expected, "the file: {}\nfrom {from:?}", hex(file));
    counts.files += 1;
}

/// The lines from a reading on, by steps of the independent reader.
fn lines(file: &[u8], from: &raw::Reading) -> Vec<u8> {
    let mut reading = to_theirs(from);
    let mut text = Vec::new();
    if file.len() > raw::FILE_LIMIT {
        return b"refused\t1\t0\n".to_vec();
    }
    loop {
        let (answer, next) = reading.step(file, file.len());
        let line = match answer {
            Err(refused) => format!("refused\t{}\t{}\n", refused.number, refused.place),
            Ok(reader::Item::End { place }) => format!("end\t{place}\n"),
            Ok(reader::Item::Entry {
                place,
                number,
                uri,
                data,
                ..
            }) => {
                text.extend_from_slice(format!("{place}\t{number}\t").as_bytes());
                text.extend_from_slice(uri);
                reading = next;
                text.extend_from_slice(format!("\t{}\n", data.len()).as_bytes());
                continue;
            }
            Ok(_) => {
                reading = next;
                continue;
            }
        };
        text.extend_from_slice(line.as_bytes());
        return text;
    }
}

/// A file of any make.
fn any_file(random: &mut Random) -> Book {
    let items = random.below(40);
    match random.below(4) {
        0 => damaged(random, items),
        1 => crafted(random, items),
        2 => noise(random),
        _ => Book::grown(random, items),
    }
}

#[test]
fn pieces_join_to_the_text() {
    let Settings { seed, rounds } = Settings::read("listing");
    let counts = spread(
        FILES * rounds,
        |round, counts| {
            let random = &mut Random::new(seed, round);
            let file = any_file(random).bytes;
            assert_eq!(lines(&file, &raw::fresh()), reader::listing(&file));
            check(&file, raw::fresh(), random, counts);
        },
        Counts::join,
    );
    println!("{counts:?}");
    assert!(counts.files >= 10_000 && counts.pieces >= 2 * counts.files && counts.empty > 1_000);
}

/// A reading from outside is listed as its steps say, 13 among them.
#[test]
fn readings_from_outside_are_listed() {
    let Settings { seed, rounds } = Settings::read("listing from outside");
    let mut counts = Counts::default();
    for round in 0..FILES * rounds {
        let random = &mut Random::new(!seed, round);
        let book = any_file(random);
        let mut known = reader::Reading::fresh();
        for _ in 0..random.below(8) {
            known = known.step(&book.bytes, book.bytes.len()).1;
        }
        let track = compare::case::Track {
            reading: from_theirs(&known),
            ..compare::case::Track::new(book.bytes.len(), book.places)
        };
        let reading = outside(random, &book.bytes, &track);
        check(&book.bytes, reading, random, &mut counts);
    }
    println!("from outside: {counts:?}");
    assert!(counts.files >= 10_000);
}

#[test]
fn the_longest_file() {
    let random = &mut Random::new(1, 0);
    let mut counts = Counts::default();
    for length in [65_535, 65_536, 65_537, 70_000] {
        for padded in [true, false] {
            let mut file = Book::start(random).bytes;
            file.extend_from_slice(b"\x04\x01\x02a:");
            while !padded && file.len() + 300 < length {
                push_record(&mut file, 2, b"shot");
            }
            file.resize(length, 0);
            let text = reader::listing(&file);
            assert_eq!(text == b"refused\t1\t0\n", length > raw::FILE_LIMIT);
            assert_eq!(lines(&file, &raw::fresh()), text);
            check(&file, raw::fresh(), random, &mut counts);
        }
    }
    println!("long files: {counts:?}");
}
