//! Sound logbooks of every make.

use crate::pieces::*;
use crate::random::Random;

/// The most type numbers held at once.
const ROWS: usize = 32;

/// Type numbers of one to four bytes, at and around their widths, and the implied ones.
const NUMBERS: [u64; 22] = [
    1,
    2,
    3,
    4,
    5,
    6,
    7,
    8,
    9,
    110,
    111,
    112,
    127,
    128,
    129,
    16_383,
    16_384,
    2_097_151,
    2_097_152,
    100_000_000,
    SIZE_LIMIT - 1,
    SIZE_LIMIT,
];

/// Type numbers of five to nine bytes, at and around their widths. The lowest 32 bits of some are
/// those of another number.
const GREAT: [u64; 16] = [
    SIZE_LIMIT + 1,
    SIZE_LIMIT + 2,
    1 << 32,
    1 << 32 | 1,
    1 << 32 | 2,
    1 << 32 | 111,
    (1 << 35) - 1,
    1 << 35,
    (1 << 42) - 1,
    1 << 42,
    (1 << 49) - 1,
    1 << 49,
    (1 << 56) - 1,
    1 << 56 | 2,
    NUMBER_LIMIT - 1,
    NUMBER_LIMIT,
];

/// A type number: mostly one that others take too, once in four of five to nine bytes.
pub fn number(random: &mut Random) -> u64 {
    match random.below(16) {
        0 => great(random),
        1..=3 => random.pick(&GREAT),
        _ => random.pick(&NUMBERS),
    }
}

/// A type number of five to nine bytes: of each width as likely, at its ends or anywhere within.
pub fn great(random: &mut Random) -> u64 {
    let width = random.between(5, 9);
    let (least, most) = (1 << (7 * (width - 1)), (1 << (7 * width)) - 1);
    match random.below(6) {
        0 => least,
        1 => most,
        2 => least | random.between(1, 300) as u64,
        _ => least | random.bits() & most,
    }
}

/// URIs that may be appended, some of them near the three names.
pub const URIS: [&[u8]; 12] = [
    b"urn:ep:2010",
    b"urn:ep:2017",
    b"a:",
    b"a:b",
    b"a::",
    b"Z9+-.:!~",
    b"URN:lozizol:type",
    b"urn:lozizol:typ",
    b"urn:lozizol:types",
    b"urn:lozizol:headers",
    b"urn:lozizol:delete",
    b"urn:lozizol:",
];

/// A URI that may be appended.
pub fn uri(random: &mut Random) -> Vec<u8> {
    match random.below(40) {
        0 => long_uri(random, 255),
        1 => {
            let length = random.between(2, 60);
            long_uri(random, length)
        }
        _ => random.pick(&URIS).to_vec(),
    }
}

/// A URI of that length, at least 2.
pub fn long_uri(random: &mut Random, length: usize) -> Vec<u8> {
    let scheme = random.between(1, length - 1);
    let mut uri = vec![random.pick(b"azAZ")];
    while uri.len() < scheme {
        uri.push(random.pick(b"azAZ09+-."));
    }
    uri.push(b':');
    while uri.len() < length {
        uri.push(random.between(0x21, 0x7E) as u8);
    }
    uri
}

/// The length of an entry's data: mostly short, at times around a size's widths.
pub fn data_length(random: &mut Random) -> usize {
    match random.below(400) {
        0 => random.between(16_378, 16_386),
        1..=20 => random.between(122, 130),
        21..=60 => random.between(0, 1),
        _ => random.below(12),
    }
}

/// A logbook that reads to its end, with what is held there.
#[derive(Clone)]
pub struct Book {
    /// Its bytes, all used.
    pub bytes: Vec<u8>,
    /// Where its items start.
    pub places: Vec<usize>,
    held: Vec<(u64, Vec<u8>)>,
}

impl Book {
    /// A header alone.
    pub fn start(random: &mut Random) -> Book {
        let mut book = Book {
            bytes: Vec::new(),
            places: Vec::new(),
            held: Vec::new(),
        };
        book.header(random);
        book
    }

    /// A sound logbook with about that many items.
    pub fn grown(random: &mut Random, items: usize) -> Book {
        let mut book = Book::start(random);
        let full = random.one_in(6);
        for item in 0..items {
            if full && item == items / 2 {
                book.fill(random);
            }
            book.add(random);
        }
        book
    }

    /// One more item, of any sort.
    fn add(&mut self, random: &mut Random) {
        match random.below(16) {
            0..=5 => self.entry(random),
            6..=9 => self.assign(random),
            10 => self.remove(random),
            11 | 12 => self.deleted(random),
            13 => self.padding(random),
            14 if self.holds(111, HEADER) && random.one_in(3) => self.header(random),
            _ => self.names(random),
        }
    }

    fn here(&mut self) {
        self.places.push(self.bytes.len());
    }

    fn holds(&self, number: u64, uri: &[u8]) -> bool {
        self.held
            .iter()
            .any(|row| row.0 == number && row.1.as_slice() == uri)
    }

    /// A number, smallest or not, that holds this URI or, where none is given, a plain one.
    fn holder(&self, random: &mut Random, uri: Option<&[u8]>) -> Option<u64> {
        let fits = |row: &&(u64, Vec<u8>)| match uri {
            Some(uri) => row.1 == uri,
            None => row.1 != TYPE && row.1 != HEADER,
        };
        let numbers: Vec<u64> = self.held.iter().filter(fits).map(|row| row.0).collect();
        (!numbers.is_empty()).then(|| random.pick(&numbers))
    }

    /// A header: the first, or a later one.
    fn header(&mut self, random: &mut Random) {
        self.here();
        push_header(&mut self.bytes, random);
        self.held = vec![(1, TYPE.to_vec()), (111, HEADER.to_vec())];
    }

    /// A plain entry under a held number; an assignment where there is none.
    fn entry(&mut self, random: &mut Random) {
        let length = data_length(random);
        let data = random.bytes(length);
        self.entry_of(random, &data);
    }

    fn entry_of(&mut self, random: &mut Random, data: &[u8]) {
        match self.holder(random, None) {
            Some(number) => {
                self.here();
                push_record(&mut self.bytes, number, data);
            }
            None => self.assign(random),
        }
    }

    /// An entry that has the three names in its data, for rows from outside.
    fn names(&mut self, random: &mut Random) {
        let data = [TYPE, HEADER, DELETED].concat();
        self.entry_of(random, &data);
    }

    /// An assignment; padding where no number holds urn:lozizol:type.
    fn assign(&mut self, random: &mut Random) {
        let mut number = number(random);
        let held = self.held.iter().any(|row| row.0 == number);
        if !held && self.held.len() == ROWS {
            number = random.pick(&self.held.iter().map(|row| row.0).collect::<Vec<_>>());
        }
        let uri = match random.below(8) {
            0 => TYPE.to_vec(),
            1 | 2 if number == 111 => HEADER.to_vec(),
            _ => uri(random),
        };
        self.assign_to(random, number, uri);
    }

    fn assign_to(&mut self, random: &mut Random, number: u64, uri: Vec<u8>) {
        let Some(under) = self.holder(random, Some(TYPE)) else {
            return self.padding(random);
        };
        self.here();
        push_assignment(&mut self.bytes, under, number, &uri);
        self.held.retain(|row| row.0 != number);
        if !uri.is_empty() {
            self.held.push((number, uri));
        }
    }

    /// A removal, mostly of a held number.
    fn remove(&mut self, random: &mut Random) {
        let number = match self.held.as_slice() {
            held if !held.is_empty() && !random.one_in(4) => held[random.below(held.len())].0,
            _ => number(random),
        };
        self.assign_to(random, number, Vec::new());
    }

    /// Assignments until 32 numbers are held; in some books most of them are great ones.
    pub fn fill(&mut self, random: &mut Random) {
        let mut number = random.between(2, 9) as u64;
        while self.held.len() < ROWS && self.holder(random, Some(TYPE)).is_some() {
            let uri = random.pick(&URIS).to_vec();
            if self.held.iter().all(|row| row.0 != number) {
                self.assign_to(random, number, uri);
            }
            number += match random.below(32) {
                0 => 1 << random.between(28, 57),
                1..=4 => 100,
                _ => 1,
            };
        }
    }

    /// A deleted record: of any body, of a type whose first byte was erased, or half wiped.
    fn deleted(&mut self, random: &mut Random) {
        self.here();
        let length = data_length(random);
        let mut body = random.bytes(length);
        let zero = random.between(0, length);
        if random.one_in(2) {
            body[..zero].fill(0);
        }
        push_record(&mut self.bytes, 0, &body);
    }

    /// Padding, at times as long as a size's widths.
    fn padding(&mut self, random: &mut Random) {
        let length = match random.below(12) {
            0 => random.between(100, 140),
            _ => random.between(1, 4),
        };
        self.here();
        self.bytes.resize(self.bytes.len() + length, 0);
    }
}
