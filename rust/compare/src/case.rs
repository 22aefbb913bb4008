//! A buffer in two copies, one for each implementation, and the comparison of a call.

use crate::books::Book;
use crate::pieces::SIZE_LIMIT;
use crate::random::Random;
use crate::sides::{ours, theirs, Answer, Request};
use crate::tally::Tally;
use logbook::raw;

/// What is known of a logbook in work: whatever is asked next aims by it.
#[derive(Clone)]
pub struct Track {
    /// The used length.
    pub used: usize,
    /// The reading that came back last.
    pub reading: raw::Reading,
    /// The slow reading that came back last.
    pub slow: raw::Slow,
    /// Places where items start or started.
    pub places: Vec<usize>,
    /// Places of plain entries that were appended or read.
    pub entries: Vec<usize>,
    /// Places that were erased or read as deleted.
    pub erased: Vec<usize>,
}

impl Track {
    /// A logbook that nothing was asked of.
    pub fn new(used: usize, places: Vec<usize>) -> Track {
        Track {
            used,
            reading: raw::fresh(),
            slow: raw::slow_fresh(),
            places,
            entries: Vec::new(),
            erased: Vec::new(),
        }
    }

    /// Goes on from an answer.
    pub fn take(&mut self, request: &Request, answer: &Answer) {
        match (request, answer) {
            (_, Answer::Started(done)) if done.refusal == 0 => self.used = done.used,
            (_, Answer::Appended(done)) if done.refusal == 0 => {
                self.used = done.used;
                match request {
                    Request::Append { .. } => self.entries.push(done.place),
                    _ => self.places.push(done.place),
                }
            }
            (Request::Erase { place }, Answer::Erased(done)) if done.refusal == 0 => {
                self.erased.push(*place);
            }
            (_, Answer::Stepped { step, .. }) => {
                self.reading = step.reading;
                self.see(&step.item);
            }
            (_, Answer::Moved { moved, .. }) => {
                self.slow = moved.slow;
                self.see(&moved.item);
            }
            _ => {}
        }
    }

    /// Goes on from an item.
    fn see(&mut self, item: &raw::Item) {
        match item.kind {
            raw::ENTRY => self.entries.push(item.place),
            raw::DELETED => self.erased.push(item.place),
            _ => {}
        }
    }
}

/// A logbook in work. Between calls the two copies are equal.
///
/// The copies are boxed slices of just their length, so that an access past
/// the end is one past the allocation.
pub struct Case {
    name: String,
    before: Box<[u8]>,
    ours: Box<[u8]>,
    theirs: Box<[u8]>,
    /// What is known of it.
    pub track: Track,
}

impl Case {
    /// A logbook in the first `used` bytes of a buffer.
    pub fn new(name: String, buf: Vec<u8>, used: usize) -> Case {
        let buf = buf.into_boxed_slice();
        Case {
            name,
            before: buf.clone(),
            ours: buf.clone(),
            theirs: buf,
            track: Track::new(used, Vec::new()),
        }
    }

    /// A logbook with `slack` random bytes behind it.
    pub fn of(name: String, book: &Book, slack: usize, random: &mut Random) -> Case {
        let buf = [book.bytes.clone(), random.bytes(slack)].concat();
        let mut case = Case::new(name, buf, book.bytes.len());
        case.track.places.clone_from(&book.places);
        case
    }

    /// The buffer.
    pub fn buf(&self) -> &[u8] {
        &self.ours
    }

    /// Asks both, at this used length, and compares answers and buffers.
    pub fn ask(&mut self, used: usize, request: &Request, tally: &mut Tally) -> Answer {
        let answer = ours(&mut self.ours, used, request);
        let other = theirs(&mut self.theirs, used, request);
        if answer != other || self.ours != self.theirs {
            self.report(used, request, &answer, &other);
        }
        tally.count(request.call(), answer.column(used));
        tally.great += u64::from(meets_great(&answer));
        self.track.take(request, &answer);
        if !matches!(
            request,
            Request::Step { .. } | Request::List { .. } | Request::Move { .. }
        ) {
            self.before.copy_from_slice(&self.ours);
        }
        answer
    }

    /// Prints the whole case and ends the run.
    fn report(&self, used: usize, request: &Request, ours: &Answer, theirs: &Answer) -> ! {
        let apart = (self.ours.iter().zip(self.theirs.iter())).position(|(a, b)| a != b);
        let length = self.before.len();
        eprintln!("{}: the two implementations differ", self.name);
        eprintln!("buffer of {length} bytes: {}", hex(&self.before));
        eprintln!("used length: {used}");
        eprintln!("request: {request:?}");
        eprintln!("library: {ours:?}");
        eprintln!("reader:  {theirs:?}");
        match apart {
            None => eprintln!("the buffers are equal after it"),
            Some(place) => {
                let end = length.min(place + 64);
                eprintln!("the buffers differ from place {place} on");
                eprintln!("library: {}", hex(&self.ours[place..end]));
                eprintln!("reader:  {}", hex(&self.theirs[place..end]));
            }
        }
        panic!("{}: the two implementations differ", self.name);
    }
}

/// Whether a step met a type or an assigned number of five to nine bytes.
fn meets_great(answer: &Answer) -> bool {
    match answer {
        Answer::Stepped { step, .. } => step.item.row.number.max(step.item.assigned) > SIZE_LIMIT,
        _ => false,
    }
}

/// Bytes in hexadecimal.
pub fn hex(bytes: &[u8]) -> String {
    bytes.iter().map(|byte| format!("{byte:02x}")).collect()
}
