//! One form for what is asked of the two implementations and what they answer.
//!
//! An answer has the library's own structs. What the independent reader says
//! is brought into them; fields that it has no word for (a record's type
//! place, its row, the number that an assignment assigns) are taken from the
//! bytes, as `logbook.h` describes them.

use crate::pieces::integer;
use crate::tally::FULL_FOR_REQUEST;
use logbook::raw;

/// What is asked. The buffer and its used length come beside it.
#[derive(Clone, Debug)]
pub enum Request {
    /// Start a logbook.
    Start { uuid: Vec<u8>, free: Vec<u8> },
    /// Append an entry.
    Append { uri: Vec<u8>, data: Vec<u8> },
    /// Assign a number, or remove it.
    Assign { number: u64, uri: Vec<u8> },
    /// Erase an entry.
    Erase { place: usize },
    /// Wipe a deleted record.
    Wipe { place: usize, limit: usize },
    /// Read one item.
    Step { reading: Box<raw::Reading> },
    /// List the used bytes as a file, in pieces of that many bytes (at least 320).
    List { room: usize },
    /// Take the next part of one item.
    Move { slow: Box<raw::Slow> },
}

impl Request {
    /// The call's row in a tally.
    pub fn call(&self) -> usize {
        match self {
            Request::Start { .. } => 0,
            Request::Append { .. } => 1,
            Request::Assign { .. } => 2,
            Request::Erase { .. } => 3,
            Request::Wipe { .. } => 4,
            Request::Step { .. } => 5,
            Request::List { .. } => 6,
            Request::Move { .. } => 7,
        }
    }
}

/// What is answered: every field of it is compared.
#[derive(Clone, PartialEq, Debug)]
pub enum Answer {
    /// Of a start.
    Started(raw::Started),
    /// Of an append or an assignment.
    Appended(raw::Appended),
    /// Of an erase.
    Erased(raw::Erased),
    /// Of a wipe.
    Wiped(raw::Wiped),
    /// Of a step, with a live entry's URI and data as they are now.
    Stepped {
        step: Box<raw::Step>,
        uri: Vec<u8>,
        data: Vec<u8>,
    },
    /// Of a listing: its whole text.
    Listed(Vec<u8>),
    /// Of a move, with a live entry's URI and data as they are now.
    Moved {
        moved: Box<raw::Moved>,
        uri: Vec<u8>,
        data: Vec<u8>,
    },
}

impl Answer {
    /// The column in a tally; `used` is the used length that was handed in.
    pub fn column(&self, used: usize) -> usize {
        match (self, self.refusal()) {
            (Answer::Appended(_), (7, place)) if place == used => FULL_FOR_REQUEST,
            (_, (number, _)) => number,
        }
    }

    /// The refusal's number and place; the number of a result is 0.
    pub fn refusal(&self) -> (usize, usize) {
        match self {
            Answer::Started(answer) => (answer.refusal, answer.place),
            Answer::Appended(answer) => (answer.refusal, answer.place),
            Answer::Erased(answer) => (answer.refusal, answer.place),
            Answer::Wiped(answer) => (answer.refusal, answer.place),
            Answer::Stepped { step, .. } => (step.item.refusal, step.item.place),
            Answer::Listed(text) => listed_refusal(text),
            Answer::Moved { moved, .. } => (moved.item.refusal, moved.item.place),
        }
    }
}

/// Number and place of the refusal in the last line of a listing; the number is 0 where it ends.
fn listed_refusal(text: &[u8]) -> (usize, usize) {
    let last = text.trim_ascii_end().rsplit(|&byte| byte == b'\n').next();
    let mut words = last.unwrap_or_default().split(|&byte| byte == b'\t');
    if words.next() != Some(b"refused") {
        return (0, 0);
    }
    let mut figure = || words.next().unwrap_or_default().iter().fold(0, tenfold);
    (figure(), figure())
}

/// A decimal number with one more digit.
fn tenfold(number: usize, digit: &u8) -> usize {
    number * 10 + usize::from(digit - b'0')
}

/// The library's answer.
pub fn ours(buf: &mut [u8], used: usize, request: &Request) -> Answer {
    match request {
        Request::Start { uuid, free } => Answer::Started(raw::start(buf, uuid, free)),
        Request::Append { uri, data } => Answer::Appended(raw::append(buf, used, uri, data)),
        Request::Assign { number, uri } => Answer::Appended(raw::assign(buf, used, *number, uri)),
        Request::Erase { place } => Answer::Erased(raw::erase(buf, used, *place)),
        Request::Wipe { place, limit } => Answer::Wiped(raw::wipe(buf, used, *place, *limit)),
        Request::Step { reading } => our_step(buf, used, reading),
        Request::List { room } => Answer::Listed(our_listing(file(buf, used), *room)),
        Request::Move { slow } => our_move(buf, used, slow),
    }
}

/// The independent reader's answer.
pub fn theirs(buf: &mut [u8], used: usize, request: &Request) -> Answer {
    match request {
        Request::Start { uuid, free } => Answer::Started(started(reader::start(buf, uuid, free))),
        Request::Append { uri, data } => {
            Answer::Appended(appended(used, reader::append(buf, used, uri, data)))
        }
        Request::Assign { number, uri } => {
            Answer::Appended(appended(used, reader::assign(buf, used, *number, uri)))
        }
        Request::Erase { place } => Answer::Erased(erased(reader::erase(buf, used, *place))),
        Request::Wipe { place, limit } => {
            Answer::Wiped(wiped(reader::wipe(buf, used, *place, *limit)))
        }
        Request::Step { reading } => their_step(buf, used, reading),
        Request::List { .. } => Answer::Listed(reader::listing(file(buf, used))),
        Request::Move { slow } => their_move(buf, used, slow),
    }
}

/// The used bytes as a file; where the used length is over, the whole buffer.
fn file(buf: &[u8], used: usize) -> &[u8] {
    buf.get(..used).unwrap_or(buf)
}

/// The bytes of a row's URI, as the library says where they stand; none if it refuses the row.
pub fn our_uri(buf: &[u8], used: usize, row: raw::Row) -> Option<&[u8]> {
    let answer = raw::uri(buf.len(), used, row);
    let text = match answer.implied {
        0 => buf,
        _ => raw::IMPLIED_NAMES,
    };
    (answer.refusal == 0).then(|| &text[answer.place..answer.place + answer.length])
}

/// Whether the item is a live entry.
pub fn is_live(item: &raw::Item) -> bool {
    matches!(item.kind, raw::ENTRY | raw::HEADER | raw::ASSIGNMENT)
}

/// A step of the library, with the URI and data of a live entry.
pub fn our_step(buf: &[u8], used: usize, reading: &raw::Reading) -> Answer {
    let step = Box::new(raw::step(buf, used, *reading));
    let (uri, data) = live_parts(buf, used, &step.item);
    Answer::Stepped { step, uri, data }
}

/// A move of the library, with the URI and data of a live entry.
pub fn our_move(buf: &[u8], used: usize, slow: &raw::Slow) -> Answer {
    let moved = Box::new(raw::move_on(buf, used, *slow));
    let (uri, data) = live_parts(buf, used, &moved.item);
    Answer::Moved { moved, uri, data }
}

/// The URI and data of a live entry, none of any other item.
fn live_parts(buf: &[u8], used: usize, item: &raw::Item) -> (Vec<u8>, Vec<u8>) {
    if !is_live(item) {
        return (Vec::new(), Vec::new());
    }
    let uri = our_uri(buf, used, item.row).unwrap_or(b"(refused)");
    let data = &buf[item.data_place..item.data_place + item.data_length];
    (uri.to_vec(), data.to_vec())
}

/// The library's listing, joined from pieces of at most `room` bytes.
pub fn our_listing(file: &[u8], room: usize) -> Vec<u8> {
    let (mut text, mut reading) = (Vec::new(), raw::fresh());
    let mut out = vec![0; room];
    loop {
        let listed = raw::list(reading, file, &mut out);
        text.extend_from_slice(&out[..listed.length]);
        if listed.over == 1 {
            return text;
        }
        if room - listed.length >= raw::LINE_LIMIT {
            text.extend_from_slice(b"(stopped with room left)");
            return text;
        }
        reading = listed.reading;
    }
}

fn started(answer: Result<usize, reader::Refusal>) -> raw::Started {
    let (refusal, place, used) = match answer {
        Ok(used) => (0, 0, used),
        Err(refused) => (usize::from(refused.number), refused.place, 0),
    };
    raw::Started {
        refusal,
        place,
        used,
    }
}

fn appended(used: usize, answer: Result<reader::Appended, reader::Refusal>) -> raw::Appended {
    let (refusal, place, used) = match answer {
        Ok(done) => (0, done.place, done.used),
        Err(refused) => (usize::from(refused.number), refused.place, used),
    };
    raw::Appended {
        refusal,
        place,
        used,
    }
}

fn erased(answer: Result<usize, reader::Refusal>) -> raw::Erased {
    let (refusal, place) = match answer {
        Ok(place) => (0, place),
        Err(refused) => (usize::from(refused.number), refused.place),
    };
    raw::Erased { refusal, place }
}

fn wiped(answer: Result<usize, reader::Refusal>) -> raw::Wiped {
    let (refusal, place, stores) = match answer {
        Ok(stores) => (0, 0, stores),
        Err(refused) => (usize::from(refused.number), refused.place, 0),
    };
    raw::Wiped {
        refusal,
        place,
        stores,
    }
}

/// A reading as the independent reader has it: a row in use of length 0 is an implied one.
pub fn to_theirs(reading: &raw::Reading) -> reader::Reading {
    let mut theirs = reader::Reading::fresh();
    theirs.position = reading.position;
    theirs.count = reading.count;
    theirs.held = reading.held;
    for (index, row) in theirs.rows.iter_mut().enumerate() {
        row.number = reading.numbers[index];
        row.place = reading.places[index];
        row.length = reading.lengths[index];
        row.declared_place = reading.declared_places[index];
        row.declared_number = reading.declared_numbers[index];
        row.implied = index < reading.held && row.number != 0 && row.length == 0;
    }
    theirs
}

/// A reading as the library has it.
pub fn from_theirs(theirs: &reader::Reading) -> raw::Reading {
    raw::Reading {
        position: theirs.position,
        count: theirs.count,
        held: theirs.held,
        numbers: theirs.rows.map(|row| row.number),
        places: theirs.rows.map(|row| row.place),
        lengths: theirs.rows.map(|row| row.length),
        declared_places: theirs.rows.map(|row| row.declared_place),
        declared_numbers: theirs.rows.map(|row| row.declared_number),
    }
}

/// A step of the independent reader, in the library's structs.
fn their_step(buf: &[u8], used: usize, reading: &raw::Reading) -> Answer {
    let (answer, next) = to_theirs(reading).step(buf, used);
    let (uri, data) = answer.as_ref().map(their_parts).unwrap_or_default();
    let item = match answer {
        Err(refused) => refused_item(refused),
        Ok(item) => their_item(reading, |place| frame_at(buf, place), item),
    };
    let reading = from_theirs(&next);
    Answer::Stepped {
        step: Box::new(raw::Step { item, reading }),
        uri,
        data,
    }
}

/// A slow reading as the library has it.
fn slow_from_theirs(theirs: &reader::SlowReading) -> raw::Slow {
    raw::Slow {
        reading: from_theirs(&theirs.reading),
        type_place: theirs.type_place,
        end: theirs.end,
        number: theirs.number,
        data_place: theirs.data_place,
    }
}

/// A move of the independent reader, in the library's structs. What a size or a type says
/// is what the reading then holds.
fn their_move(buf: &[u8], used: usize, slow: &raw::Slow) -> Answer {
    let before = reader::SlowReading {
        reading: to_theirs(&slow.reading),
        type_place: slow.type_place,
        end: slow.end,
        number: slow.number,
        data_place: slow.data_place,
    };
    let (answer, next) = before.move_on(buf, used);
    let next = slow_from_theirs(&next);
    let position = slow.reading.position;
    let (mut uri, mut data) = (Vec::new(), Vec::new());
    let item = match answer {
        Err(refused) => refused_item(refused),
        Ok(reader::Moved::Size { type_place, end }) => {
            assert_eq!((type_place, end), (next.type_place, next.end));
            plain_item(raw::SIZE_HELD, position)
        }
        Ok(reader::Moved::Type {
            number, data_place, ..
        }) => {
            assert_eq!((number, data_place), (next.number, next.data_place));
            plain_item(raw::TYPE_HELD, position)
        }
        Ok(reader::Moved::Item(item)) => {
            (uri, data) = their_parts(&item);
            let held = |place| match slow.type_place {
                0 => frame_at(buf, place),
                type_place => Frame {
                    type_place,
                    end: slow.end,
                    number: slow.number,
                },
            };
            their_item(&slow.reading, held, item)
        }
    };
    Answer::Moved {
        moved: Box::new(raw::Moved { item, slow: next }),
        uri,
        data,
    }
}

/// Where a record's type and end are, and its type.
struct Frame {
    type_place: usize,
    end: usize,
    number: u64,
}

/// As the bytes at a place have it.
fn frame_at(buf: &[u8], place: usize) -> Frame {
    let (size, width) = integer(&buf[place..]);
    let type_place = place + width;
    Frame {
        type_place,
        end: type_place + size as usize,
        number: integer(&buf[type_place..]).0,
    }
}

/// The URI and data of a live entry, none of any other item.
fn their_parts(item: &reader::Item<'_>) -> (Vec<u8>, Vec<u8>) {
    match item {
        reader::Item::Entry { uri, data, .. } => (uri.to_vec(), data.to_vec()),
        _ => (Vec::new(), Vec::new()),
    }
}

/// An item in the library's struct; the frame is that of the record at its place.
fn their_item(
    reading: &raw::Reading,
    frame: impl FnOnce(usize) -> Frame,
    item: reader::Item<'_>,
) -> raw::Item {
    match item {
        reader::Item::Padding { place } => plain_item(raw::PADDING, place),
        reader::Item::End { place } => plain_item(raw::END, place),
        reader::Item::Deleted { place } => {
            let Frame {
                type_place, end, ..
            } = frame(place);
            raw::Item {
                type_place,
                data_place: type_place,
                data_length: end - type_place,
                ..plain_item(raw::DELETED, place)
            }
        }
        reader::Item::Entry { place, .. } => entry_item(reading, frame(place), item),
    }
}

fn refused_item(refused: reader::Refusal) -> raw::Item {
    raw::Item {
        refusal: usize::from(refused.number),
        ..plain_item(raw::REFUSED, refused.place)
    }
}

/// An item of which only kind and place are known.
fn plain_item(kind: usize, place: usize) -> raw::Item {
    raw::Item {
        kind,
        refusal: 0,
        place,
        number: 0,
        type_place: 0,
        data_place: 0,
        data_length: 0,
        row: raw::Row {
            number: 0,
            place: 0,
            length: 0,
        },
        declared_place: 0,
        declared_number: 0,
        assigned: 0,
        assigned_place: 0,
    }
}

/// A live entry in the library's struct.
fn entry_item(reading: &raw::Reading, frame: Frame, entry: reader::Item<'_>) -> raw::Item {
    let reader::Item::Entry {
        place,
        number,
        kind,
        data_place,
        data,
        declared_place,
        declared_number,
        ..
    } = entry
    else {
        unreachable!("only live entries come here");
    };
    let mut item = raw::Item {
        number,
        type_place: frame.type_place,
        data_place,
        data_length: data.len(),
        row: row_of(reading, frame.number),
        declared_place,
        declared_number,
        ..plain_item(raw::ENTRY, place)
    };
    match kind {
        reader::Kind::Plain => {}
        reader::Kind::Header => item.kind = raw::HEADER,
        reader::Kind::Assignment => {
            let (assigned, width) = integer(data);
            item.kind = raw::ASSIGNMENT;
            item.assigned = assigned;
            item.assigned_place = data_place + width;
        }
    }
    item
}

/// The row of a held number. At place 0 the header is under the implied 111.
fn row_of(reading: &raw::Reading, number: u64) -> raw::Row {
    let rows = &reading.numbers[..reading.held];
    match rows.iter().position(|&held| held == number) {
        Some(row) if reading.position != 0 => raw::Row {
            number,
            place: reading.places[row],
            length: reading.lengths[row],
        },
        _ => raw::Row {
            number,
            place: 0,
            length: 0,
        },
    }
}
