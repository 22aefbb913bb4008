//! The C interface (`include/logbook.h`), one to one: its structs, its numbers and its twelve calls,
//! over slices.
//!
//! Every call takes any arguments. A refused call answers the refusal's number and place and
//! changes nothing. The crate's own types stand above this module; it is for those who want the
//! numbers themselves, such as the tests that hold the library against another reader.

/// Bytes of a header, and of a logbook that has been started.
pub const HEADER_LENGTH: usize = 109;
/// Bytes of a UUID, as they are (not its text).
pub const UUID_LENGTH: usize = 16;
/// Bytes of a header's free part.
pub const FREE_LENGTH: usize = 60;
/// The greatest used length.
pub const USED_LIMIT: usize = 16_777_216;
/// The greatest type number: nine bytes as written.
pub const NUMBER_LIMIT: u64 = 9_223_372_036_854_775_807;
/// The most data bytes of an entry that is appended.
pub const DATA_LIMIT: usize = 65_535;
/// The most bytes of a URI.
pub const URI_LIMIT: usize = 255;
/// Type numbers held at once.
pub const ROWS: usize = 32;
/// The longest file that is listed.
pub const FILE_LIMIT: usize = 65_536;
/// Room that a listing asks for each line.
pub const LINE_LIMIT: usize = 320;
/// Bytes of a shot's data.
pub const SHOT_LENGTH: usize = 24;
/// The greatest size of a shot's coordinate, in tenths of a millimetre.
pub const COORDINATE_LIMIT: i64 = 100_000_000_000;
/// The greatest size of the asked epoch less the shot's, in hundredths of a year.
pub const DIFFERENCE_LIMIT: i64 = 100_000;
/// The greatest size of a motion, in tenths of a millimetre a year.
pub const MOTION_LIMIT: i64 = 10_000;

/// An item's kind: one byte of padding.
pub const PADDING: usize = 0;
/// An item's kind: a deleted record.
pub const DELETED: usize = 1;
/// An item's kind: a live entry.
pub const ENTRY: usize = 2;
/// An item's kind: a header, a live entry too.
pub const HEADER: usize = 3;
/// An item's kind: an assignment, a live entry too.
pub const ASSIGNMENT: usize = 4;
/// An item's kind: the used length is reached.
pub const END: usize = 5;
/// An item's kind: nothing was read, see the refusal.
pub const REFUSED: usize = 6;
/// An item's kind, of a move alone: the record's size is taken, its type comes next.
pub const SIZE_HELD: usize = 7;
/// An item's kind, of a move alone: the record's type is taken, its data comes next.
pub const TYPE_HELD: usize = 8;

/// The URIs of the two numbers that a header implies, one behind the other.
pub const IMPLIED_NAMES: &[u8; 34] = b"urn:lozizol:typeurn:lozizol:header";

/// What [`start`] answers.
#[repr(C)]
#[derive(Clone, Copy, PartialEq, Eq, Debug)]
pub struct Started {
    /// 0, or the refusal's number.
    pub refusal: usize,
    /// The refusal's place.
    pub place: usize,
    /// The used length: 109, or 0 where refused.
    pub used: usize,
}

/// What [`append`] and [`assign`] answer.
#[repr(C)]
#[derive(Clone, Copy, PartialEq, Eq, Debug)]
pub struct Appended {
    /// 0, or the refusal's number.
    pub refusal: usize,
    /// Where the last record written starts, or the refusal's place.
    pub place: usize,
    /// The used length after the call.
    pub used: usize,
}

/// What [`erase`] answers.
#[repr(C)]
#[derive(Clone, Copy, PartialEq, Eq, Debug)]
pub struct Erased {
    /// 0, or the refusal's number.
    pub refusal: usize,
    /// Where the byte was stored, or the refusal's place.
    pub place: usize,
}

/// What [`wipe`] answers.
#[repr(C)]
#[derive(Clone, Copy, PartialEq, Eq, Debug)]
pub struct Wiped {
    /// 0, or the refusal's number.
    pub refusal: usize,
    /// The refusal's place.
    pub place: usize,
    /// How many stores were made.
    pub stores: usize,
}

/// A reading: where it stands, how many live entries it has counted, and its register.
#[repr(C)]
#[derive(Clone, Copy, PartialEq, Eq, Debug)]
pub struct Reading {
    /// The place where the next item starts.
    pub position: usize,
    /// Live entries so far.
    pub count: usize,
    /// Rows in use; the others are zero.
    pub held: usize,
    /// The rows' type numbers, rising.
    pub numbers: [u64; ROWS],
    /// Where the rows' URIs start; 0 in a row that a header implies.
    pub places: [u32; ROWS],
    /// The lengths of the rows' URIs; 0 in a row that a header implies.
    pub lengths: [u32; ROWS],
    /// Where the records start that assigned the rows; 0 in a row that a header implies.
    pub declared_places: [u32; ROWS],
    /// These records' entry numbers, never 0; 0 in a row that a header implies.
    pub declared_numbers: [u32; ROWS],
}

/// A row of the register: a type number and where its URI stands.
#[repr(C)]
#[derive(Clone, Copy, PartialEq, Eq, Debug)]
pub struct Row {
    /// The type number.
    pub number: u64,
    /// Where the URI starts; 0 in a row that a header implies.
    pub place: u32,
    /// The URI's length; 0 in a row that a header implies.
    pub length: u32,
}

/// What a step found; the fields that a kind has no use for are 0.
#[repr(C)]
#[derive(Clone, Copy, PartialEq, Eq, Debug)]
pub struct Item {
    /// [`PADDING`] to [`TYPE_HELD`].
    pub kind: usize,
    /// 0, or the refusal's number.
    pub refusal: usize,
    /// Where the item starts; of a refusal its place.
    pub place: usize,
    /// A live entry's number.
    pub number: usize,
    /// Of a record: its first type byte.
    pub type_place: usize,
    /// Of a live entry: behind the type; of a deleted record: its body.
    pub data_place: usize,
    /// From there up to the record's end.
    pub data_length: usize,
    /// Of a live entry: its type number and where its URI stands; see [`uri`].
    pub row: Row,
    /// Of a live entry: where the record starts that gave its type number this URI.
    pub declared_place: usize,
    /// That record's entry number; 0 where there is none, as a header implies the number.
    pub declared_number: usize,
    /// Of an assignment: the number that it assigns or removes.
    pub assigned: u64,
    /// Of an assignment: where that number's URI stands, up to the record's end.
    pub assigned_place: usize,
}

/// What [`step`] answers.
#[repr(C)]
#[derive(Clone, Copy, PartialEq, Eq, Debug)]
pub struct Step {
    /// What was found.
    pub item: Item,
    /// The reading behind the item; at the end, and where refused, as it was handed in.
    pub reading: Reading,
}

/// A slow reading: a reading, and what it holds of the record at its position. What is not held is 0.
#[repr(C)]
#[derive(Clone, Copy, PartialEq, Eq, Debug)]
pub struct Slow {
    /// Position, count and register. The position stays at a record's start until it is done.
    pub reading: Reading,
    /// With the size taken: where the record's type starts.
    pub type_place: usize,
    /// With the size taken: the record's end.
    pub end: usize,
    /// With the type taken: it.
    pub number: u64,
    /// With the type taken: where the record's data starts.
    pub data_place: usize,
}

/// What [`move_on`] answers.
#[repr(C)]
#[derive(Clone, Copy, PartialEq, Eq, Debug)]
pub struct Moved {
    /// What was found; of [`SIZE_HELD`] and [`TYPE_HELD`] `place` is the record's start and all else 0.
    pub item: Item,
    /// The reading behind the move; at the end, and where refused, as it was handed in.
    pub slow: Slow,
}

/// What [`uri`] answers.
#[repr(C)]
#[derive(Clone, Copy, PartialEq, Eq, Debug)]
pub struct UriAnswer {
    /// 0, or the refusal's number.
    pub refusal: usize,
    /// 1 where the URI stands in [`IMPLIED_NAMES`], 0 where it stands in the buffer.
    pub implied: usize,
    /// Where the URI starts.
    pub place: usize,
    /// The URI's length.
    pub length: usize,
}

/// What [`list`] answers.
#[repr(C)]
#[derive(Clone, Copy, PartialEq, Eq, Debug)]
pub struct Listed {
    /// Bytes written.
    pub length: usize,
    /// 1 with the last line.
    pub over: usize,
    /// The reading to go on with.
    pub reading: Reading,
}

/// Whole numbers: tenths of a millimetre, or of a millimetre a year.
#[repr(C)]
#[derive(Clone, Copy, PartialEq, Eq, Debug)]
pub struct Triple {
    /// Along the first axis.
    pub x: i64,
    /// Along the second.
    pub y: i64,
    /// Along the third.
    pub z: i64,
}

/// A point in micrometres. Each number is whole and exact, and never -0.0.
#[repr(C)]
#[derive(Clone, Copy, PartialEq, Debug)]
pub struct Point {
    /// Along the first axis.
    pub x: f64,
    /// Along the second.
    pub y: f64,
    /// Along the third.
    pub z: f64,
}

/// A motion in micrometres a year. Each number is whole and exact, and never -0.0.
#[repr(C)]
#[derive(Clone, Copy, PartialEq, Debug)]
pub struct Motion {
    /// Along the first axis.
    pub x: f64,
    /// Along the second.
    pub y: f64,
    /// Along the third.
    pub z: f64,
}

/// What [`shift`] answers; where refused all but the refusal's number is 0.
#[repr(C)]
#[derive(Clone, Copy, PartialEq, Debug)]
pub struct Shifted {
    /// 0, or the refusal's number.
    pub refusal: usize,
    /// The refusal's place.
    pub place: usize,
    /// The shot's own epoch, in hundredths of a year.
    pub epoch: usize,
    /// The shot's own coordinates.
    pub position: Triple,
    /// The moved point.
    pub point: Point,
    /// The yearly motion.
    pub motion: Motion,
}

mod c {
    use super::{
        Appended, Erased, Listed, Moved, Reading, Row, Shifted, Slow, Started, Step, Triple,
        UriAnswer, Wiped,
    };

    extern "C" {
        pub fn logbook_start(
            buf: *mut u8,
            len: usize,
            uuid: *const u8,
            uuid_len: usize,
            free_part: *const u8,
            free_len: usize,
        ) -> Started;
        pub fn logbook_append(
            buf: *mut u8,
            len: usize,
            used: usize,
            uri: *const u8,
            uri_len: usize,
            data: *const u8,
            data_len: usize,
        ) -> Appended;
        pub fn logbook_assign(
            buf: *mut u8,
            len: usize,
            used: usize,
            number: u64,
            uri: *const u8,
            uri_len: usize,
        ) -> Appended;
        pub fn logbook_erase(buf: *mut u8, len: usize, used: usize, place: usize) -> Erased;
        pub fn logbook_wipe(
            buf: *mut u8,
            len: usize,
            used: usize,
            place: usize,
            limit: usize,
        ) -> Wiped;
        pub fn logbook_fresh() -> Reading;
        pub fn logbook_step(buf: *const u8, len: usize, used: usize, reading: Reading) -> Step;
        pub fn logbook_slow_fresh() -> Slow;
        pub fn logbook_move(buf: *const u8, len: usize, used: usize, slow: Slow) -> Moved;
        pub fn logbook_uri(len: usize, used: usize, row: Row) -> UriAnswer;
        pub fn logbook_list(
            reading: Reading,
            file: *const u8,
            file_len: usize,
            out: *mut u8,
            out_len: usize,
        ) -> Listed;
        pub fn logbook_shift(
            uri: *const u8,
            uri_len: usize,
            data: *const u8,
            data_len: usize,
            asked: i64,
            motion: Triple,
        ) -> Shifted;
    }
}

/// Starts a logbook: a header over the first 109 bytes; the others stay.
#[inline]
pub fn start(buf: &mut [u8], uuid: &[u8], free: &[u8]) -> Started {
    // SAFETY: each pointer is a slice's, given with that slice's length; `buf` is borrowed alone.
    unsafe {
        c::logbook_start(
            buf.as_mut_ptr(),
            buf.len(),
            uuid.as_ptr(),
            uuid.len(),
            free.as_ptr(),
            free.len(),
        )
    }
}

/// Appends an entry by URI; where no number holds the URI, an assignment goes first.
#[inline]
pub fn append(buf: &mut [u8], used: usize, uri: &[u8], data: &[u8]) -> Appended {
    // SAFETY: each pointer is a slice's, given with that slice's length; `buf` is borrowed alone.
    unsafe {
        c::logbook_append(
            buf.as_mut_ptr(),
            buf.len(),
            used,
            uri.as_ptr(),
            uri.len(),
            data.as_ptr(),
            data.len(),
        )
    }
}

/// Assigns a type number; an empty URI removes it.
#[inline]
pub fn assign(buf: &mut [u8], used: usize, number: u64, uri: &[u8]) -> Appended {
    // SAFETY: each pointer is a slice's, given with that slice's length; `buf` is borrowed alone.
    unsafe {
        c::logbook_assign(
            buf.as_mut_ptr(),
            buf.len(),
            used,
            number,
            uri.as_ptr(),
            uri.len(),
        )
    }
}

/// Erases the live entry that starts at a place.
#[inline]
pub fn erase(buf: &mut [u8], used: usize, place: usize) -> Erased {
    // SAFETY: the pointer is the slice's, given with its length; `buf` is borrowed alone.
    unsafe { c::logbook_erase(buf.as_mut_ptr(), buf.len(), used, place) }
}

/// Wipes the deleted record that starts at a place, by at most `limit` stores.
#[inline]
pub fn wipe(buf: &mut [u8], used: usize, place: usize, limit: usize) -> Wiped {
    // SAFETY: the pointer is the slice's, given with its length; `buf` is borrowed alone.
    unsafe { c::logbook_wipe(buf.as_mut_ptr(), buf.len(), used, place, limit) }
}

/// A fresh reading.
#[inline]
pub fn fresh() -> Reading {
    // SAFETY: the call takes nothing and answers a value.
    unsafe { c::logbook_fresh() }
}

/// Reads the item at a reading's position.
#[inline]
pub fn step(buf: &[u8], used: usize, reading: Reading) -> Step {
    // SAFETY: the pointer is the slice's, given with its length, and is only read.
    unsafe { c::logbook_step(buf.as_ptr(), buf.len(), used, reading) }
}

/// A fresh slow reading.
#[inline]
pub fn slow_fresh() -> Slow {
    // SAFETY: the call takes nothing and answers a value.
    unsafe { c::logbook_slow_fresh() }
}

/// Takes the next part of the item at a slow reading's position.
#[inline]
pub fn move_on(buf: &[u8], used: usize, slow: Slow) -> Moved {
    // SAFETY: the pointer is the slice's, given with its length, and is only read.
    unsafe { c::logbook_move(buf.as_ptr(), buf.len(), used, slow) }
}

/// Where the URI of a row stands, for a buffer of `len` bytes.
#[inline]
pub fn uri(len: usize, used: usize, row: Row) -> UriAnswer {
    // SAFETY: the call takes and answers values.
    unsafe { c::logbook_uri(len, used, row) }
}

/// Writes the lines of a listing from a reading on, as many as `out` takes.
#[inline]
pub fn list(reading: Reading, file: &[u8], out: &mut [u8]) -> Listed {
    // SAFETY: each pointer is a slice's, given with that slice's length; `out` is borrowed alone.
    unsafe {
        c::logbook_list(
            reading,
            file.as_ptr(),
            file.len(),
            out.as_mut_ptr(),
            out.len(),
        )
    }
}

/// Shifts a shot to an asked epoch, in hundredths of a year, by a yearly motion.
#[inline]
pub fn shift(uri: &[u8], data: &[u8], asked: i64, motion: Triple) -> Shifted {
    // SAFETY: each pointer is a slice's, given with that slice's length, and is only read.
    unsafe {
        c::logbook_shift(
            uri.as_ptr(),
            uri.len(),
            data.as_ptr(),
            data.len(),
            asked,
            motion,
        )
    }
}

/// The structs' sizes and the places of their fields, as a C compiler has them.
mod layout {
    use super::{
        Appended, Erased, Item, Listed, Motion, Moved, Point, Reading, Row, Shifted, Slow, Started,
        Step, Triple, UriAnswer, Wiped, ROWS,
    };
    use std::mem::{offset_of, size_of};

    const WORD: usize = size_of::<usize>();

    const _: () = assert!(size_of::<Started>() == 3 * WORD);
    const _: () = assert!(offset_of!(Started, used) == 2 * WORD);
    const _: () = assert!(size_of::<Appended>() == 3 * WORD);
    const _: () = assert!(offset_of!(Appended, used) == 2 * WORD);
    const _: () = assert!(size_of::<Erased>() == 2 * WORD);
    const _: () = assert!(offset_of!(Erased, place) == WORD);
    const _: () = assert!(size_of::<Wiped>() == 3 * WORD);
    const _: () = assert!(offset_of!(Wiped, stores) == 2 * WORD);

    const _: () = assert!(size_of::<Reading>() == 3 * WORD + 24 * ROWS);
    const _: () = assert!(offset_of!(Reading, count) == WORD);
    const _: () = assert!(offset_of!(Reading, held) == 2 * WORD);
    const _: () = assert!(offset_of!(Reading, numbers) == 3 * WORD);
    const _: () = assert!(offset_of!(Reading, places) == 3 * WORD + 8 * ROWS);
    const _: () = assert!(offset_of!(Reading, lengths) == 3 * WORD + 12 * ROWS);
    const _: () = assert!(offset_of!(Reading, declared_places) == 3 * WORD + 16 * ROWS);
    const _: () = assert!(offset_of!(Reading, declared_numbers) == 3 * WORD + 20 * ROWS);

    const _: () = assert!(size_of::<Row>() == 16);
    const _: () = assert!(offset_of!(Row, place) == 8);
    const _: () = assert!(offset_of!(Row, length) == 12);

    const _: () = assert!(size_of::<Item>() == 10 * WORD + 24);
    const _: () = assert!(offset_of!(Item, kind) == 0);
    const _: () = assert!(offset_of!(Item, refusal) == WORD);
    const _: () = assert!(offset_of!(Item, place) == 2 * WORD);
    const _: () = assert!(offset_of!(Item, number) == 3 * WORD);
    const _: () = assert!(offset_of!(Item, type_place) == 4 * WORD);
    const _: () = assert!(offset_of!(Item, data_place) == 5 * WORD);
    const _: () = assert!(offset_of!(Item, data_length) == 6 * WORD);
    const _: () = assert!(offset_of!(Item, row) == 7 * WORD);
    const _: () = assert!(offset_of!(Item, declared_place) == 7 * WORD + 16);
    const _: () = assert!(offset_of!(Item, declared_number) == 8 * WORD + 16);
    const _: () = assert!(offset_of!(Item, assigned) == 9 * WORD + 16);
    const _: () = assert!(offset_of!(Item, assigned_place) == 9 * WORD + 24);

    const _: () = assert!(offset_of!(Step, reading) == size_of::<Item>());
    const _: () = assert!(size_of::<Step>() == size_of::<Item>() + size_of::<Reading>());

    const _: () = assert!(offset_of!(Slow, reading) == 0);
    const _: () = assert!(offset_of!(Slow, type_place) == size_of::<Reading>());
    const _: () = assert!(offset_of!(Slow, end) == size_of::<Reading>() + WORD);
    const _: () = assert!(offset_of!(Slow, number) == size_of::<Reading>() + 2 * WORD);
    const _: () = assert!(offset_of!(Slow, data_place) == size_of::<Reading>() + 2 * WORD + 8);
    const _: () = assert!(size_of::<Slow>() == size_of::<Reading>() + 3 * WORD + 8);
    const _: () = assert!(offset_of!(Moved, slow) == size_of::<Item>());
    const _: () = assert!(size_of::<Moved>() == size_of::<Item>() + size_of::<Slow>());

    const _: () = assert!(size_of::<UriAnswer>() == 4 * WORD);
    const _: () = assert!(offset_of!(UriAnswer, implied) == WORD);
    const _: () = assert!(offset_of!(UriAnswer, place) == 2 * WORD);
    const _: () = assert!(offset_of!(UriAnswer, length) == 3 * WORD);
    const _: () = assert!(offset_of!(Listed, reading) == 2 * WORD);
    const _: () = assert!(size_of::<Listed>() == 2 * WORD + size_of::<Reading>());

    const _: () = assert!(size_of::<Triple>() == 24);
    const _: () = assert!(offset_of!(Triple, y) == 8);
    const _: () = assert!(offset_of!(Triple, z) == 16);
    const _: () = assert!(size_of::<Point>() == 24);
    const _: () = assert!(offset_of!(Point, y) == 8);
    const _: () = assert!(offset_of!(Point, z) == 16);
    const _: () = assert!(size_of::<Motion>() == 24);
    const _: () = assert!(offset_of!(Motion, y) == 8);
    const _: () = assert!(offset_of!(Motion, z) == 16);
    const _: () = assert!(size_of::<Shifted>() == 3 * WORD + 72);
    const _: () = assert!(offset_of!(Shifted, refusal) == 0);
    const _: () = assert!(offset_of!(Shifted, place) == WORD);
    const _: () = assert!(offset_of!(Shifted, epoch) == 2 * WORD);
    const _: () = assert!(offset_of!(Shifted, position) == 3 * WORD);
    const _: () = assert!(offset_of!(Shifted, point) == 3 * WORD + 24);
    const _: () = assert!(offset_of!(Shifted, motion) == 3 * WORD + 48);
}
