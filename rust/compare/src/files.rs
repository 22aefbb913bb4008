//! The demonstration's files, whole, cut off and with single bytes changed.

use crate::calls::read_through;
use crate::case::Case;
use crate::sides::Request;
use crate::tally::Tally;
use std::fs;
use std::path::Path;

/// The demonstration's logbooks by name.
pub fn demo() -> Vec<(String, Vec<u8>)> {
    let folder = Path::new(env!("CARGO_MANIFEST_DIR")).join("../../demo");
    let mut files: Vec<(String, Vec<u8>)> = fs::read_dir(folder)
        .expect("the folder demo")
        .map(|entry| entry.expect("a file of demo").path())
        .filter(|path| path.extension().is_some_and(|end| end == "loz"))
        .map(|path| {
            let name = path.file_name().expect("a name").to_string_lossy();
            (name.into_owned(), fs::read(&path).expect("a file of demo"))
        })
        .collect();
    files.sort();
    files
}

/// Lists a file and reads it item by item, both ways.
pub fn check(name: String, file: &[u8], tally: &mut Tally) {
    let mut case = Case::new(name, file.to_vec(), file.len());
    case.ask(file.len(), &Request::List { room: 1_000 }, tally);
    read_through(&mut case, tally);
}

/// The file with its byte at `place` set to each of the others, or with each
/// of its eight bits flipped.
pub fn check_changes(name: &str, file: &[u8], place: usize, all: bool, tally: &mut Tally) {
    let flips = (1..=255u8).filter(|flip| all || flip.is_power_of_two());
    let mut changed = file.to_vec();
    for flip in flips {
        changed[place] = file[place] ^ flip;
        let byte = changed[place];
        check(
            format!("{name} with {byte:02x} at {place}"),
            &changed,
            tally,
        );
    }
}
