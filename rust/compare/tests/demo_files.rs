//! The demonstration's files: every prefix of them, and every change of one byte.

use compare::files::{check, check_changes, demo};
use compare::settings::spread;
use compare::tally::{Tally, COLUMNS};

/// Files up to this length get all 255 changes of each byte, longer ones eight.
const SMALL: usize = 1_000;

#[test]
fn prefixes_and_changes_agree() {
    let files = demo();
    assert!(files.len() >= 5, "the demonstration has five files");
    let mut tally = Tally::default();
    for (name, file) in &files {
        check(name.clone(), file, &mut tally);
        for length in 0..file.len() {
            check(
                format!("{name} up to {length}"),
                &file[..length],
                &mut tally,
            );
        }
        tally.join(spread(
            file.len(),
            |place, tally| check_changes(name, file, place, file.len() <= SMALL, tally),
            Tally::join,
        ));
    }
    let listings: u64 = (0..COLUMNS).map(|column| tally.of(6, column)).sum();
    println!(
        "{} files, {listings} listings, {} calls\n{tally}",
        files.len(),
        tally.calls()
    );
    let bytes: usize = files.iter().map(|(_, file)| file.len()).sum();
    assert!(
        listings >= 8 * bytes as u64,
        "eight changes of each byte at least"
    );
}
