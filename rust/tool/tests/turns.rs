//! Runs that are killed, and runs at the same time.

mod common;

use common::Folder;
use logbook::Logbook;
use std::fs::{self, File};
use std::process::{Child, Stdio};
use std::thread;
use std::time::Duration;

/// How many runs are killed on each of two files.
const ROUNDS: usize = 200;

/// A generator of numbers that look random.
struct Numbers(u64);

impl Numbers {
    fn below(&mut self, bound: u64) -> u64 {
        self.0 ^= self.0 << 13;
        self.0 ^= self.0 >> 7;
        self.0 ^= self.0 << 17;
        self.0 % bound.max(1)
    }
}

fn start(folder: &Folder, line: &[&str]) -> Child {
    let mut command = folder.tool(line);
    command.stdout(Stdio::null()).stderr(Stdio::null());
    command.spawn().expect("the tool runs")
}

/// A logbook with some megabytes of entries.
fn megabytes() -> Vec<u8> {
    let mut buffer = vec![0; 3_000_000];
    let mut log = Logbook::start(&mut buffer, &[7; 16], &[0; 60]).expect("a header");
    for _ in 0..45 {
        let appended = log.append("urn:ep:2010", [7; 65_535]);
        appended.expect("room for an entry");
    }
    let used = log.used();
    buffer.truncate(used);
    buffer
}

/// The same logbook with an entry more.
fn appended(bytes: &[u8], data: &str) -> Vec<u8> {
    let mut buffer = bytes.to_vec();
    buffer.resize(bytes.len() + 100, 0);
    let mut log = Logbook::open(&mut buffer, bytes.len()).expect("a used length within");
    log.append("urn:ep:2017", data).expect("room for an entry");
    let used = log.used();
    buffer.truncate(used);
    buffer
}

/// Kills runs at random moments, more often near to their end than elsewhere. Each leaves the old
/// file or the new one.
fn kill_again_and_again(folder: &Folder, name: &str, seed: u64) {
    let mut old = megabytes();
    folder.write(name, &old);
    let mut numbers = Numbers(seed);
    let mut bound = Duration::from_millis(5);
    let mut changes = 0;
    for round in 0..ROUNDS {
        let data = format!("P{round}");
        let new = appended(&old, &data);
        let mut child = start(folder, &["append", name, "urn:ep:2017", &data]);
        let pause = numbers.below(2 * bound.as_micros() as u64);
        thread::sleep(Duration::from_micros(pause));
        child.kill().expect("it is a child");
        child.wait().expect("it has ended");
        let found = folder.read(name);
        if found == new {
            changes += 1;
            old = new;
            bound = bound * 4 / 5;
        } else {
            assert!(
                found == old,
                "{name} is neither the old file nor the new one"
            );
            bound = bound * 5 / 4;
        }
        bound = bound.clamp(Duration::from_micros(200), Duration::from_millis(100));
    }
    // Both ends were met, or this has tried nothing.
    assert!(
        (1..ROUNDS).contains(&changes),
        "{changes} of {ROUNDS} came to their end"
    );
    let new = appended(&old, "last");
    let place = new.len() - 6;
    folder
        .run(&["append", name, "urn:ep:2017", "last"])
        .done(&format!("appended\t{place}\t{}\n", new.len()));
    assert!(folder.read(name) == new);
}

#[test]
fn killed_at_any_moment() {
    let folder = Folder::new("killed_at_any_moment");
    thread::scope(|scope| {
        scope.spawn(|| kill_again_and_again(&folder, "a.loz", 0x9E37_79B9_7F4A_7C15));
        scope.spawn(|| kill_again_and_again(&folder, "b.loz", 0xD1B5_4A32_D192_ED03));
    });
    // The last runs have cleared away what the killed ones left.
    assert_eq!(folder.names(), ["a.loz", "b.loz"]);
}

#[test]
fn changes_take_turns() {
    let folder = Folder::with_morning("changes_take_turns");
    let names: Vec<_> = (0..24).map(|number| format!("S{number:02}")).collect();
    let children: Vec<_> = (names.iter())
        .map(|name| start(&folder, &["append", "morning.loz", "urn:ep:2017", name]))
        .collect();
    for mut child in children {
        assert!(child.wait().expect("it ends").success());
    }
    let bytes = folder.read("morning.loz");
    let entries = logbook::entries(&bytes).skip(5);
    let mut data: Vec<_> = entries.map(|entry| entry.expect("sound").data).collect();
    data.sort();
    let expected: Vec<_> = names.iter().map(String::as_bytes).collect();
    assert_eq!(data, expected);
    assert_eq!(folder.names(), ["morning.loz"]);
}

/// Starts an append of an entry to the morning's file, and waits until it must be at the lock.
fn append_behind_a_lock(folder: &Folder) -> Child {
    let mut child = start(folder, &["append", "morning.loz", "urn:ep:2017", "P9"]);
    thread::sleep(Duration::from_millis(200));
    assert!(child.try_wait().expect("it is a child").is_none());
    child
}

#[test]
fn a_change_waits_for_the_lock() {
    let folder = Folder::with_morning("a_change_waits_for_the_lock");
    let file = File::open(folder.path("morning.loz")).expect("a file");
    file.lock().expect("nobody else has it");
    let mut child = append_behind_a_lock(&folder);
    assert_eq!(folder.run(&["check", "morning.loz"]).status, 0);
    assert_eq!(folder.read("morning.loz").len(), 145);
    file.unlock().expect("it is locked");
    assert!(child.wait().expect("it ends").success());
    assert_eq!(folder.read("morning.loz").len(), 149);
}

#[test]
fn a_file_replaced_meanwhile_is_taken_up() {
    let folder = Folder::with_morning("a_file_replaced_meanwhile_is_taken_up");
    let replacement = appended(&folder.read("morning.loz"), "P8b");
    let file = File::open(folder.path("morning.loz")).expect("a file");
    file.lock().expect("nobody else has it");
    let mut child = append_behind_a_lock(&folder);
    folder.write("other.loz", &replacement);
    fs::rename(folder.path("other.loz"), folder.path("morning.loz")).expect("one folder");
    drop(file);
    assert!(child.wait().expect("it ends").success());
    assert_eq!(folder.read("morning.loz"), appended(&replacement, "P9"));
    assert_eq!(folder.names(), ["morning.loz"]);
}

#[test]
fn a_file_removed_meanwhile_is_missing() {
    let folder = Folder::with_morning("a_file_removed_meanwhile_is_missing");
    let file = File::open(folder.path("morning.loz")).expect("a file");
    file.lock().expect("nobody else has it");
    let mut child = append_behind_a_lock(&folder);
    fs::remove_file(folder.path("morning.loz")).expect("it is there");
    drop(file);
    assert_eq!(child.wait().expect("it ends").code(), Some(2));
    assert_eq!(folder.names(), [""; 0]);
}

#[test]
fn a_reader_sees_a_whole_file_while_it_changes() {
    let folder = Folder::with_morning("a_reader_sees_a_whole_file_while_it_changes");
    thread::scope(|scope| {
        let writer = scope.spawn(|| {
            for _ in 0..40 {
                let ran = folder.run(&["append", "morning.loz", "urn:ep:2017", "P9"]);
                assert_eq!(ran.status, 0);
            }
        });
        while !writer.is_finished() {
            assert_eq!(folder.run(&["check", "morning.loz"]).status, 0);
        }
    });
}

#[test]
fn one_of_many_starts_a_file() {
    let folder = Folder::new("one_of_many_starts_a_file");
    let children: Vec<_> = (0..16).map(|_| start(&folder, &["new", "a.loz"])).collect();
    let ended = children.into_iter().map(|mut child| {
        let status = child.wait().expect("it ends");
        status.code().expect("it wasn't killed")
    });
    let mut statuses: Vec<_> = ended.collect();
    statuses.sort();
    assert_eq!((statuses[0], &statuses[1..]), (0, &[2; 15][..]));
    assert_eq!(folder.run(&["check", "a.loz"]).status, 0);
    assert_eq!(folder.names(), ["a.loz"]);
}
