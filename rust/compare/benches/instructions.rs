//! The instructions that the library takes for an item, counted by callgrind: a step of a reading, the walk of an append,
//! the listing, the moves of a slow reading (three for a live entry). The logbooks are as long as a file that is listed may be.
//!
//! It runs itself under valgrind, once for each count. The front of a logbook is counted by itself and taken off, so
//! that a figure speaks of the shape's items alone. The same archive gives the same figures each time.

use compare::shapes::{count_items, shapes, Shape, URIS};
use logbook::raw;
use std::env;
use std::process::Command;

/// What is counted: its name, and the call that counts.
const COUNTED: [(&str, &str); 4] = [
    ("step", "logbook_step"),
    ("append", "logbook_append"),
    ("list", "logbook_list"),
    ("moves", "logbook_move"),
];

/// A whole reading, step by step.
fn step(log: &[u8]) {
    let mut reading = raw::fresh();
    loop {
        let step = raw::step(log, log.len(), reading);
        match step.item.kind {
            raw::END => return,
            raw::REFUSED => panic!("refused by {}", step.item.refusal),
            _ => reading = step.reading,
        }
    }
}

/// A whole reading, move by move.
fn moves(log: &[u8]) {
    let mut slow = raw::slow_fresh();
    loop {
        let moved = raw::move_on(log, log.len(), slow);
        match moved.item.kind {
            raw::END => return,
            raw::REFUSED => panic!("refused by {}", moved.item.refusal),
            _ => slow = moved.slow,
        }
    }
}

/// The walk of an append, which is then refused: the buffer is full.
fn append(log: &[u8]) {
    let mut full = log.to_vec();
    assert_eq!(
        raw::append(&mut full, log.len(), URIS[0], b"P7").refusal,
        12
    );
}

/// A whole listing, in pieces of about 200 lines.
fn list(log: &[u8]) {
    let mut out = vec![0; 200 * raw::LINE_LIMIT];
    let mut reading = raw::fresh();
    loop {
        let listed = raw::list(reading, log, &mut out);
        if listed.over == 1 {
            return;
        }
        reading = listed.reading;
    }
}

/// Makes the calls that are counted.
fn work(name: &str, log: &[u8]) {
    match name {
        "step" => step(log),
        "append" => append(log),
        "list" => list(log),
        _ => moves(log),
    }
}

/// The instructions inside the calls, over the first bytes of a shape.
fn instructions(index: usize, (name, call): (&str, &str), bytes: usize) -> u64 {
    let run = Command::new("valgrind")
        .args(["--tool=callgrind", "--callgrind-out-file=/dev/null"])
        .arg(format!("--toggle-collect={call}"))
        .arg(env::current_exe().expect("this program"))
        .args([&index.to_string(), name, &bytes.to_string()])
        .output()
        .expect("valgrind");
    let said = String::from_utf8_lossy(&run.stderr);
    assert!(run.status.success(), "{said}");
    let total = said.split_once("Collected : ").expect("callgrind's total");
    number(total.1.lines().next().expect("a line")) as u64
}

fn number(word: &str) -> usize {
    word.trim().parse().expect("a number")
}

/// A line of the table: instructions for each item of a shape.
fn figures(index: usize, shape: &Shape) {
    let items = count_items(&shape.log) - count_items(&shape.log[..shape.front]);
    print!("{:<32}{items:>8}", shape.name);
    for counted in COUNTED {
        let whole = instructions(index, counted, shape.log.len());
        let front = instructions(index, counted, shape.front);
        print!("{:>10.1}", (whole - front) as f64 / items as f64);
    }
    println!();
}

fn main() {
    let all = shapes(raw::FILE_LIMIT);
    // cargo's own word aside
    let words: Vec<String> = env::args()
        .skip(1)
        .filter(|word| word != "--bench")
        .collect();
    if let [index, name, bytes] = words.as_slice() {
        return work(name, &all[number(index)].log[..number(bytes)]);
    }
    println!("instructions an item");
    print!("{:<32}{:>8}", "", "items");
    for (name, _) in COUNTED {
        print!("{name:>10}");
    }
    println!();
    for (index, shape) in all.iter().enumerate() {
        figures(index, shape);
    }
}
