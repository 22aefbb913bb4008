//! The library and the independent reader side by side: the walk of an append,
//! the steps of a reading, a growing logbook.
//!
//! `BENCH_RUNS` is the number of runs of each (7), `BENCH_BYTES` the length of the logbooks (16,777,216).

use compare::pieces::USED_LIMIT;
use compare::settings::number;
use compare::shapes::{count_items, shapes, Shape, URIS};
use logbook::raw;
use std::hint::black_box;
use std::time::Instant;

/// Appends to a growing logbook.
const APPENDS: usize = 2_000;

/// A side of a measurement; it answers a figure that both must agree on.
type Side<'a> = Box<dyn FnMut() -> usize + 'a>;

/// Measures both in turn and prints a line of the table.
fn measure(name: &str, items: usize, runs: usize, mut ours: Side<'_>, mut theirs: Side<'_>) {
    // A short run is made many times over, so that the clock is no part of it.
    let times = if items < 1_000 { 1_000 } else { 1 };
    let mut measured: Vec<(f64, f64)> = Vec::new();
    for run in 0..=runs {
        let (our_time, our_answer) = timed(times, &mut ours);
        let (their_time, their_answer) = timed(times, &mut theirs);
        assert_eq!(our_answer, their_answer, "{name}");
        // The first run warms up.
        if run > 0 {
            let all = (items * times) as f64;
            measured.push((our_time / all, their_time / all));
        }
    }
    let ours = spread(measured.iter().map(|time| time.0));
    let theirs = spread(measured.iter().map(|time| time.1));
    let ratio = spread(measured.iter().map(|time| time.1 / time.0));
    print!("{name:<32}{items:>9}");
    print!("{:>10.2}{:>10.2}", ours[0], ours[1]);
    print!("{:>10.2}{:>10.2}", theirs[0], theirs[1]);
    print!("{:>8.2}", theirs[0] / ours[0]);
    println!("{:>8.2}{:>7.2}{:>7.2}", ratio[1], ratio[0], ratio[2]);
}

/// The table's first lines.
fn heading(bytes: usize, runs: usize) {
    println!("logbooks of {bytes} bytes, {runs} runs of each in turn, nanoseconds per item");
    println!("the ratio is reader / library: of the least times, then median, least and most of the runs\n");
    print!("{:<32}{:>9}", "", "items");
    print!("{:>10}{:>10}", "library", "median");
    print!("{:>10}{:>10}", "reader", "median");
    println!("{:>8}{:>8}{:>7}{:>7}", "ratio", "median", "least", "most");
}

/// Nanoseconds of a run that is made so many times, and its answer.
fn timed(times: usize, side: &mut Side<'_>) -> (f64, usize) {
    let began = Instant::now();
    let mut answer = 0;
    for _ in 0..times {
        answer = black_box(side());
    }
    (began.elapsed().as_nanos() as f64, answer)
}

/// Least, median, greatest.
fn spread(values: impl Iterator<Item = f64>) -> [f64; 3] {
    let mut values: Vec<f64> = values.collect();
    values.sort_by(f64::total_cmp);
    [
        values[0],
        values[values.len() / 2],
        values[values.len() - 1],
    ]
}

/// The walk of an append that is refused with 12 behind it: the buffer is full.
fn walk(full: &Shape, items: usize, runs: usize) {
    let (mut one, mut other) = (full.log.clone(), full.log.clone());
    let used = full.log.len();
    let ours = Box::new(|| raw::append(&mut one, used, URIS[0], b"P7").refusal);
    let theirs = Box::new(|| match reader::append(&mut other, used, URIS[0], b"P7") {
        Ok(_) => 0,
        Err(refused) => usize::from(refused.number),
    });
    let name = format!("append, {}", full.name);
    measure(&name, items, runs, ours, theirs);
    assert_eq!(one, full.log);
    assert_eq!(raw::append(&mut one, used, URIS[0], b"P7").refusal, 12);
}

/// A reading from fresh to its end, handed in and out at each step.
fn steps(full: &Shape, items: usize, runs: usize) {
    let (log, used) = (&full.log[..], full.log.len());
    let ours = Box::new(|| {
        let mut reading = raw::fresh();
        loop {
            let step = raw::step(log, used, reading);
            if step.item.kind >= raw::END {
                return step.reading.count;
            }
            reading = step.reading;
        }
    });
    let theirs = Box::new(|| {
        let mut reading = reader::Reading::fresh();
        loop {
            let (answer, next) = reading.step(log, used);
            if !matches!(answer, Ok(ref item) if !matches!(item, reader::Item::End { .. })) {
                return next.count;
            }
            reading = next;
        }
    });
    let name = format!("steps, {}", full.name);
    measure(&name, items, runs, ours, theirs);
}

/// Appends to a logbook that grows from its header on.
fn growing(runs: usize) {
    let (mut one, mut other) = (vec![0; 100_000], vec![0; 100_000]);
    let ours = Box::new(|| {
        let mut used = raw::start(&mut one, &[7; 16], &[b'.'; 60]).used;
        for index in 0..APPENDS {
            used = raw::append(&mut one, used, URIS[index % 5], &[0x33; 30]).used;
        }
        used
    });
    let theirs = Box::new(|| {
        let mut used = reader::start(&mut other, &[7; 16], &[b'.'; 60]).expect("room");
        for index in 0..APPENDS {
            let done = reader::append(&mut other, used, URIS[index % 5], &[0x33; 30]);
            used = done.expect("room").used;
        }
        used
    });
    measure("2,000 appends, growing", APPENDS, runs, ours, theirs);
    assert_eq!(one, other);
}

fn main() {
    let runs = number("BENCH_RUNS", 7) as usize;
    let bytes = number("BENCH_BYTES", USED_LIMIT as u64) as usize;
    assert!(runs > 0 && (1_000..=USED_LIMIT).contains(&bytes));
    heading(bytes, runs);
    for full in shapes(bytes) {
        let items = count_items(&full.log);
        walk(&full, items, runs);
        steps(&full, items, runs);
    }
    growing(runs);
}
