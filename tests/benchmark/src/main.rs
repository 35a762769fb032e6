//! Times the verified library and the baseline on the same inputs, in one process and in turns, and prints markdown tables.

mod inputs;
mod live;
mod timing;

use inputs::{File, Largest, Order, Random};
use model::{GROUPS, UNITS};
use std::hint::black_box;
use timing::{both, heading, rounds, row, LEAST, REPETITIONS};

/// Both sides print what the model prints.
fn verify(name: &str, file: &File) {
    let expected = model::program::run(&file.bytes).bytes;
    let mut out = vec![0; scrollcairn::OUTPUT];
    let ran = scrollcairn::run(&file.bytes, &mut out).expect("a list that is long enough");
    assert!(out[..ran.printed] == expected, "{name}: ours differs from the model");
    let mut out = Vec::new();
    baseline::Runner::new().run(&file.bytes, &mut out);
    assert!(out == expected, "{name}: the baseline differs from the model");
}

/// Seconds of one run, of both sides.
fn run(name: &str, file: &File) -> (f64, f64) {
    verify(name, file);
    let mut out = vec![0; scrollcairn::OUTPUT];
    let mut runner = baseline::Runner::new();
    let mut printed = Vec::with_capacity(scrollcairn::OUTPUT);
    let bytes = &file.bytes[..];
    both(
        rounds(|| {
            black_box(scrollcairn::run(black_box(bytes), &mut out)).expect("long enough");
        }),
        rounds(|| {
            printed.clear();
            black_box(runner.run(black_box(bytes), &mut printed));
        }),
    )
}

/// Seconds of one build, of both sides.
fn build(name: &str, groups: &[u32; GROUPS]) -> (f64, f64) {
    let expected = inputs::built(groups).answer();
    let mut parents = [0; UNITS];
    scrollcairn::build(UNITS, groups, GROUPS, &mut parents).expect("a good table");
    assert_eq!(parents, expected, "{name}: ours");
    assert_eq!(baseline::build(UNITS, groups), Ok(expected), "{name}: the baseline");
    both(
        rounds(|| {
            black_box(scrollcairn::build(UNITS, black_box(groups), GROUPS, &mut parents)).expect("a good table");
        }),
        rounds(|| {
            black_box(baseline::build(UNITS, black_box(groups))).expect("a good table");
        }),
    )
}

/// The largest benches and tables.
fn largest_inputs(largest: &Largest, random: &mut Random) {
    heading("a whole run, or one build: microseconds");
    let mut file = |order| largest.file(random, 200, 2_000, order);
    let in_order = file(Order::Rising);
    let files = [
        ("arrivals in order", &in_order),
        ("reversed in each round", &file(Order::Reversed)),
        ("every copy repeated, as far as fits", &file(Order::Repeated)),
        ("refused at its last line", &inputs::refused_at_last_line(&in_order)),
    ];
    for (name, file) in files {
        let (events, bytes) = (file.events, file.bytes.len());
        let name = format!("largest bench, {name} ({events} events, {bytes} bytes)");
        row(&name, run(&name, file), 1e-6);
    }
    for (name, groups) in inputs::tables(random) {
        row(name, build(name, &groups), 1e-6);
    }
}

/// Whole runs from 200 to 2,000 hops.
fn growing_inputs(largest: &Largest, random: &mut Random) {
    heading("a run with arrivals in order: nanoseconds per event");
    let mut costs = Vec::new();
    for hops in [200, 500, 1_000, 2_000] {
        let messages = hops / 10;
        let file = largest.file(random, messages, hops, Order::Rising);
        let name = format!("{} hops, {} events", file.events - messages, file.events);
        let (ours, rust) = run(&name, &file);
        let events = file.events as f64;
        costs.push((ours / events, rust / events));
        row(&name, (ours / events, rust / events), 1e-9);
    }
    let (first, last) = (costs[0], costs[costs.len() - 1]);
    let (ours, rust) = (last.0 / first.0, last.1 / first.1);
    println!("\nCost per event at 2,000 hops relative to 200: ours {ours:.2}, Rust {rust:.2}.");
}

fn main() {
    println!(
        "Best of {REPETITIONS} repetitions of at least {} ms each; both sides in one process, in turns.",
        LEAST.as_millis()
    );
    println!("Buffers are not cleared between runs.");
    let mut random = Random(1988);
    let largest = Largest::new(&mut random);
    largest_inputs(&largest, &mut random);
    growing_inputs(&largest, &mut random);
    live::live_calls(&largest, &mut random);
}
