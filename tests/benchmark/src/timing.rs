//! The method: the best of so many repetitions, each long enough, both sides in turns; and the tables.

use std::time::{Duration, Instant};

/// A repetition lasts at least so long; the best of so many counts.
pub const LEAST: Duration = Duration::from_millis(50);
pub const REPETITIONS: usize = 15;

/// Runs so many rounds of one side, and answers the time that counts.
pub trait Side: FnMut(u32) -> Duration {}

impl<F: FnMut(u32) -> Duration> Side for F {}

/// Rounds of which all time counts.
pub fn rounds(mut round: impl FnMut()) -> impl Side {
    move |rounds: u32| {
        let start = Instant::now();
        for _ in 0..rounds {
            round();
        }
        start.elapsed()
    }
}

/// Rounds each of which is prepared first, which does not count.
pub fn prepared<T>(mut on: T, mut prepare: impl FnMut(&mut T), mut round: impl FnMut(&mut T)) -> impl Side {
    move |rounds: u32| {
        let mut sum = Duration::ZERO;
        for _ in 0..rounds {
            prepare(&mut on);
            let start = Instant::now();
            round(&mut on);
            sum += start.elapsed();
        }
        sum
    }
}

/// How many rounds fill the least time.
fn enough(side: &mut impl Side) -> u32 {
    let mut rounds = 1;
    while side(rounds) < LEAST {
        rounds *= 2;
    }
    rounds
}

/// The seconds of one round.
fn time(side: &mut impl Side, rounds: u32) -> f64 {
    side(rounds).as_secs_f64() / f64::from(rounds)
}

/// The best times of both sides, in turns.
pub fn both(mut ours: impl Side, mut rust: impl Side) -> (f64, f64) {
    let (rounds_ours, rounds_rust) = (enough(&mut ours), enough(&mut rust));
    let mut best = (f64::MAX, f64::MAX);
    for _ in 0..REPETITIONS {
        best.0 = best.0.min(time(&mut ours, rounds_ours));
        best.1 = best.1.min(time(&mut rust, rounds_rust));
    }
    best
}

pub fn heading(title: &str) {
    println!("\n| {title} | ours | Rust | ours / Rust |\n| --- | --- | --- | --- |");
}

/// A row; times in units of `unit` seconds.
pub fn row(name: &str, (ours, rust): (f64, f64), unit: f64) {
    let (a, b) = (ours / unit, rust / unit);
    println!("| {name} | {a:.2} | {b:.2} | {:.2} |", ours / rust);
}
