//! The live calls, one by one, on the largest bench.

use crate::inputs::{Largest, Order, Random};
use crate::timing::{both, heading, prepared, rounds, row};
use model::file::{Content, Event};
use model::{BOOK, EVENTS, HOPS, UNITS};
use scrollcairn::live;
use std::hint::black_box;

/// A run of a bench file, taken apart: its forest, its sends (source, group and word), its arrivals, and the logs that they leave.
struct Run {
    forest: Content,
    sends: Vec<(u16, u16, u32)>,
    arrivals: Vec<u16>,
    logs: Vec<Vec<u16>>,
}

impl Run {
    fn new(largest: &Largest, random: &mut Random, order: Order) -> Run {
        let file = largest.file(random, 200, HOPS, order);
        let run = model::program::run(&file.bytes).run.expect("a good file");
        let (mut sends, mut arrivals) = (Vec::new(), Vec::new());
        for (event, _) in &run.events {
            match *event {
                Event::Arrive { hop } => arrivals.push(hop),
                Event::Send { source, group, word } => sends.push((source, group, word)),
            }
        }
        let log = |unit| run.bench.log(unit, &run.book).to_vec();
        Run { forest: run.content, sends, arrivals, logs: (0..UNITS as u16).map(log).collect() }
    }

    fn groups(&self) -> &[u32] {
        &self.forest.groups[..self.forest.count]
    }
}

/// The calls of either side, and rounds of them.
trait Bench {
    fn fresh(&mut self, run: &Run);
    fn send(&mut self, send: (u16, u16, u32));
    fn arrive(&mut self, hop: u16);
    fn log(&self, unit: u16) -> Vec<u16>;
    fn look(&self, unit: u16);
    fn is_at_rest(&self) -> bool;

    fn send_all(&mut self, run: &Run) {
        run.sends.iter().for_each(|&send| self.send(send));
    }

    fn arrive_all(&mut self, run: &Run) {
        run.arrivals.iter().for_each(|&hop| self.arrive(hop));
    }

    /// The log of each unit, so many times.
    fn look_all(&self, times: usize) {
        (0..times).for_each(|_| (0..UNITS as u16).for_each(|unit| self.look(unit)));
    }

    fn ask_rest(&self, times: usize) {
        (0..times).for_each(|_| assert!(black_box(self).is_at_rest()));
    }
}

impl Bench for scrollcairn::Bench {
    fn fresh(&mut self, run: &Run) {
        *self = opened(run);
    }

    fn send(&mut self, (source, group, word): (u16, u16, u32)) {
        black_box(self.send(source, group, word)).expect("room");
    }

    fn arrive(&mut self, hop: u16) {
        black_box(self.arrive(hop)).expect("a hop");
    }

    fn log(&self, unit: u16) -> Vec<u16> {
        self.log(unit).to_vec()
    }

    fn look(&self, unit: u16) {
        black_box(self.log(unit));
    }

    fn is_at_rest(&self) -> bool {
        self.is_at_rest()
    }
}

fn opened(run: &Run) -> scrollcairn::Bench {
    let forest = &run.forest;
    scrollcairn::Bench::open(forest.units, run.groups(), &forest.parents).expect("an accepted forest")
}

impl Bench for baseline::Bench {
    fn fresh(&mut self, run: &Run) {
        let forest = black_box(&run.forest);
        let parents = baseline::check(forest.units, run.groups(), &forest.parents).expect("an accepted forest");
        self.reset(forest.units, run.groups(), &parents);
    }

    fn send(&mut self, (source, group, _): (u16, u16, u32)) {
        black_box(self.send(source, group)).expect("room");
    }

    fn arrive(&mut self, hop: u16) {
        black_box(self.arrive(hop)).expect("a hop");
    }

    fn log(&self, unit: u16) -> Vec<u16> {
        self.log(unit).iter().map(|&message| message.into()).collect()
    }

    fn look(&self, unit: u16) {
        black_box(self.log(unit));
    }

    fn is_at_rest(&self) -> bool {
        self.is_at_rest()
    }
}

/// A bench after all calls of a run; it has logged what the model logs.
fn ended<B: Bench>(mut bench: B, run: &Run) -> B {
    bench.fresh(run);
    bench.send_all(run);
    bench.arrive_all(run);
    let logs: Vec<Vec<u16>> = (0..UNITS as u16).map(|unit| bench.log(unit)).collect();
    assert!(logs == run.logs, "the logs differ from the model's");
    bench
}

/// Seconds of one call, of which a round makes so many, on the bench that a run leaves or that `prepare` makes of it.
fn timed(run: &Run, calls: usize, prepare: fn(&mut dyn Bench, &Run), round: fn(&mut dyn Bench, &Run)) -> (f64, f64) {
    let (mut ours, mut rust) = (ended(opened(run), run), ended(baseline::Bench::new(), run));
    let side = |bench| prepared(bench, |bench: &mut &mut dyn Bench| prepare(*bench, run), |bench| round(*bench, run));
    let (ours, rust) = both(side(&mut ours), side(&mut rust));
    (ours / calls as f64, rust / calls as f64)
}

/// scrollcairn_open on lists that are there, and a check and a reset.
fn open(run: &Run) -> (f64, f64) {
    let forest = &run.forest;
    let (mut tables, mut messages) = ([0; live::TABLES], [0; live::MESSAGE_NUMBERS]);
    let (mut pairs, mut gauges) = ([[[0; UNITS]; UNITS]; live::PAIRS], [0; UNITS]);
    let (mut hops, mut book) = ([live::Hop::default(); HOPS], [0; BOOK]);
    let mut lists = live::Lists {
        tables: &mut tables,
        messages: &mut messages,
        pairs: &mut pairs,
        gauges: &mut gauges,
        hops: &mut hops,
        book: &mut book,
    };
    let mut rust = baseline::Bench::new();
    both(
        rounds(|| {
            let step = live::open(forest.units, &forest.groups, forest.count, black_box(&forest.parents), &mut lists);
            assert_eq!(black_box(step).reply.kind, live::Reply::OPENED);
        }),
        rounds(|| rust.fresh(run)),
    )
}

/// One call more after 3,000 where all are run again, by scrollcairn_calls.
fn again(run: &Run) -> (f64, f64) {
    let hops: Vec<u16> = run.arrivals.iter().copied().cycle().take(EVENTS + 1 - run.sends.len()).collect();
    let whole = |kind, (a, b, c): (u16, u16, u32)| [kind, a.into(), b.into(), c, HOPS as u32, BOOK as u32];
    let sends = run.sends.iter().map(|&send| whole(0, send));
    let numbers: Vec<u32> = sends.chain(hops.iter().map(|&hop| whole(1, (hop, 0, 0)))).flatten().collect();
    let mut lists = replay::Lists::filled(0, EVENTS + 1);
    let Content { units, groups, count, parents, .. } = &run.forest;
    let fresh = replay::Fresh { units: *units, groups, count: *count, parents, hops: HOPS, book: BOOK };
    let mut rust = baseline::Bench::new();
    both(
        rounds(|| {
            let answer = replay::calls(&fresh, black_box(&numbers), &mut lists).expect("an accepted forest");
            assert_eq!(black_box(answer).calls, EVENTS + 1);
        }),
        rounds(|| {
            rust.fresh(run);
            rust.send_all(run);
            hops.iter().for_each(|&hop| Bench::arrive(&mut rust, hop));
        }),
    )
}

/// The table.
pub fn live_calls(largest: &Largest, random: &mut Random) {
    heading("live calls: nanoseconds per call");
    let in_order = Run::new(largest, random, Order::Rising);
    let reversed = Run::new(largest, random, Order::Reversed);
    let unsent = |bench: &mut dyn Bench, run: &Run| bench.fresh(run);
    let sent = |bench: &mut dyn Bench, run: &Run| {
        bench.fresh(run);
        bench.send_all(run);
    };
    let as_it_is = |_: &mut dyn Bench, _: &Run| {};
    let arrive_all = |bench: &mut dyn Bench, run: &Run| bench.arrive_all(run);
    let (sends, arrivals) = (in_order.sends.len(), in_order.arrivals.len());
    row("open, with the check of the forest", open(&in_order), 1e-9);
    row("send", timed(&in_order, sends, unsent, |bench, run| bench.send_all(run)), 1e-9);
    row("arrive, in order", timed(&in_order, arrivals, sent, arrive_all), 1e-9);
    row("arrive, reversed in each round", timed(&reversed, reversed.arrivals.len(), sent, arrive_all), 1e-9);
    row("arrive, a repeat", timed(&in_order, arrivals, as_it_is, arrive_all), 1e-9);
    row("log", timed(&in_order, 100 * UNITS, as_it_is, |bench, _| bench.look_all(100)), 1e-9);
    row("rest", timed(&in_order, 1_000, as_it_is, |bench, _| bench.ask_rest(1_000)), 1e-9);
    row("one call more after 3,000, by running all of them again", again(&in_order), 1e-9);
}
