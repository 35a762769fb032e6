//! Random calls on a bench. The model runs along, so that the calls meet hops that are out, held or taken.

use crate::random::Random;
use model::bench::{Bench, Hop, OUT};
use model::forest::Forest;
use model::{BOOK, HOPS};

#[derive(Clone, Copy, Debug, PartialEq, Eq)]
pub enum Call {
    Send { source: u16, group: u16, word: u32 },
    Arrive { hop: u16 },
    Log { unit: u16 },
    LogLength { unit: u16 },
    Rest { kind: u16 },
}

/// In which order copies arrive.
#[derive(Clone, Copy, Debug)]
enum Order {
    Oldest,
    Newest,
    Any,
    /// any of the oldest few
    Near,
}

/// What is likely in a run, in percent.
#[derive(Clone, Copy, Debug)]
pub struct Style {
    send: usize,
    stray: usize,
    repeat: usize,
    order: Order,
    /// hops whose number leaves this remainder do not arrive before the end
    starved: Option<(u16, u16)>,
    /// most messages have this source and group
    focus: Option<(u16, u16)>,
    /// so many sends come before the first arrival
    burst: usize,
}

impl Style {
    pub fn random(random: &mut Random, units: usize, groups: usize) -> Style {
        let modulus = random.between(2, 9) as u16;
        let starved = random.percent(30).then(|| (modulus, random.below(modulus as usize) as u16));
        let focus =
            (groups > 0 && random.percent(30)).then(|| (random.below(units) as u16, random.below(groups) as u16));
        Style {
            send: random.pick(&[5, 10, 20, 40, 70, 95]),
            stray: random.pick(&[0, 0, 2, 10, 30]),
            repeat: random.pick(&[0, 5, 20, 50]),
            order: random.pick(&[Order::Oldest, Order::Newest, Order::Any, Order::Near]),
            starved,
            focus,
            burst: random.pick(&[0, 0, 3, 20, 210]),
        }
    }

    /// For short runs in which much happens.
    pub fn rich(random: &mut Random, units: usize, groups: usize) -> Style {
        Style {
            send: random.pick(&[15, 25, 35]),
            stray: random.pick(&[0, 5]),
            repeat: random.pick(&[5, 10, 20]),
            order: random.pick(&[Order::Newest, Order::Any, Order::Near]),
            burst: random.pick(&[2, 4, 6]),
            starved: None,
            ..Style::random(random, units, groups)
        }
    }
}

/// The model under way, with the hops that are out and those that have arrived.
pub struct Driver {
    pub bench: Bench,
    pub hops: Vec<Hop>,
    pub book: Vec<u16>,
    out: Vec<u16>,
    arrived: Vec<u16>,
    seen: usize,
    /// the last send was refused by a limit (14 or 15)
    full: bool,
    style: Style,
}

impl Driver {
    pub fn new(forest: Forest, style: Style) -> Driver {
        let (mut hops, mut book) = (vec![Hop::default(); HOPS], vec![0; BOOK]);
        let bench = Bench::fresh(forest, &mut hops, &mut book).expect("whole lists");
        Driver { bench, hops, book, out: Vec::new(), arrived: Vec::new(), seen: 0, full: false, style }
    }

    fn units(&self) -> usize {
        self.bench.forest().units()
    }

    fn groups(&self) -> usize {
        self.bench.forest().groups.len()
    }

    /// The next send or arrival of the run's style.
    pub fn next(&mut self, random: &mut Random) -> Call {
        if random.percent(self.style.stray) {
            return self.stray(random);
        }
        if self.style.burst > 0 && !self.full {
            self.style.burst -= 1;
            return self.send(random);
        }
        let due = self.due(random);
        let repeat = match due {
            // a full bench with nothing to come
            None if self.full => 80,
            _ => self.style.repeat,
        };
        if !self.arrived.is_empty() && random.percent(repeat) {
            let hop = random.pick(&self.arrived);
            return Call::Arrive { hop };
        }
        let send = if self.full { 5 } else { self.style.send };
        match due {
            Some(hop) if !random.percent(send) => Call::Arrive { hop },
            _ => self.send(random),
        }
    }

    /// A hop in state out that is not starved, by the style's order.
    fn due(&self, random: &mut Random) -> Option<u16> {
        let starved = |hop: u16| match self.style.starved {
            Some((modulus, remainder)) => hop % modulus == remainder,
            None => false,
        };
        let due: Vec<u16> = self.out.iter().copied().filter(|&h| !starved(h)).collect();
        if due.is_empty() {
            return None;
        }
        Some(match self.style.order {
            Order::Oldest => due[0],
            Order::Newest => due[due.len() - 1],
            Order::Any => random.pick(&due),
            Order::Near => due[random.below(due.len().min(4))],
        })
    }

    /// The oldest hop that is out, starved or not; for runs that end at rest.
    pub fn oldest(&self) -> Option<Call> {
        self.out.first().map(|&hop| Call::Arrive { hop })
    }

    fn send(&self, random: &mut Random) -> Call {
        let word = random.word();
        let (source, group) = match self.style.focus {
            Some(focus) if random.percent(80) => focus,
            _ => (random.below(self.units()) as u16, random.below(self.groups().max(1)) as u16),
        };
        Call::Send { source, group, word }
    }

    /// A call with numbers that no bench or not this bench has.
    fn stray(&self, random: &mut Random) -> Call {
        let (units, groups) = (self.units(), self.groups());
        let made = self.bench.hops_made();
        let mut near = |limit: usize| match random.below(6) {
            0 => limit as u16,
            1 => limit as u16 + random.below(5) as u16,
            2 => random.pick(&[31, 32, 24, 255, 256, 1_999, 2_000, 65_534, 65_535]),
            3 => random.next() as u16,
            _ => random.below(limit.max(1)) as u16,
        };
        let (source, group, hop) = (near(units), near(groups), near(made));
        let word = random.word();
        match random.percent(50) {
            true => Call::Arrive { hop },
            false => Call::Send { source, group, word },
        }
    }

    /// Runs a call on the model, with so much of the hops and the book lent, and keeps the lists of hops up to date.
    pub fn apply(&mut self, call: Call, lent_hops: usize, lent_book: usize) {
        let hops = &mut self.hops[..lent_hops.min(HOPS)];
        let book = &mut self.book[..lent_book.min(BOOK)];
        match call {
            Call::Send { source, group, word } => {
                let sent = self.bench.send(source, group, word, hops);
                self.full = matches!(sent, Err(refusal) if refusal.number == 14 || refusal.number == 15);
            }
            Call::Arrive { hop } => {
                let made = (hop as usize) < self.bench.hops_made();
                let was_out = made && self.hops[hop as usize].state == OUT;
                let hops = &mut self.hops[..lent_hops.min(HOPS)];
                if self.bench.arrive(hop, hops, book).is_ok() && was_out {
                    self.out.retain(|&other| other != hop);
                    self.arrived.push(hop);
                }
            }
            _ => {}
        }
        self.out.extend(self.seen as u16..self.bench.hops_made() as u16);
        self.seen = self.bench.hops_made();
    }
}
