//! Random lists of calls on a bench, as numbers for scrollcairn_calls.

use crate::files;
use crate::random::Random;
use crate::table::{self, Table};
use crate::workload::{Call, Driver, Style};
use model::file::{Content, Event};
use model::forest::{self, Forest};
use model::{BOOK, HOPS, ROOT, UNITS};

/// Numbers of the header.
pub const HOPS_LENT: usize = 2_008;
pub const HOP_NUMBERS: usize = 10_040;
pub const BENCH_NUMBERS: usize = 2_684;
pub const REPLY_NUMBERS: usize = 203;

/// A call, and how many hop records and log numbers it is lent.
#[derive(Clone, Copy, Debug)]
pub struct LentCall {
    pub call: Call,
    pub hops: u16,
    pub book: u16,
}

impl LentCall {
    /// The six numbers of the header.
    pub fn numbers(&self) -> [u32; 6] {
        let (kind, a, b, c) = match self.call {
            Call::Send { source, group, word } => (0, source, group, word),
            Call::Arrive { hop } => (1, hop, 0, 0),
            Call::Log { unit } => (2, unit, 0, 0),
            Call::LogLength { unit } => (3, unit, 0, 0),
            Call::Rest { kind } => (kind, 0, 0, 0),
        };
        [kind.into(), a.into(), b.into(), c, self.hops.into(), self.book.into()]
    }
}

/// The lists that the calls are lent.
#[derive(Clone, PartialEq, Eq)]
pub struct Lists {
    pub book: Vec<u16>,
    pub hops: Vec<u16>,
    pub bench: Vec<u32>,
    pub replies: Vec<u16>,
}

/// Everything that scrollcairn_calls is given; the lists hold rubbish.
pub struct Input {
    pub table: Table,
    pub parents: [u8; UNITS],
    pub fresh_hops: usize,
    pub fresh_book: usize,
    pub calls: Vec<LentCall>,
    pub lists: Lists,
}

/// A random list of calls; the log of every unit and rest come last, lent whole lists.
pub fn input(random: &mut Random) -> Input {
    let (table, parents, calls) = match random.below(25) {
        0 => of_file(&files::full(random)),
        1 => of_file(&files::both_limits(random)),
        _ => any(random),
    };
    let lists = lists(random, calls.len());
    let (short_hops, short_book) = (random.percent(3), random.percent(3));
    Input {
        table,
        parents,
        fresh_hops: fresh_lent(random, short_hops, HOPS, HOPS_LENT),
        fresh_book: fresh_lent(random, short_book, BOOK, BOOK + 60),
        calls,
        lists,
    }
}

/// The forest and the calls of a good file, lent whole lists.
fn of_file(file: &[u8]) -> (Table, [u8; UNITS], Vec<LentCall>) {
    let run = model::program::run(file).run.expect("a good file");
    let Content { units, groups, count, .. } = run.content;
    let call = |event: Event| match event {
        Event::Arrive { hop } => Call::Arrive { hop },
        Event::Send { source, group, word } => Call::Send { source, group, word },
    };
    let mut calls: Vec<LentCall> = run.events.iter().map(|(event, _)| whole(call(*event))).collect();
    calls.extend(looks(units));
    (Table { units, groups, count }, run.bench.forest().answer(), calls)
}

/// Any calls on any forest, most of them accepted.
fn any(random: &mut Random) -> (Table, [u8; UNITS], Vec<LentCall>) {
    let (table, parents) = match random.below(20) {
        0..=2 => {
            let table = table::wild(random);
            let drawn = table::drawing(random, &table);
            (table, drawn)
        }
        3..=6 => {
            let table = table::valid(random);
            let drawn = table::drawing(random, &table);
            (table, drawn)
        }
        // only roots: refused where a group has two members
        7 => (table::valid(random), [ROOT; UNITS]),
        _ => table::with_parents(random),
    };
    let calls = match forest::check(table.units, &table.groups, table.count, &parents) {
        Ok(forest) => random_calls(random, &table, forest),
        Err(_) => (0..random.below(4)).map(|_| any_call(random)).collect(),
    };
    (table, parents, calls)
}

/// A call that is lent whole lists.
fn whole(call: Call) -> LentCall {
    LentCall { call, hops: HOPS as u16, book: BOOK as u16 }
}

/// The log of every unit, and rest.
fn looks(units: usize) -> impl Iterator<Item = LentCall> {
    let logs = (0..units as u16).map(|unit| Call::Log { unit });
    logs.chain([Call::Rest { kind: 4 }]).map(whole)
}

/// A call for a list that is refused as a whole.
fn any_call(random: &mut Random) -> LentCall {
    let call = look(random, UNITS);
    LentCall { call, hops: random.next() as u16, book: random.next() as u16 }
}

fn random_calls(random: &mut Random, table: &Table, forest: Forest) -> Vec<LentCall> {
    let style = Style::random(random, table.units, table.count);
    let mut driver = Driver::new(forest, style);
    let number = match random.below(8) {
        0..=4 => random.between(0, 60),
        5 | 6 => random.between(60, 400),
        _ => random.between(400, 2_500),
    };
    let short = random.pick(&[0, 0, 3, 20]);
    let looking = random.pick(&[0, 5, 30]);
    let drains = random.percent(50);
    let mut calls = Vec::new();
    for at in 0..number {
        let call = match driver.oldest() {
            _ if random.percent(looking) => look(random, table.units),
            Some(call) if drains && at > number / 2 => call,
            _ => driver.next(random),
        };
        let (short_hops, short_book) = (random.percent(short), random.percent(short));
        let hops = lent(random, short_hops, HOPS, HOPS_LENT);
        let book = lent(random, short_book, BOOK, BOOK + 60);
        driver.apply(call, hops.into(), book.into());
        calls.push(LentCall { call, hops, book });
    }
    calls.extend(looks(table.units));
    calls
}

/// A call that changes nothing.
fn look(random: &mut Random, units: usize) -> Call {
    let unit = match random.percent(70) {
        true => random.below(units) as u16,
        false => random.pick(&[units as u16, 31, 32, 33, 255, 256, 65_535]),
    };
    match random.below(3) {
        0 => Call::Log { unit },
        1 => Call::LogLength { unit },
        _ => Call::Rest { kind: random.pick(&[4, 4, 5, 256, 65_535]) },
    }
}

/// So much of a list: too little, just enough, more, or more than there is.
fn lent(random: &mut Random, short: bool, enough: usize, all: usize) -> u16 {
    let lent = match short {
        true => random.pick(&[0, 1, enough - 1, enough - 1, enough / 2]),
        false => random.pick(&[enough, enough, enough + 1, all, all + 1, 65_535]),
    };
    lent as u16
}

/// The same for the call fresh, which may be told any length.
fn fresh_lent(random: &mut Random, short: bool, enough: usize, all: usize) -> usize {
    match !short && random.percent(10) {
        true => random.pick(&[65_536, usize::MAX]),
        false => lent(random, short, enough, all).into(),
    }
}

/// The length of a list: long enough or longer, and now and then too short.
fn list_length(random: &mut Random, enough: usize) -> usize {
    match random.below(60) {
        0 if enough > 0 => random.pick(&[0, enough - 1, enough / 2]),
        1..=20 => enough + random.between(1, 50),
        _ => enough,
    }
}

/// Lists of rubbish.
fn lists(random: &mut Random, calls: usize) -> Lists {
    let list = |random: &mut Random, enough| {
        let length = list_length(random, enough);
        random.rubbish(length)
    };
    let book = list(random, BOOK);
    let hops = list(random, HOP_NUMBERS);
    let bench_length = list_length(random, BENCH_NUMBERS);
    let bench = random.wide_rubbish(bench_length);
    let replies = list(random, REPLY_NUMBERS * calls);
    Lists { book, hops, bench, replies }
}

/// The input in words and numbers.
pub fn describe(input: &Input) -> String {
    let table = &input.table;
    let mut text = format!(
        "scrollcairn_calls: units {}, groups {:?}, count {}, parents {:?}, fresh lent {} hops and {} of the book\n",
        table.units, table.groups, table.count, input.parents, input.fresh_hops, input.fresh_book
    );
    let lists = &input.lists;
    text += &format!(
        "lists of {} (book), {} (hops), {} (bench), {} (replies)\ncalls:",
        lists.book.len(),
        lists.hops.len(),
        lists.bench.len(),
        lists.replies.len()
    );
    for call in &input.calls {
        text += &format!(" {:?}", call.numbers());
    }
    text
}

/// The sends and arrivals as a bench file, where they can be written as one.
pub fn as_file(input: &Input) -> Option<Vec<u8>> {
    let table = &input.table;
    forest::check(table.units, &table.groups, table.count, &input.parents).ok()?;
    let mut text = files::heading(table, Some(&input.parents));
    for lent in &input.calls {
        let refused = (lent.hops as usize) < HOPS || (lent.book as usize) < BOOK;
        match lent.call {
            Call::Send { .. } | Call::Arrive { .. } if !refused => {
                text += &files::event(lent.call)?;
            }
            _ => {}
        }
    }
    Some(text.into_bytes())
}
