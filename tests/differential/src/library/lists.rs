//! The lists of a live bench, as the test keeps them: each at least as long as it must be, with rubbish in it; and how much of them a call
//! is lent.

use super::{at_least, same_list, too_short};
use crate::random::Random;
use crate::table::Table;
use model::{BOOK, GROUPS, HOPS, MESSAGES, UNITS};
use scrollcairn::live::{self, Hop, Pairs, Step};
use std::fmt;

/// The lists and how many places each must have: six of the bench, then those that only open is given.
const LISTS: [(&str, usize); 8] = [
    ("tables", 140),
    ("messages", 3 * MESSAGES),
    ("pairs", 2),
    ("gauges", UNITS),
    ("hops", HOPS),
    ("book", BOOK),
    ("groups", GROUPS),
    ("parents", UNITS),
];

fn place(list: &str) -> usize {
    LISTS.iter().position(|(name, _)| *name == list).expect("a list's name")
}

pub fn enough(list: &str) -> usize {
    LISTS[place(list)].1
}

/// How many places of each list a call is lent; those that only open is given may be missing.
#[derive(Clone)]
pub struct Lent(Vec<usize>);

impl Lent {
    pub fn of(&self, list: &str) -> usize {
        self.0[place(list)]
    }

    /// So many places of a list, or all there are.
    pub fn at_most(mut self, list: &str, places: usize) -> Lent {
        let lent = &mut self.0[place(list)];
        *lent = places.min(*lent);
        self
    }

    /// The same with one of these lists too short.
    pub fn one_short(&self, lists: &[&str], random: &mut Random) -> Lent {
        let list = random.pick(lists);
        self.clone().at_most(list, too_short(random, enough(list)))
    }

    /// Those of the lists that are too short.
    pub fn short<'a>(&self, lists: &[&'a str]) -> Vec<&'a str> {
        lists.iter().copied().filter(|list| self.of(list) < enough(list)).collect()
    }
}

impl fmt::Debug for Lent {
    fn fmt(&self, f: &mut fmt::Formatter) -> fmt::Result {
        f.debug_map().entries(LISTS.iter().map(|(list, _)| list).zip(&self.0)).finish()
    }
}

/// The lists of a bench.
#[derive(Clone)]
pub struct Lists {
    pub tables: Vec<u32>,
    pub messages: Vec<u32>,
    pub pairs: Vec<Pairs>,
    pub gauges: Vec<u16>,
    pub hops: Vec<Hop>,
    pub book: Vec<u16>,
}

impl Lists {
    pub fn rubbish(random: &mut Random) -> Lists {
        let [tables, messages, pairs, gauges, hops, book, ..] = LISTS.map(|(_, enough)| at_least(random, enough));
        let any = |random: &mut Random| random.next();
        Lists {
            tables: random.wide_rubbish(tables),
            messages: random.wide_rubbish(messages),
            pairs: (0..pairs).map(|_| any_pairs(random)).collect(),
            gauges: random.rubbish(gauges),
            hops: (0..hops).map(|_| any_hop(random, any)).collect(),
            book: random.rubbish(book),
        }
    }

    /// All there is of the lists.
    pub fn whole(&self) -> Lent {
        let first = [self.tables.len(), self.messages.len(), self.pairs.len()];
        let last = [self.gauges.len(), self.hops.len(), self.book.len()];
        Lent([first, last].concat())
    }

    pub fn lend(&mut self, lent: &Lent) -> live::Lists<'_> {
        live::Lists {
            tables: &mut self.tables[..lent.of("tables")],
            messages: &mut self.messages[..lent.of("messages")],
            pairs: &mut self.pairs[..lent.of("pairs")],
            gauges: &mut self.gauges[..lent.of("gauges")],
            hops: &mut self.hops[..lent.of("hops")],
            book: &mut self.book[..lent.of("book")],
        }
    }

    /// The first place that differs, in any list.
    pub fn same(&self, expected: &Lists) -> Result<(), String> {
        same_list("tables", &self.tables, &expected.tables)?;
        same_list("messages", &self.messages, &expected.messages)?;
        same_list("pairs", self.pairs.as_flattened().as_flattened(), expected.pairs.as_flattened().as_flattened())?;
        same_list("gauges", &self.gauges, &expected.gauges)?;
        same_list("hops", &self.hops, &expected.hops)?;
        same_list("book", &self.book, &expected.book)
    }

    /// The used places of a list from other lists.
    pub fn take(&mut self, list: &str, from: &Lists) {
        let used = enough(list);
        match list {
            "tables" => self.tables[..used].copy_from_slice(&from.tables[..used]),
            "messages" => self.messages[..used].copy_from_slice(&from.messages[..used]),
            "pairs" => self.pairs[..used].copy_from_slice(&from.pairs[..used]),
            "gauges" => self.gauges[..used].copy_from_slice(&from.gauges[..used]),
            "hops" => self.hops[..used].copy_from_slice(&from.hops[..used]),
            _ => self.book[..used].copy_from_slice(&from.book[..used]),
        }
    }

    /// Puts other numbers in a list, in one place or many: any, or such as may pass for units, hops and lengths.
    pub fn damage(&mut self, random: &mut Random) {
        let places = random.pick(&[1, 1, 5, 50, 1_000]);
        let limit = random.pick(&[3, 35, 210, 2_050, 1 << 16, 1 << 32]);
        let any = |random: &mut Random| random.below(limit) as u64;
        let small = |random: &mut Random| any(random) as u16;
        let wide = |random: &mut Random| any(random) as u32;
        match random.below(6) {
            0 => scatter(&mut self.tables, places, wide, random),
            1 => scatter(&mut self.messages, places, wide, random),
            2 => scatter(self.pairs.as_flattened_mut().as_flattened_mut(), places, small, random),
            3 => scatter(&mut self.gauges, places, small, random),
            4 => scatter(&mut self.hops, places, |random| any_hop(random, any), random),
            _ => scatter(&mut self.book, places, small, random),
        }
    }
}

fn scatter<T>(list: &mut [T], places: usize, any: impl Fn(&mut Random) -> T, random: &mut Random) {
    for _ in 0..places {
        list[random.below(list.len())] = any(random);
    }
}

fn any_pairs(random: &mut Random) -> Pairs {
    [[0u16; UNITS]; UNITS].map(|row| row.map(|_| random.next() as u16))
}

fn any_hop(random: &mut Random, any: impl Fn(&mut Random) -> u64) -> Hop {
    Hop {
        sender: any(random) as u8,
        receiver: any(random) as u8,
        sequence: any(random) as u16,
        message: any(random) as u16,
        state: any(random) as u8,
    }
}

/// What open is given beside the lists of the bench; rubbish behind it.
pub struct Given {
    units: usize,
    count: usize,
    groups: Vec<u32>,
    parents: Vec<u8>,
}

impl Given {
    pub fn new(table: &Table, parents: &[u8; UNITS], random: &mut Random) -> Given {
        let (groups_after, parents_after) = (at_least(random, 0), at_least(random, 0));
        let mut groups = random.wide_rubbish(groups_after);
        groups.splice(..0, table.groups);
        let more = (0..parents_after).map(|_| random.next() as u8);
        Given { units: table.units, count: table.count, groups, parents: parents.iter().copied().chain(more).collect() }
    }

    /// All there is, of the bench's lists too.
    pub fn whole(&self, lists: &Lists) -> Lent {
        let Lent(mut lent) = lists.whole();
        lent.extend([self.groups.len(), self.parents.len()]);
        Lent(lent)
    }

    pub fn open(&self, lists: &mut Lists, lent: &Lent) -> Step {
        let (groups, parents) = (&self.groups[..lent.of("groups")], &self.parents[..lent.of("parents")]);
        live::open(self.units, groups, self.count, parents, &mut lists.lend(lent))
    }
}
