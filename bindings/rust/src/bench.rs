//! A bench as a value.

use crate::live::{self, Hop, Lists, Pairs, Reply, Step, Totals};
use crate::{build, Refusal, BOOK, GROUPS, HOPS, MESSAGES, UNITS};
use std::fmt;

/// What an arrival did.
#[derive(Clone, Copy, Debug, PartialEq, Eq, Hash)]
pub enum Arrival {
    /// The hop had arrived before; nothing changed.
    Repeat,
    /// It waits for an earlier hop of its pair.
    Held,
    /// So many copies were taken: this one, and those that waited for it.
    Taken(u16),
}

/// A message that was sent.
#[derive(Clone, Copy, Debug, PartialEq, Eq, Hash)]
pub struct Message {
    pub source: u16,
    pub group: u16,
    pub word: u32,
}

/// A bench: forest, messages, hops and logs, some 36 KB. It is a value without heap: a clone is a snapshot that goes its own way.
///
/// A call that is turned away changes nothing.
///
/// ```
/// use scrollcairn::{Arrival, Bench, Refusal};
///
/// // two units that hear the same messages
/// let mut bench = Bench::build(2, &[0b11])?;
/// assert_eq!(bench.send(1, 0, 500), Ok(1));
/// let before = bench.clone();
/// assert_eq!(bench.arrive(0), Ok(Arrival::Taken(1)));
/// assert_eq!((bench.log(0), before.log(0)), (&[1][..], &[][..]));
/// assert_eq!(bench.arrive(7), Err(Refusal::NoHop));
/// # Ok::<(), Refusal>(())
/// ```
#[derive(Clone, PartialEq, Eq)]
pub struct Bench {
    totals: Totals,
    tables: [u32; live::TABLES],
    messages: [u32; live::MESSAGE_NUMBERS],
    pairs: [Pairs; live::PAIRS],
    gauges: [u16; UNITS],
    hops: [Hop; HOPS],
    book: [u16; BOOK],
}

impl Bench {
    /// A fresh bench on a drawn forest. A group is the sum of 2^u over its units u; a parent is a unit, or [`ROOT`](crate::ROOT).
    /// Refused, in this order: 5, 4, 6, 10, 11.
    pub fn open(units: usize, groups: &[u32], parents: &[u8; UNITS]) -> Result<Bench, Refusal> {
        let mut bench = Bench {
            totals: Totals::default(),
            tables: [0; live::TABLES],
            messages: [0; live::MESSAGE_NUMBERS],
            pairs: [[[0; UNITS]; UNITS]; live::PAIRS],
            gauges: [0; UNITS],
            hops: [Hop::default(); HOPS],
            book: [0; BOOK],
        };
        let step = live::open(units, &places(groups), groups.len(), parents, &mut bench.lists());
        bench.keep(step)?;
        Ok(bench)
    }

    /// A fresh bench on the forest that [`build`] lays out. Refused, in this order: 5, 4, 6.
    pub fn build(units: usize, groups: &[u32]) -> Result<Bench, Refusal> {
        let mut parents = [0; UNITS];
        build(units, &places(groups), groups.len(), &mut parents)?;
        Bench::open(units, groups, &parents)
    }

    /// Sends a word from a unit to a group, and answers the message's number. A hop is made, to the group's primary: the last of
    /// [`hops`](Bench::hops). Refused, in this order: 12, 13, 14, 15.
    pub fn send(&mut self, source: u16, group: u16, word: u32) -> Result<u16, Refusal> {
        let step = live::send(self.totals, source, group, word, &mut self.lists());
        self.keep(step).map(|reply| reply.value)
    }

    /// A copy of a hop reaches its receiver, at any time and as often as it likes. Refused: 16.
    pub fn arrive(&mut self, hop: u16) -> Result<Arrival, Refusal> {
        let step = live::arrive(self.totals, hop, &mut self.lists());
        let reply = self.keep(step)?;
        Ok(match reply.kind {
            Reply::TAKEN => Arrival::Taken(reply.value),
            Reply::HELD => Arrival::Held,
            _ => Arrival::Repeat,
        })
    }

    /// The numbers of the messages that a unit has logged, in its order; empty for no unit.
    pub fn log(&self, unit: u16) -> &[u16] {
        let part = live::log(unit, &self.tables, &self.gauges, &self.book);
        &self.book[part.start..][..part.length]
    }

    /// How many messages a unit has logged. Refused: 17.
    pub fn log_length(&self, unit: u16) -> Result<u16, Refusal> {
        let reply = live::log_length(unit, &self.tables, &self.gauges, &self.book);
        reply.outcome().map(|reply| reply.value)
    }

    /// Whether every hop made is taken.
    pub fn is_at_rest(&self) -> bool {
        live::rest(self.totals, &self.hops).value == 1
    }

    /// The hops made, by number.
    pub fn hops(&self) -> &[Hop] {
        &self.hops[..self.totals.made.into()]
    }

    /// Hops made, hops taken, messages sent, the sum of their way sizes.
    pub fn totals(&self) -> Totals {
        self.totals
    }

    /// The message of a number; none where it was not sent.
    pub fn message(&self, number: u16) -> Option<Message> {
        let at = usize::from(number.checked_sub(1)?);
        let field = |column| self.messages[column * MESSAGES + at];
        let message = || Message { source: field(0) as u16, group: field(1) as u16, word: field(2) };
        (number <= self.totals.sent).then(message)
    }

    fn lists(&mut self) -> Lists<'_> {
        Lists {
            tables: &mut self.tables,
            messages: &mut self.messages,
            pairs: &mut self.pairs,
            gauges: &mut self.gauges,
            hops: &mut self.hops,
            book: &mut self.book,
        }
    }

    /// The totals for the next call.
    fn keep(&mut self, step: Step) -> Result<Reply, Refusal> {
        self.totals = step.totals;
        step.reply.outcome()
    }
}

/// The totals; the lists are long.
impl fmt::Debug for Bench {
    fn fmt(&self, f: &mut fmt::Formatter) -> fmt::Result {
        f.debug_struct("Bench").field("totals", &self.totals).finish_non_exhaustive()
    }
}

/// The 24 places that the calls take; more groups are refused by their number.
fn places(groups: &[u32]) -> [u32; GROUPS] {
    std::array::from_fn(|at| groups.get(at).copied().unwrap_or(0))
}
