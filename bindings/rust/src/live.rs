//! The calls on a bench that the caller keeps: its totals, by value, and six lists. [`Bench`](crate::Bench) keeps them itself.
//!
//! Every call ends, and is safe for every content and every length of its lists. A list that is too short is refused with 1, and nothing
//! changes; of a longer one the first so many places are used, and the rest stays. The totals of each [`Step`] are those for the next call.
//!
//! ```
//! use scrollcairn::live::{self, Hop, Lists, Reply};
//! use scrollcairn::{BOOK, GROUPS, HOPS, ROOT, UNITS};
//!
//! // one unit, and one group of it
//! let mut groups = [0; GROUPS];
//! groups[0] = 0b1;
//! let mut lists = Lists {
//!     tables: &mut [0; live::TABLES],
//!     messages: &mut [0; live::MESSAGE_NUMBERS],
//!     pairs: &mut [[[0; UNITS]; UNITS]; live::PAIRS],
//!     gauges: &mut [0; UNITS],
//!     hops: &mut [Hop::default(); HOPS],
//!     book: &mut [0; BOOK],
//! };
//! let opened = live::open(1, &groups, 1, &[ROOT; UNITS], &mut lists);
//! assert_eq!(opened.reply.kind, Reply::OPENED);
//! let sent = live::send(opened.totals, 0, 0, 7, &mut lists);
//! let taken = live::arrive(sent.totals, 0, &mut lists);
//! assert_eq!(taken.reply, Reply { refusal: 0, kind: Reply::TAKEN, value: 1 });
//! let part = live::log(0, lists.tables, lists.gauges, lists.book);
//! assert_eq!(lists.book[part.start..part.start + part.length], [1]);
//! ```

use crate::header;
use crate::{Refusal, MESSAGES, UNITS};
use std::mem::{align_of, offset_of, size_of};

/// Numbers of the list `tables`.
pub const TABLES: usize = 140;

/// Numbers of the list `messages`: the sources, the groups and the words.
pub const MESSAGE_NUMBERS: usize = 3 * MESSAGES;

/// Arrays of the list `pairs`: hops made, hops taken.
pub const PAIRS: usize = 2;

/// A number for each sender and receiver.
pub type Pairs = [[u16; UNITS]; UNITS];

/// A hop: the units it leads from and to, its number in sequence among the hops of this pair, its message and its state.
#[repr(C)]
#[derive(Clone, Copy, Debug, Default, PartialEq, Eq, Hash)]
pub struct Hop {
    pub sender: u8,
    pub receiver: u8,
    pub sequence: u16,
    pub message: u16,
    pub state: u8,
}

impl Hop {
    pub const OUT: u8 = 0;
    pub const HELD: u8 = 1;
    pub const TAKEN: u8 = 2;
}

/// Hops made, hops taken, messages sent, the sum of their way sizes.
#[repr(C)]
#[derive(Clone, Copy, Debug, Default, PartialEq, Eq, Hash)]
pub struct Totals {
    pub made: u16,
    pub taken: u16,
    pub sent: u16,
    pub routed: u16,
}

/// The number of a refusal, or 0; the kind of the reply; its value. A refusal has kind 0, and value 0 but for 11, which has the group.
#[repr(C)]
#[derive(Clone, Copy, Debug, Default, PartialEq, Eq, Hash)]
pub struct Reply {
    pub refusal: u16,
    pub kind: u16,
    pub value: u16,
}

impl Reply {
    /// The value is the message's number.
    pub const SENT: u16 = 1;
    pub const REPEAT: u16 = 2;
    pub const HELD: u16 = 3;
    /// The value is how many copies.
    pub const TAKEN: u16 = 4;
    /// The value is the length of the log.
    pub const LENGTH: u16 = 5;
    /// The value is 1 for yes, 0 for no.
    pub const REST: u16 = 6;
    pub const OPENED: u16 = 8;

    /// The reply itself where it is no refusal.
    pub fn outcome(self) -> Result<Reply, Refusal> {
        match self.refusal {
            0 => Ok(self),
            number => Err(Refusal::of(number.into(), self.value.into())),
        }
    }
}

/// What [`open`], [`send`] and [`arrive`] answer.
#[repr(C)]
#[derive(Clone, Copy, Debug, Default, PartialEq, Eq, Hash)]
pub struct Step {
    pub totals: Totals,
    pub reply: Reply,
}

/// A part of the log book.
#[repr(C)]
#[derive(Clone, Copy, Debug, Default, PartialEq, Eq, Hash)]
pub struct Part {
    pub start: usize,
    pub length: usize,
}

const _: () = assert!(size_of::<Hop>() == 8 && align_of::<Hop>() == 2);
const _: () = assert!(offset_of!(Hop, receiver) == 1 && offset_of!(Hop, sequence) == 2);
const _: () = assert!(offset_of!(Hop, message) == 4 && offset_of!(Hop, state) == 6);
const _: () = assert!(size_of::<Totals>() == 8 && offset_of!(Totals, taken) == 2);
const _: () = assert!(offset_of!(Totals, sent) == 4 && offset_of!(Totals, routed) == 6);
const _: () = assert!(size_of::<Reply>() == 6 && offset_of!(Reply, kind) == 2 && offset_of!(Reply, value) == 4);
const _: () = assert!(size_of::<Step>() == 14 && align_of::<Step>() == 2 && offset_of!(Step, reply) == 8);
const _: () = assert!(size_of::<Part>() == 2 * size_of::<usize>() && offset_of!(Part, length) == size_of::<usize>());
const _: () = assert!(size_of::<Pairs>() == 2_048 && align_of::<Pairs>() == 2);

/// The lists of a bench.
pub struct Lists<'a> {
    /// [`TABLES`] numbers: what is computed of the forest. Only [`open`] writes them.
    pub tables: &'a mut [u32],
    /// [`MESSAGE_NUMBERS`]: the sources of all messages, then their groups, then their words.
    pub messages: &'a mut [u32],
    /// [`PAIRS`] arrays, by sender and receiver: hops made, hops taken.
    pub pairs: &'a mut [Pairs],
    /// [`UNITS`] numbers: the length of each unit's log.
    pub gauges: &'a mut [u16],
    /// [`HOPS`](crate::HOPS) records, in the order made.
    pub hops: &'a mut [Hop],
    /// [`BOOK`](crate::BOOK) numbers: a row of [`MESSAGES`] for each unit.
    pub book: &'a mut [u16],
}

/// A function of the header with these values, then each of these lists as a pointer and its length.
macro_rules! lend {
    ($function:ident($($value:expr),*), $lists:ident: $($list:ident),*) => {
        header::$function($($value,)* $($lists.$list.as_mut_ptr(), $lists.$list.len()),*)
    };
}

/// Checks a forest and makes a fresh bench on it. `groups` has at least 24 places, of which the first `count` are groups; `parents` at
/// least 32. Refused, in this order: 1, 5, 4, 6, 10, 11. The totals are zeros, beside a refusal too.
pub fn open(units: usize, groups: &[u32], count: usize, parents: &[u8], lists: &mut Lists) -> Step {
    let (g, p) = (groups, parents);
    // SAFETY: every pointer comes from a slice, with its length; those written to are borrowed mutably, so nothing overlaps them.
    unsafe {
        lend!(scrollcairn_open(units, g.as_ptr(), g.len(), count, p.as_ptr(), p.len()),
            lists: tables, messages, pairs, gauges, hops, book)
    }
}

/// Sends a word to a group: message and first hop are recorded. It uses all lists but gauges and book. Refused: 1, 12, 13, 14, 15.
pub fn send(totals: Totals, source: u16, group: u16, word: u32, lists: &mut Lists) -> Step {
    // SAFETY: every pointer comes from a slice that is borrowed mutably, with its length, so nothing overlaps it.
    unsafe { lend!(scrollcairn_send(totals, source, group, word), lists: tables, messages, pairs, hops) }
}

/// A copy of a hop reaches its receiver. Refused: 1, 16.
pub fn arrive(totals: Totals, hop: u16, lists: &mut Lists) -> Step {
    // SAFETY: every pointer comes from a slice that is borrowed mutably, with its length, so nothing overlaps it.
    unsafe { lend!(scrollcairn_arrive(totals, hop), lists: tables, messages, pairs, gauges, hops, book) }
}

/// Where a unit's log stands in the book; start 0 and length 0 where it is turned away. It lies inside the book, whatever the lists hold.
pub fn log(unit: u16, tables: &[u32], gauges: &[u16], book: &[u16]) -> Part {
    let (t, g, b) = (tables, gauges, book);
    // SAFETY: every pointer comes from a slice, with its length, and nothing is written.
    unsafe { header::scrollcairn_log(unit, t.as_ptr(), t.len(), g.as_ptr(), g.len(), b.as_ptr(), b.len()) }
}

/// The length of a unit's log. Refused: 1, 17.
pub fn log_length(unit: u16, tables: &[u32], gauges: &[u16], book: &[u16]) -> Reply {
    let (t, g, b) = (tables, gauges, book);
    // SAFETY: every pointer comes from a slice, with its length, and nothing is written.
    unsafe { header::scrollcairn_log_length(unit, t.as_ptr(), t.len(), g.as_ptr(), g.len(), b.as_ptr(), b.len()) }
}

/// Whether every hop made is taken. Refused: 1.
pub fn rest(totals: Totals, hops: &[Hop]) -> Reply {
    // SAFETY: the pointer comes from a slice, with its length, and nothing is written.
    unsafe { header::scrollcairn_rest(totals, hops.as_ptr(), hops.len()) }
}
