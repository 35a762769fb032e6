//! A plain model of document 01, and of the change requests of document 02 that are done, written from their text: each function says in
//! its comment which rule it follows. Speed does not matter.

pub mod bench;
pub mod file;
pub mod forest;
pub mod places;
pub mod program;

/// At most so many units, groups, messages, hops, events.
pub const UNITS: usize = 32;
pub const GROUPS: usize = 24;
pub const MESSAGES: usize = 200;
pub const HOPS: usize = 2_000;
pub const EVENTS: usize = 3_000;

/// The log book: 200 numbers to each of 32 rows.
pub const BOOK: usize = UNITS * MESSAGES;

/// The event list: three numbers for each event.
pub const EVENT_NUMBERS: usize = 3 * EVENTS;

/// The longest bench file, in bytes; also the writer's list.
pub const FILE: usize = 32_768;

/// A root's parent.
pub const ROOT: u8 = 255;

/// "Turned away": the number of the refusal, and the line (2 to 9) or the group (11) that it carries; 0 where it carries none.
#[derive(Clone, Copy, Debug, PartialEq, Eq)]
pub struct Refusal {
    pub number: u16,
    pub value: u16,
}

impl Refusal {
    /// A refusal that carries nothing, or line 0.
    pub fn plain(number: u16) -> Refusal {
        Refusal { number, value: 0 }
    }
}
