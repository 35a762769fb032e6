#![doc = include_str!("../README.md")]

mod bench;
mod header;
pub mod live;
mod refusal;

pub use bench::{Arrival, Bench, Message};
pub use live::{Hop, Totals};
pub use refusal::Refusal;

/// At most so many units, groups, messages, hops.
pub const UNITS: usize = 32;
pub const GROUPS: usize = 24;
pub const MESSAGES: usize = 200;
pub const HOPS: usize = 2_000;

/// Log numbers: a row of 200 for each unit.
pub const BOOK: usize = UNITS * MESSAGES;

/// Event numbers: three for each of 3,000 events.
pub const EVENTS: usize = 9_000;

/// Bytes of a bench file, at most.
pub const FILE: usize = 32_768;

/// Bytes that [`run`] may print.
pub const OUTPUT: usize = 98_740;

/// A root's parent.
pub const ROOT: u8 = 255;

/// The two numbers beside an answer that is no refusal.
fn outcome(answer: [u64; 3]) -> Result<(usize, usize), Refusal> {
    match answer {
        [0, first, second] => Ok((first as usize, second as usize)),
        [number, value, 0] => Err(Refusal::of(number, value)),
        _ => unreachable!("no refusal answers {answer:?}"),
    }
}

/// What [`run`] answers: the bytes printed, and the sum of the copies taken.
#[derive(Clone, Copy, Debug, PartialEq, Eq)]
pub struct Ran {
    pub printed: usize,
    pub taken: usize,
}

/// Runs a bench file; what is printed is left at the start of `out`, of at least [`OUTPUT`] bytes. Refused: 1. A file that is refused
/// prints its line `refused=`.
pub fn run(file: &[u8], out: &mut [u8]) -> Result<Ran, Refusal> {
    let mut answer = [0; 3];
    // SAFETY: both pointers come from slices, with their lengths; `out` and `answer` are borrowed mutably, so nothing overlaps them.
    unsafe { header::scrollcairn_run(file.as_ptr(), file.len(), out.as_mut_ptr(), out.len(), &mut answer) };
    let (printed, taken) = outcome(answer)?;
    Ok(Ran { printed, taken })
}

/// Lays out a forest for `units` units and the first `count` groups; it is left in `parents`. Refused: 5, 4, 6.
pub fn build(units: usize, groups: &[u32; GROUPS], count: usize, parents: &mut [u8; UNITS]) -> Result<(), Refusal> {
    let mut answer = [0; 3];
    // SAFETY: all pointers are references to arrays of the header's lengths; those written to are borrowed mutably.
    unsafe { header::scrollcairn_build(units, groups, count, parents, &mut answer) };
    outcome(answer).map(|_| ())
}

/// Checks a drawn forest; an accepted one is left in `parents`, with [`ROOT`] from place `units` on. Refused: 5, 4, 6, 10, 11.
pub fn check(
    units: usize,
    groups: &[u32; GROUPS],
    count: usize,
    drawn: &[u8; UNITS],
    parents: &mut [u8; UNITS],
) -> Result<(), Refusal> {
    let mut answer = [0; 3];
    // SAFETY: all pointers are references to arrays of the header's lengths; those written to are borrowed mutably.
    unsafe { header::scrollcairn_check(units, groups, count, drawn, parents, &mut answer) };
    outcome(answer).map(|_| ())
}

/// What a bench file says beside its events. `counts` are the units, the groups that count, 1 for `build`, the events.
#[derive(Clone, Debug, Default, PartialEq, Eq)]
pub struct Content {
    pub groups: [u32; GROUPS],
    pub parents: [u8; UNITS],
    pub counts: [u16; 4],
}

/// What [`read`] answers: how many numbers were written to the event list, and the line of `parents=`.
#[derive(Clone, Copy, Debug, PartialEq, Eq)]
pub struct ReadAnswer {
    pub numbers: usize,
    pub parents_line: usize,
}

/// Reads a bench file into a content and an event list, of at least [`EVENTS`] numbers: of a send source+1, group and word; of an arrival
/// 0, hop and 0. Refused: 1; 2 to 9.
pub fn read(file: &[u8], events: &mut [u32], content: &mut Content) -> Result<ReadAnswer, Refusal> {
    let mut answer = [0; 3];
    // SAFETY: pointers with lengths come from slices, the others are references to arrays of the header's lengths; those written to are
    // borrowed mutably, and the fields of `content` do not overlap.
    unsafe {
        header::scrollcairn_read(
            file.as_ptr(),
            file.len(),
            events.as_mut_ptr(),
            events.len(),
            &mut content.groups,
            &mut content.parents,
            &mut content.counts,
            &mut answer,
        )
    };
    let (numbers, parents_line) = outcome(answer)?;
    Ok(ReadAnswer { numbers, parents_line })
}

/// Writes the bench file that was read at the start of `out`, of at least [`FILE`] bytes, and answers its length. Refused: 1.
pub fn write(content: &Content, events: &[u32], out: &mut [u8]) -> Result<usize, Refusal> {
    let mut answer = [0; 3];
    // SAFETY: pointers with lengths come from slices, the others are references to arrays of the header's lengths; `out` and `answer` are
    // borrowed mutably, so nothing overlaps them.
    unsafe {
        header::scrollcairn_write(
            &content.groups,
            &content.parents,
            &content.counts,
            events.as_ptr(),
            events.len(),
            out.as_mut_ptr(),
            out.len(),
            &mut answer,
        )
    };
    outcome(answer).map(|(bytes, _)| bytes)
}
