//! The numbers that `calls` leaves, taken apart.

use scrollcairn::{MESSAGES, UNITS};

/// A reply of one call.
#[derive(Clone, Debug, PartialEq, Eq)]
pub enum Reply {
    Refused(u16),
    Sent(u16),
    Repeat,
    Held,
    Taken(u16),
    LogLength(u16),
    Rest(bool),
    Log(Vec<u16>),
}

/// The replies in a list of numbers, in order; none where the numbers are no replies.
pub fn replies(numbers: &[u16]) -> Option<Vec<Reply>> {
    let mut replies = Vec::new();
    let mut rest = numbers;
    while let [refusal, kind, value, tail @ ..] = rest {
        rest = tail;
        replies.push(match (*refusal, *kind, *value) {
            (number, 0, 0) if number > 0 => Reply::Refused(number),
            (0, 1, message) => Reply::Sent(message),
            (0, 2, 0) => Reply::Repeat,
            (0, 3, 0) => Reply::Held,
            (0, 4, copies) => Reply::Taken(copies),
            (0, 5, length) => Reply::LogLength(length),
            (0, 6, rest @ (0 | 1)) => Reply::Rest(rest == 1),
            (0, 7, length) => {
                let (messages, tail) = rest.split_at_checked(length as usize)?;
                rest = tail;
                Reply::Log(messages.to_vec())
            }
            _ => return None,
        });
    }
    rest.is_empty().then_some(replies)
}

/// What a bench keeps after the calls.
#[derive(Clone, Debug, PartialEq, Eq)]
pub struct Left {
    pub hops_made: u32,
    pub hops_taken: u32,
    pub messages: u32,
    pub route_sizes: u32,
    pub log_lengths: Vec<u32>,
    pub sources: Vec<u32>,
    pub groups: Vec<u32>,
    pub words: Vec<u32>,
    /// Sender by receiver.
    pub pairs_made: Vec<u32>,
    pub pairs_taken: Vec<u32>,
}

impl Left {
    /// From the first 2,684 numbers of the list `bench`.
    pub fn from_numbers(bench: &[u32]) -> Left {
        let mut at = 4;
        let mut next = |length: usize| {
            at += length;
            bench[at - length..at].to_vec()
        };
        Left {
            hops_made: bench[0],
            hops_taken: bench[1],
            messages: bench[2],
            route_sizes: bench[3],
            log_lengths: next(UNITS),
            sources: next(MESSAGES),
            groups: next(MESSAGES),
            words: next(MESSAGES),
            pairs_made: next(UNITS * UNITS),
            pairs_taken: next(UNITS * UNITS),
        }
    }
}
