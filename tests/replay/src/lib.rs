//! scrollcairn_calls of include/scrollcairn_replay.h as safe Rust: a fresh bench and a list of calls on it, run at once.

mod replies;

pub use replies::{replies, Left, Reply};

use scrollcairn::{GROUPS, UNITS};

pub const HOPS_LENT: usize = 2_008;
pub const HOP_NUMBERS: usize = 10_040;
pub const BENCH_NUMBERS: usize = 2_684;
pub const CALL_NUMBERS: usize = 6;
pub const REPLY_NUMBERS: usize = 203;

extern "C" {
    fn scrollcairn_calls(
        units: usize,
        groups: *const [u32; 24],
        count: usize,
        parents: *const [u8; 32],
        fresh_hops: usize,
        fresh_book: usize,
        calls: *const u32,
        calls_length: usize,
        book: *mut u16,
        book_length: usize,
        hops: *mut u16,
        hops_length: usize,
        bench: *mut u32,
        bench_length: usize,
        replies: *mut u16,
        replies_length: usize,
        answer: *mut [u64; 3],
    );
}

/// A forest and how much of the lists the call fresh is lent.
pub struct Fresh<'a> {
    pub units: usize,
    pub groups: &'a [u32; GROUPS],
    pub count: usize,
    pub parents: &'a [u8; UNITS],
    pub hops: usize,
    pub book: usize,
}

/// The lists that `calls` is lent.
#[derive(Clone, Debug, PartialEq, Eq)]
pub struct Lists {
    pub book: Vec<u16>,
    pub hops: Vec<u16>,
    pub bench: Vec<u32>,
    pub replies: Vec<u16>,
}

impl Lists {
    /// Lists of the header's lengths for so many calls, all of one number.
    pub fn filled(number: u16, calls: usize) -> Lists {
        Lists {
            book: vec![number; scrollcairn::BOOK],
            hops: vec![number; HOP_NUMBERS],
            bench: vec![number.into(); BENCH_NUMBERS],
            replies: vec![number; REPLY_NUMBERS * calls],
        }
    }
}

/// What `calls` answers.
#[derive(Clone, Copy, Debug, PartialEq, Eq)]
pub struct CallsAnswer {
    pub calls: usize,
    pub reply_numbers: usize,
}

/// Makes a fresh bench and runs a list of calls on it, [`CALL_NUMBERS`] each; refused, the three numbers of the answer.
pub fn calls(fresh: &Fresh, calls: &[u32], lists: &mut Lists) -> Result<CallsAnswer, [u64; 3]> {
    let mut answer = [0; 3];
    // SAFETY: pointers with lengths come from slices, the others are references to arrays of the header's lengths; the four lists written
    // to are distinct vectors behind one mutable borrow.
    unsafe {
        scrollcairn_calls(
            fresh.units,
            fresh.groups,
            fresh.count,
            fresh.parents,
            fresh.hops,
            fresh.book,
            calls.as_ptr(),
            calls.len(),
            lists.book.as_mut_ptr(),
            lists.book.len(),
            lists.hops.as_mut_ptr(),
            lists.hops.len(),
            lists.bench.as_mut_ptr(),
            lists.bench.len(),
            lists.replies.as_mut_ptr(),
            lists.replies.len(),
            &mut answer,
        )
    };
    match answer {
        [0, calls, reply_numbers] => Ok(CallsAnswer { calls: calls as usize, reply_numbers: reply_numbers as usize }),
        refused => Err(refused),
    }
}
