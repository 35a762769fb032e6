//! Document 01's run P8 with a few calls more, as one list of calls, and what they leave.

use replay::*;
use scrollcairn::{read, Content, BOOK, EVENTS, HOPS, UNITS};

const RACK: &[u8] = include_bytes!("../../../examples/rack-of-four.bench");

#[test]
fn p8_as_calls() {
    let mut rack = Content::default();
    read(RACK, &mut [0; EVENTS], &mut rack).unwrap();
    let whole = |kind, a, b, c| [kind, a, b, c, HOPS as u32, BOOK as u32];
    let sends = [whole(0, 3, 0, 500), whole(0, 4, 9, 0), whole(0, 1, 2, u32::MAX)];
    let arrivals = [0, 0, 1, 2, 4, 3].map(|hop| whole(1, hop, 0, 0));
    let looks = [whole(2, 3, 0, 0), whole(3, 3, 0, 0), whole(3, 4, 0, 0), whole(4, 0, 0, 0)];
    let numbers: Vec<u32> = [&sends[..], &arrivals, &looks].concat().concat();
    let mut lists = Lists::filled(7, 13);
    let (groups, parents) = (&rack.groups, &rack.parents);
    let fresh = Fresh { units: 4, groups, count: 4, parents, hops: HOPS_LENT, book: BOOK };
    let answer = calls(&fresh, &numbers, &mut lists).unwrap();
    assert_eq!(answer.calls, 13);
    use Reply::*;
    let first = [Sent(1), Refused(12), Sent(2), Taken(1), Repeat, Taken(1), Taken(1), Held, Taken(2)];
    let last = [Log(vec![2, 1]), LogLength(2), Refused(17), Rest(true)];
    let expected = [&first[..], &last].concat();
    assert_eq!(replies(&lists.replies[..answer.reply_numbers]), Some(expected));
    let left = Left::from_numbers(&lists.bench);
    assert_eq!((left.hops_made, left.hops_taken), (5, 5));
    assert_eq!((left.messages, left.route_sizes), (2, 5));
    assert_eq!(left.words[..3], [500, u32::MAX, 0]);
    assert_eq!(left.log_lengths[..5], [1, 0, 1, 2, 0]);
    assert_eq!((left.pairs_made[2 * UNITS + 3], left.pairs_taken[2 * UNITS + 3]), (2, 2));
}
