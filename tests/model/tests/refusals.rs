//! Refusals of files, line by line, and of lent lists, as documents 01 and 02 and the readings of their open points have them.

use model::bench::{Bench, Hop};
use model::file;
use model::forest::{build, check};
use model::places::{NUMBERS, PLACES, WORD};
use model::program::run;
use model::{Refusal, BOOK, EVENT_NUMBERS, FILE, GROUPS, HOPS, ROOT, UNITS};

fn prints(file: &str) -> String {
    String::from_utf8(run(file.as_bytes()).bytes).unwrap()
}

/// The files, and the line and number of their refusal.
const REFUSED: &[(&str, u16, u16)] = &[
    ("", 1, 3),
    ("units=1", 1, 3),
    ("\n", 1, 3),
    ("units=1\n", 2, 3),
    ("units=1\ngroups=0\n", 3, 3),
    ("units=1\ngroups=0\nparents=-", 3, 3),
    ("units=1\ngroups=0\nparents=-\n\n", 4, 3),
    ("units=1\ngroups=0\nparents=-\nx", 4, 3),
    ("units =1\n", 1, 3),
    ("units1\n", 1, 3),
    ("Units=1\n", 1, 3),
    ("units=1\ngroup=0\n", 2, 3),
    ("units=1\ngroups=1\ngroups=0\n", 3, 3),
    ("units=1\ngroups=1\nparents=-\n", 3, 3),
    ("units=\n", 1, 4),
    ("units=01\n", 1, 4),
    ("units=1\r\n", 1, 4),
    ("units=65536\n", 1, 4),
    ("units=18446744073709551617\n", 1, 4),
    ("units=0\n", 1, 5),
    ("units=33\n", 1, 5),
    ("units=65535\n", 1, 5),
    ("units=1\ngroups=25\n", 2, 5),
    ("units=2\ngroups=1\ngroup=\n", 3, 4),
    ("units=2\ngroups=1\ngroup=0,\n", 3, 4),
    ("units=2\ngroups=1\ngroup=0,,1\n", 3, 4),
    ("units=2\ngroups=1\ngroup=2,x\n", 3, 4),
    ("units=2\ngroups=1\ngroup=0,2\n", 3, 6),
    ("units=2\ngroups=1\ngroup=1,0,2\n", 3, 6),
    ("units=2\ngroups=1\ngroup=1,0\n", 3, 7),
    ("units=2\ngroups=1\ngroup=1,1\n", 3, 7),
    ("units=2\ngroups=0\nparents=\n", 3, 4),
    ("units=2\ngroups=0\nparents=builds\n", 3, 4),
    ("units=2\ngroups=0\nparents=-,build\n", 3, 4),
    ("units=2\ngroups=0\nparents=2,x\n", 3, 4),
    ("units=2\ngroups=0\nparents=-,255\n", 3, 6),
    ("units=2\ngroups=0\nparents=-,-,2\n", 3, 6),
    ("units=2\ngroups=0\nparents=-\n", 3, 8),
    ("units=2\ngroups=0\nparents=-,0,0\n", 3, 8),
    ("units=2\ngroups=0\nparents=1,0\n", 3, 10),
    ("units=2\ngroups=0\nparents=0,-\n", 3, 10),
    ("units=2\ngroups=0\nparents=1,0\narrive=x\n", 4, 4),
    ("units=2\ngroups=1\ngroup=0,1\nparents=-,-\n", 4, 11),
    ("units=1\ngroups=0\nparents=-\nsend=0,0\n", 4, 4),
    ("units=1\ngroups=0\nparents=-\nsend=0,0,0,0\n", 4, 4),
    ("units=1\ngroups=0\nparents=-\nsend=65535,0,0\n", 4, 4),
    ("units=1\ngroups=0\nparents=-\narrive=65536\n", 4, 4),
    ("units=1\ngroups=0\nparents=-\narrive=1,2\n", 4, 4),
    ("units=1\ngroups=0\nparents=-\narrive0\n", 4, 3),
];

#[test]
fn refused_files() {
    for (file, line, number) in REFUSED {
        assert_eq!(prints(file), format!("refused={line},{number}\n"), "{file:?}");
    }
}

#[test]
fn the_event_past_the_last() {
    let file = |last: &str| format!("units=1\ngroups=0\nparents=-\n{}{last}", "arrive=0\n".repeat(3_000));
    assert_eq!(prints(&file("arrive=0")), "refused=3004,3\n");
    assert_eq!(prints(&file("x=0\n")), "refused=3004,3\n");
    assert_eq!(prints(&file("arrive=\n")), "refused=3004,4\n");
    assert_eq!(prints(&file("send=65535,0,0\n")), "refused=3004,4\n");
    assert_eq!(prints(&file("send=0,0,0\n")), "refused=3004,9\n");
}

#[test]
fn refused_events() {
    let events = "send=65534,0,0\nsend=0,65535,0\nsend=0,1,65535\narrive=65535\narrive=0\n";
    let file = format!("units=1\ngroups=1\ngroup=0\nparents=-\n{events}");
    let expected = "refused=5,12\nrefused=6,13\nrefused=7,13\nrefused=8,16\nrefused=9,16\n";
    assert_eq!(prints(&file), format!("{expected}log=0\nhops=0\nrest=yes\n"));
}

/// What 65,535 prints in each place. A larger number is badly written, but for the word, which takes up to 4,294,967,295.
const PRINTED_AT_65535: [&str; 10] = [
    "refused=1,5\n",
    "refused=2,5\n",
    "refused=3,6\n",
    "refused=3,6\n",
    "refused=3,6\n",
    "refused=3,6\n",
    "refused=5,4\n",
    "refused=5,13\nlog=0\nhops=0\nrest=yes\n",
    "log=0\nhops=1\nrest=no\n",
    "refused=5,16\nlog=0\nhops=0\nrest=yes\n",
];

#[test]
fn numbers_in_every_place() {
    for (place, (before, behind)) in PLACES.iter().enumerate() {
        let bad = format!("refused={},4\n", 1 + before.matches('\n').count());
        for (at, number) in NUMBERS.iter().enumerate() {
            let largest = if place == WORD { 2 } else { 0 };
            let expected = if at <= largest { PRINTED_AT_65535[place] } else { &bad };
            assert_eq!(prints(&format!("{before}{number}{behind}")), expected, "{number} behind {before:?}");
        }
    }
}

#[test]
fn forest_calls_in_order() {
    let table = |first: u32| {
        let mut groups = [0; GROUPS];
        groups[0] = first;
        groups
    };
    let number = |units, groups, count, drawn: u8| {
        let drawn = [drawn; UNITS];
        check(units, &groups, count, &drawn).err().map(|refusal| refusal.number)
    };
    assert_eq!(number(0, table(0), 1, 9), Some(5));
    assert_eq!(number(33, table(0), 1, 9), Some(5));
    assert_eq!(number(2, table(0), 25, 9), Some(5));
    assert_eq!(number(2, table(0), 1, 9), Some(4));
    assert_eq!(number(2, table(4), 1, 0), Some(6));
    assert_eq!(number(2, table(1), 1, 9), Some(6));
    assert_eq!(number(2, table(3), 1, 0), Some(10));
    assert_eq!(number(2, table(3), 1, ROOT), Some(11));
    assert_eq!(number(2, table(2), 1, ROOT), None);
    let refused = |units, groups, count| build(units, &groups, count).unwrap_err();
    assert_eq!(refused(33, table(0), 1), Refusal::plain(5));
    assert_eq!(refused(2, table(0), 1), Refusal::plain(4));
    assert_eq!(refused(2, table(4), 1), Refusal::plain(6));
}

#[test]
fn lists_too_short() {
    let forest = build(1, &[1; GROUPS], 1).unwrap();
    let (mut hops, mut book) = (vec![Hop::default(); HOPS], vec![7; BOOK]);
    let short = Err(Refusal::plain(1));
    let fresh = |hops: &mut [Hop], book: &mut [u16]| Bench::fresh(forest.clone(), hops, book).map(|_| ());
    assert_eq!(fresh(&mut hops[1..], &mut book), short);
    assert_eq!(fresh(&mut hops, &mut book[1..]), short);
    assert_eq!(book[0], 7);
    let mut bench = Bench::fresh(forest.clone(), &mut hops, &mut book).unwrap();
    assert_eq!(bench.send(9, 9, 0, &mut hops[1..]).map(|_| ()), short);
    assert_eq!(bench.arrive(9, &mut hops[1..], &mut book).map(|_| ()), short);
    assert_eq!(bench.arrive(9, &mut hops, &mut book[1..]).map(|_| ()), short);
    assert_eq!(bench.log_length(9, &book[1..]).map(|_| ()), short);
    assert_eq!(bench.log_length(1, &book), Err(Refusal::plain(17)));
    assert!(bench.log(1, &book).is_empty());
    assert_eq!(bench.rest(&hops[1..]).map(|_| ()), short);
    assert_eq!(file::read(b"", &mut vec![0; EVENT_NUMBERS - 1]).map(|_| ()), short);
}

#[test]
fn round_trip_and_what_stays() {
    let text = "units=3\ngroups=1\ngroup=0,2\nparents=-,0,0\nsend=65534,65535,4294967295\narrive=8\n";
    let mut list = vec![77; EVENT_NUMBERS + 1];
    let content = file::read(text.as_bytes(), &mut list).unwrap();
    assert_eq!(list[..7], [65_535, 65_535, 4_294_967_295, 0, 8, 0, 77]);
    let mut out = vec![b'?'; FILE];
    let bytes = file::write(&content, &list, &mut out).unwrap();
    assert_eq!(out[..bytes], *text.as_bytes());
    assert!(out[bytes..].iter().all(|&byte| byte == b'?'));
}
