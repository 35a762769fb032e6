//! P1 to P10 and the other "Benches to try" of document 01.

use model::bench::{ArriveReply, Bench, Hop};
use model::forest::{build, check, Forest, Units};
use model::program::run;
use model::{Refusal, BOOK, GROUPS, HOPS, ROOT, UNITS};

/// Groups of members, as the calls take them.
fn table(groups: &[&[u32]]) -> ([u32; GROUPS], usize) {
    let mut table = [0; GROUPS];
    for (at, members) in groups.iter().enumerate() {
        table[at] = members.iter().map(|unit| 1 << unit).sum();
    }
    (table, groups.len())
}

/// Parents, with 255 past the units.
fn drawn(parents: &[u8]) -> [u8; UNITS] {
    let mut drawn = [ROOT; UNITS];
    drawn[..parents.len()].copy_from_slice(parents);
    drawn
}

const R: u8 = ROOT;
const C: &[&[u32]] = &[&[0, 3], &[0, 1], &[2, 3], &[1, 2]];
const C_LINES: &str = "units=4\ngroups=4\ngroup=0,3\ngroup=0,1\ngroup=2,3\ngroup=1,2\n";

fn built(units: usize, groups: &[&[u32]]) -> Forest {
    let (groups, count) = table(groups);
    build(units, &groups, count).unwrap()
}

fn checked(units: usize, groups: &[&[u32]], parents: &[u8]) -> Result<Forest, Refusal> {
    let (groups, count) = table(groups);
    check(units, &groups, count, &drawn(parents))
}

fn prints(file: &str) -> String {
    String::from_utf8(run(file.as_bytes()).bytes).unwrap()
}

fn numbers(last: usize) -> String {
    let numbers: Vec<String> = (0..=last).map(|n| n.to_string()).collect();
    numbers.join(",")
}

#[test]
fn p1() {
    let forest = built(4, &[&[0, 1, 3], &[1, 2, 3]]);
    assert_eq!(forest.answer(), drawn(&[1, R, 1, 1]));
}

#[test]
fn p2() {
    let forest = built(4, &[&[0, 1], &[1, 2], &[2, 3]]);
    assert_eq!(forest.answer(), drawn(&[1, R, 1, 2]));
}

#[test]
fn p3() {
    let forest = built(4, C);
    assert_eq!(forest.answer(), drawn(&[R, 0, 1, 2]));
    assert_eq!(forest.route(0).len(), 4);
}

#[test]
fn p4() {
    let forest = checked(4, C, &[R, 2, 0, 2]).unwrap();
    assert_eq!(forest.route(0), Units::from([0, 2, 3]));
    assert_eq!(forest.primary(0), Some(0));
    assert!(!forest.groups[0].contains(&2));
}

#[test]
fn p5() {
    let refusal = checked(4, C, &[R, 0, 0, 0]).unwrap_err();
    assert_eq!((refusal.number, refusal.value), (11, 2));
}

#[test]
fn p6() {
    assert_eq!(checked(2, &[], &[1, 0]).unwrap_err(), Refusal::plain(10));
}

#[test]
fn p7() {
    let (mut hops, mut book) = (vec![Hop::default(); HOPS], vec![0; BOOK]);
    let mut bench = Bench::fresh(built(1, &[&[0]]), &mut hops, &mut book).unwrap();
    assert_eq!(bench.send(0, 0, 7, &mut hops), Ok(1));
    assert_eq!((hops[0].sender, hops[0].receiver, hops[0].sequence), (0, 0, 1));
    let first = bench.arrive(0, &mut hops, &mut book);
    assert_eq!(first, Ok(ArriveReply::Taken(1)));
    let again = bench.arrive(0, &mut hops, &mut book);
    assert_eq!(again, Ok(ArriveReply::Repeat));
}

#[test]
fn p8() {
    let events = "send=3,0,500\nsend=1,2,600\narrive=0\narrive=1\narrive=2\narrive=4\narrive=3\n";
    let file = format!("{C_LINES}parents=-,2,0,2\n{events}");
    let expected = "log=0,1\nlog=1\nlog=2,2\nlog=3,2,1\nhops=5\nrest=yes\n";
    assert_eq!(prints(&file), expected);
    let run = run(file.as_bytes()).run.unwrap();
    let replies: Vec<_> = run.events[5..].iter().map(|event| event.1).collect();
    use model::program::Outcome::Arrived;
    assert_eq!(replies[0], Arrived(ArriveReply::Held));
    assert_eq!(replies[1], Arrived(ArriveReply::Taken(2)));
}

#[test]
fn p9() {
    let (mut hops, mut book) = (vec![Hop::default(); HOPS], vec![0; BOOK]);
    let forest = checked(4, C, &[R, 2, 0, 2]).unwrap();
    let mut bench = Bench::fresh(forest, &mut hops, &mut book).unwrap();
    assert_eq!(bench.send(4, 9, 0, &mut hops), Err(Refusal::plain(12)));
}

#[test]
fn p10() {
    let expected = "log=0\nhops=0\nrest=yes\n";
    assert_eq!(prints("units=1\ngroups=0\nparents=-\n"), expected);
    assert_eq!(prints("units=1\ngroups=0\nparents=build\n"), expected);
}

#[test]
fn numbers_of_units() {
    assert!(prints("units=32\ngroups=0\nparents=build\n").ends_with("log=31\nhops=0\nrest=yes\n"));
    assert_eq!(prints("units=33\ngroups=0\nparents=build\n"), "refused=1,5\n");
}

#[test]
fn numbers_of_events() {
    let file = |events| format!("units=1\ngroups=0\nparents=-\n{}", "arrive=0\n".repeat(events));
    assert!(prints(&file(3_000)).ends_with("refused=3003,16\nlog=0\nhops=0\nrest=yes\n"));
    assert_eq!(prints(&file(3_001)), "refused=3004,9\n");
}

#[test]
fn lengths_of_files() {
    let heading = "units=1\ngroups=0\nparents=-\n";
    let long = "arrive=65535\n".repeat(2_000);
    let file = format!("{heading}{long}{}", "arrive=0\n".repeat(749));
    assert_eq!(file.len(), 32_768);
    assert!(prints(&file).ends_with("rest=yes\n"));
    assert_eq!(prints(&format!("{file}x")), "refused=0,2\n");
    assert_eq!(prints(""), "refused=1,3\n");
}

#[test]
fn sums_of_route_sizes() {
    let heading = format!("units=20\ngroups=1\ngroup={}\nparents=build\n", numbers(19));
    let hundred = format!("{heading}{}", "send=0,0,7\n".repeat(100));
    assert!(prints(&hundred).ends_with("hops=100\nrest=no\n"));
    assert!(!prints(&hundred).contains("refused"));
    assert!(prints(&format!("{hundred}send=0,0,7\n")).starts_with("refused=105,15\nlog=0\n"));
}
