//! Document 01's bench C by the calls of the library: P3, P5, P7 to P9 and the limits, as files and live.

use scrollcairn::*;

const C: [u32; GROUPS] = {
    let mut groups = [0; GROUPS];
    (groups[0], groups[1], groups[2], groups[3]) = (0b1001, 0b0011, 0b1100, 0b0110);
    groups
};

const FILE_P8: &str = "units=4\ngroups=4\ngroup=0,3\ngroup=0,1\ngroup=2,3\ngroup=1,2\n\
    parents=-,2,0,2\nsend=3,0,500\nsend=1,2,600\narrive=0\narrive=1\narrive=2\narrive=4\narrive=3\n";

fn parents(first: [u8; 4]) -> [u8; UNITS] {
    let mut parents = [ROOT; UNITS];
    parents[..4].copy_from_slice(&first);
    parents
}

/// Bench C as P4 draws it.
fn bench_c() -> Bench {
    Bench::open(4, &C[..4], &parents([ROOT, 2, 0, 2])).unwrap()
}

#[test]
fn forests() {
    let mut left = [7; UNITS];
    assert_eq!(build(4, &C, 4, &mut left), Ok(()));
    assert_eq!(left, parents([ROOT, 0, 1, 2]));
    let mut left = [7; UNITS];
    let refusal = check(4, &C, 4, &parents([ROOT, 0, 0, 0]), &mut left);
    assert_eq!(refusal, Err(Refusal::NoPrimary { group: 2 }));
    assert_eq!(left, [7; UNITS]);
}

#[test]
fn p8_as_a_file() {
    let mut out = vec![b'?'; OUTPUT + 1];
    let ran = run(FILE_P8.as_bytes(), &mut out).unwrap();
    let expected = "log=0,1\nlog=1\nlog=2,2\nlog=3,2,1\nhops=5\nrest=yes\n";
    assert_eq!(out[..ran.printed], *expected.as_bytes());
    assert!(out[ran.printed..].iter().all(|&byte| byte == b'?'));
    assert_eq!(ran.taken, 5);
    assert_eq!(run(b"", &mut out[2..]), Err(Refusal::ShortList));
}

#[test]
fn p8_read_and_written() {
    let mut content = Content::default();
    let mut events = vec![7; EVENTS];
    let answer = read(FILE_P8.as_bytes(), &mut events, &mut content).unwrap();
    assert_eq!((answer.numbers, answer.parents_line), (21, 7));
    assert_eq!(content.counts, [4, 4, 0, 7]);
    let mut out = vec![0; FILE];
    let bytes = write(&content, &events, &mut out).unwrap();
    assert_eq!(out[..bytes], *FILE_P8.as_bytes());
    let bad = FILE_P8.replace("group=0,1", "group=1,0");
    assert_eq!(read(bad.as_bytes(), &mut events, &mut content), Err(Refusal::MembersFall { line: 4 }));
}

#[test]
fn p8_live() {
    let mut bench = bench_c();
    assert_eq!((bench.send(3, 0, 500), bench.send(1, 2, u32::MAX)), (Ok(1), Ok(2)));
    assert!(!bench.is_at_rest());
    use Arrival::*;
    let arrivals = [(0, Taken(1)), (0, Repeat), (1, Taken(1)), (2, Taken(1)), (4, Held), (4, Repeat), (3, Taken(2))];
    for (hop, arrival) in arrivals {
        assert_eq!(bench.arrive(hop), Ok(arrival), "hop {hop}");
    }
    let logs: [&[u16]; 5] = [&[1], &[], &[2], &[2, 1], &[]];
    for (unit, log) in logs.into_iter().enumerate() {
        assert_eq!(bench.log(unit as u16), log, "unit {unit}");
    }
    assert_eq!((bench.log_length(3), bench.log_length(4)), (Ok(2), Err(Refusal::NoLog)));
    assert!(bench.is_at_rest());
    assert_eq!(bench.totals(), Totals { made: 5, taken: 5, sent: 2, routed: 5 });
    let last = Hop { sender: 2, receiver: 3, sequence: 2, message: 1, state: Hop::TAKEN };
    assert_eq!((bench.hops().len(), bench.hops()[4]), (5, last));
    let message = Message { source: 1, group: 2, word: u32::MAX };
    assert_eq!((bench.message(2), bench.message(0), bench.message(3)), (Some(message), None, None));
}

#[test]
fn a_snapshot_goes_its_own_way() {
    let mut bench = bench_c();
    bench.send(3, 0, 500).unwrap();
    bench.send(1, 2, 600).unwrap();
    let mut other = bench.clone();
    // message 2 first, and message 1 first: unit 3 logs them in opposite orders
    for (bench, hops) in [(&mut bench, [0, 1, 2, 3, 4]), (&mut other, [0, 2, 3, 1, 4])] {
        for hop in hops {
            assert_eq!(bench.arrive(hop), Ok(Arrival::Taken(1)), "hop {hop}");
        }
    }
    assert_eq!((bench.log(3), other.log(3)), (&[2, 1][..], &[1, 2][..]));
    assert!(bench != other && bench == bench.clone());
}

#[test]
fn refused_forests() {
    let open = |units, groups: &[u32], drawn| Bench::open(units, groups, &parents(drawn)).unwrap_err();
    let roots = [ROOT; 4];
    assert_eq!(open(33, &[], roots), Refusal::OutOfLimits { line: 0 });
    assert_eq!(open(4, &[1; GROUPS + 1], roots), Refusal::OutOfLimits { line: 0 });
    assert_eq!(open(4, &[0b1, 0], roots), Refusal::BadValue { line: 0 });
    assert_eq!(open(4, &[0b10000], roots), Refusal::NoUnit { line: 0 });
    assert_eq!(open(2, &[], [1, 0, ROOT, ROOT]), Refusal::Circle);
    assert_eq!(open(4, &C[..4], [ROOT, 0, 0, 0]), Refusal::NoPrimary { group: 2 });
    assert_eq!(Bench::build(4, &[0]).unwrap_err(), Refusal::BadValue { line: 0 });
    assert_eq!(Bench::build(4, &[1; GROUPS + 1]).unwrap_err(), Refusal::OutOfLimits { line: 0 });
}

#[test]
fn refused_calls_change_nothing() {
    let mut bench = Bench::build(20, &[0xF_FFFF, 0b1]).unwrap();
    for message in 1..=100 {
        assert_eq!(bench.send(0, 0, 7), Ok(message));
    }
    let full = bench.clone();
    assert_eq!(bench.send(20, 2, 7), Err(Refusal::NoSource));
    assert_eq!(bench.send(0, 2, 7), Err(Refusal::NoGroup));
    assert_eq!(bench.send(0, 1, 7), Err(Refusal::NoRoom));
    assert_eq!(bench.arrive(100), Err(Refusal::NoHop));
    assert!(bench == full);
    let mut bench = Bench::build(1, &[0b1]).unwrap();
    for message in 1..=200 {
        assert_eq!(bench.send(0, 0, 7), Ok(message));
    }
    assert_eq!(bench.send(0, 0, 7), Err(Refusal::ManyMessages));
}

/// P7 on lists that are longer than they need be: what follows stays.
#[test]
fn p7_on_longer_lists() {
    let mut groups = [0; GROUPS + 1];
    groups[0] = 0b1;
    let seven = Hop { sender: 7, receiver: 7, sequence: 7, message: 7, state: 7 };
    let mut lists = live::Lists {
        tables: &mut [7; live::TABLES + 1],
        messages: &mut [7; live::MESSAGE_NUMBERS + 1],
        pairs: &mut [[[7; UNITS]; UNITS]; live::PAIRS + 1],
        gauges: &mut [7; UNITS + 1],
        hops: &mut [seven; HOPS + 1],
        book: &mut [7; BOOK + 1],
    };
    let opened = live::open(1, &groups, 1, &[ROOT; UNITS + 1], &mut lists);
    assert_eq!(opened.reply, live::Reply { refusal: 0, kind: live::Reply::OPENED, value: 0 });
    assert_eq!(opened.totals, Totals::default());
    let sent = live::send(opened.totals, 0, 0, 7, &mut lists);
    let taken = live::arrive(sent.totals, 0, &mut lists);
    let again = live::arrive(taken.totals, 0, &mut lists);
    let kinds = [sent, taken, again].map(|step| step.reply.kind);
    assert_eq!(kinds, [live::Reply::SENT, live::Reply::TAKEN, live::Reply::REPEAT]);
    assert_eq!(live::rest(again.totals, lists.hops).value, 1);
    assert_eq!(live::log_length(0, lists.tables, lists.gauges, lists.book).value, 1);
    assert_eq!((lists.messages[400], lists.gauges[0], lists.book[0]), (7, 1, 1));
    let after = (lists.tables[140], lists.messages[600], lists.pairs[2][0][0], lists.gauges[32], lists.book[6_400]);
    assert_eq!(after, (7, 7, 7, 7, 7));
    assert_eq!(lists.hops[2_000], seven);
}
