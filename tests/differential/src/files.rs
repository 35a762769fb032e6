//! Random bench files: good ones, and ones at the limits.

use crate::random::Random;
use crate::table::{self, Table};
use crate::workload::{Call, Driver, Style};
use model::forest::{self, Forest};
use model::{BOOK, EVENTS, FILE, HOPS, ROOT, UNITS};

/// The lines before the events.
pub fn heading(table: &Table, drawn: Option<&[u8; UNITS]>) -> String {
    let mut text = format!("units={}\ngroups={}\n", table.units, table.count);
    for group in &table.groups[..table.count] {
        let members = (0..UNITS).filter(|unit| group >> unit & 1 == 1);
        let members: Vec<String> = members.map(|unit| unit.to_string()).collect();
        text += &format!("group={}\n", members.join(","));
    }
    match drawn {
        None => text += "parents=build\n",
        Some(parents) => text += &format!("parents={}\n", entries(&parents[..table.units])),
    }
    text
}

fn entries(parents: &[u8]) -> String {
    let entry = |&parent: &u8| match parent {
        ROOT => "-".to_string(),
        number => number.to_string(),
    };
    parents.iter().map(entry).collect::<Vec<_>>().join(",")
}

/// An event line; none for a call that is no event, or source 65,535.
pub fn event(call: Call) -> Option<String> {
    match call {
        Call::Send { source, group, word } if source < u16::MAX => Some(format!("send={source},{group},{word}\n")),
        Call::Arrive { hop } => Some(format!("arrive={hop}\n")),
        _ => None,
    }
}

/// The forest of an accepted table and drawing.
pub fn forest_of(table: &Table, drawn: Option<&[u8; UNITS]>) -> Forest {
    let forest = match drawn {
        None => forest::build(table.units, &table.groups, table.count),
        Some(drawn) => forest::check(table.units, &table.groups, table.count, drawn),
    };
    forest.expect("an accepted table")
}

/// A good file of at most so many events; some of its events may be refused.
pub fn good(random: &mut Random, most_events: usize) -> Vec<u8> {
    let (table, drawn) = table::accepted(random);
    let style = Style::random(random, table.units, table.count);
    run_lines(random, &table, drawn.as_ref(), style, most_events)
}

/// A good table with any drawing, accepted or not, and sometimes an entry too few or too many; a few events.
pub fn drawn(random: &mut Random) -> Vec<u8> {
    let table = table::valid(random);
    let drawn = table::drawing(random, &table);
    let mut text = heading(&table, Some(&drawn));
    if random.percent(20) {
        text.pop();
        match random.percent(50) {
            true => text.truncate(text.rfind(',').unwrap_or(text.len())),
            false => text += random.pick(&[",-", ",0", ",-,-", ",255", ",0,1,2,3"]),
        }
        text += "\n";
    }
    for _ in 0..random.below(20) {
        let group = random.below(table.count.max(1));
        text += &match random.percent(60) {
            true => format!("arrive={}\n", random.below(8)),
            false => format!("send={},{group},0\n", random.below(table.units)),
        };
    }
    text.into_bytes()
}

/// How many events a file of a run has.
pub fn length(random: &mut Random) -> usize {
    match random.below(10) {
        0..=3 => random.between(0, 30),
        4..=6 => random.between(30, 200),
        7 | 8 => random.between(200, 800),
        _ => EVENTS,
    }
}

/// A run of a style; half of them end with the arrival of all that is out.
fn run_lines(
    random: &mut Random,
    table: &Table,
    drawn: Option<&[u8; UNITS]>,
    style: Style,
    most_events: usize,
) -> Vec<u8> {
    let mut text = heading(table, drawn);
    let mut driver = Driver::new(forest_of(table, drawn), style);
    let ends_at_rest = random.percent(50);
    let random_part = match ends_at_rest {
        true => most_events / 2,
        false => most_events,
    };
    for at in 0..most_events {
        let call = match driver.oldest() {
            Some(call) if at >= random_part => call,
            None if at >= random_part => break,
            _ => driver.next(random),
        };
        let Some(line) = event(call) else { continue };
        if text.len() + line.len() > FILE {
            break;
        }
        text += &line;
        driver.apply(call, HOPS, BOOK);
    }
    text.into_bytes()
}

/// The largest benches: few or single members and many sends, for 200 messages; large groups, for way sizes of 2,000.
pub fn full(random: &mut Random) -> Vec<u8> {
    let (mut table, mut drawn) = table::accepted(random);
    while table.count == 0 {
        (table, drawn) = table::accepted(random);
    }
    let style = Style::random(random, table.units, table.count);
    let mut text = heading(&table, drawn.as_ref());
    let mut driver = Driver::new(forest_of(&table, drawn.as_ref()), style);
    let sends = random.between(195, 230);
    let mixed = random.percent(50);
    let (mut sent, mut events) = (0, 0);
    while sent < sends || driver.oldest().is_some() {
        let (source, group) = (random.below(table.units), random.below(table.count));
        let call = match driver.oldest() {
            Some(call) if sent >= sends => call,
            Some(_) if mixed && random.percent(80) => driver.next(random),
            _ => {
                sent += 1;
                Call::Send { source: source as u16, group: group as u16, word: random.below(10) as u32 }
            }
        };
        let Some(line) = event(call) else { continue };
        if text.len() + line.len() > FILE || events == EVENTS {
            break;
        }
        text += &line;
        events += 1;
        driver.apply(call, HOPS, BOOK);
    }
    text.into_bytes()
}

/// About 200 messages with ways of ten units, so that both limits are met at once or one just before the other.
pub fn both_limits(random: &mut Random) -> Vec<u8> {
    let mut text = "units=12\ngroups=3\ngroup=0,1,2,3,4,5,6,7,8,9\ngroup=0\n".to_string();
    text += random.pick(&["group=0,1,2,3,4,5,6,7,8,9,10\n", "group=0,11\n"]);
    text += random.pick(&["parents=build\n", "parents=-,0,1,2,3,4,5,6,7,8,9,0\n"]);
    let odd = random.pick(&[0, 0, 1, 3]);
    for _ in 0..random.between(199, 206) {
        let group = match random.percent(odd) {
            true => random.below(3),
            false => 0,
        };
        text += &format!("send={},{group},1\n", random.below(12));
    }
    for _ in 0..3 {
        text += &format!("send={},{},1\n", random.below(13), random.below(4));
    }
    for _ in 0..random.below(600) {
        text += &format!("arrive={}\n", random.below(300));
    }
    text.into_bytes()
}

/// 2,999 to 3,002 events, the last ones of every kind.
pub fn many_events(random: &mut Random) -> Vec<u8> {
    let mut text = "units=1\ngroups=1\ngroup=0\nparents=build\n".to_string();
    let short = ["arrive=0\n", "send=0,0,0\n", "arrive=1\n", "arrive=9\n"];
    for _ in 0..random.between(2_999, 3_000) {
        text += match random.percent(2) {
            true => random.pick(&short),
            false => "arrive=0\n",
        };
    }
    for _ in 0..random.below(4) {
        text += random.pick(&[
            "arrive=0\n",
            "arrive=0\n",
            "arrive=0\n",
            "send=0,0,0\n",
            "arrive=0",
            "arrive=\n",
            "send=65535,0,0\n",
            "arrive=65536\n",
            "send=0,0\n",
            "\n",
            "Arrive=0\n",
        ]);
    }
    text.into_bytes()
}

/// A file of about 32,768 bytes, to the byte.
pub fn many_bytes(random: &mut Random) -> Vec<u8> {
    let length =
        random.pick(&[FILE - 1, FILE, FILE, FILE, FILE + 1, FILE + 1, FILE + 2, 40_000, 65_536 + 100, 200_000]);
    let mut text = "units=1\ngroups=1\ngroup=0\nparents=-\nsend=0,0,1\n".to_string();
    // an arrival of 9 to 13 bytes
    let arrival = |bytes: usize| format!("arrive={}\n", &"65535"[..bytes - 8]);
    while length - text.len() > 26 {
        let bytes = random.pick(&[11, 12, 13, 13, 13, 13, 13, 13]);
        let left = length - text.len() - bytes;
        text += &arrival(if left >= 18 { bytes } else { 9 });
    }
    let left = length - text.len();
    text += &arrival(left / 2);
    text += &arrival(left - left / 2);
    assert_eq!(text.len(), length);
    let mut file = text.into_bytes();
    if random.percent(20) {
        file[length - 1] = random.pick(b"0x\r ");
    }
    file
}

/// A short run in which copies are held, overtake, are repeated and pass carriers: the richest of several.
pub fn rich(random: &mut Random) -> Vec<u8> {
    let candidates = (0..12).map(|_| {
        let (table, drawn) = loop {
            let (table, drawn) = table::accepted(random);
            if (3..=9).contains(&table.units) && (2..=8).contains(&table.count) {
                break (table, drawn);
            }
        };
        let style = Style::rich(random, table.units, table.count);
        let events = random.between(10, 60);
        run_lines(random, &table, drawn.as_ref(), style, events)
    });
    candidates.max_by_key(|file| richness(file)).expect("twelve")
}

/// How many different and how many telling things happen in a run.
fn richness(file: &[u8]) -> usize {
    use model::bench::ArriveReply::{Held, Repeat, Taken};
    use model::program::Outcome::{Arrived, Refused};
    let Some(run) = model::program::run(file).run else {
        return 0;
    };
    let count =
        |what: fn(&model::program::Outcome) -> bool| run.events.iter().filter(|(_, outcome)| what(outcome)).count();
    let held = count(|outcome| *outcome == Arrived(Held));
    let repeated = count(|outcome| *outcome == Arrived(Repeat));
    let several = count(|outcome| matches!(outcome, Arrived(Taken(copies)) if *copies > 1));
    let refused = count(|outcome| matches!(outcome, Refused(_)));
    let groups = &run.bench.forest().groups;
    let carried = run.hops[..run.bench.hops_made()].iter().filter(|hop| {
        let group = run.bench.messages()[hop.message as usize - 1].group as usize;
        !groups[group].contains(&(hop.receiver as usize))
    });
    let logged: usize = (0..run.content.units).map(|unit| run.bench.log(unit as u16, &run.book).len()).sum();
    let at_rest = run.bench.rest(&run.hops) == Ok(true);
    8 * several.min(4)
        + 20 * at_rest as usize
        + 4 * held.min(6)
        + 2 * repeated.min(4)
        + 4 * carried.count().min(6)
        + 2 * refused.min(2)
        + logged.min(30)
}
