//! What a file prints, taken apart: for the tally, and for demand 3.

use crate::bench_calls::arrive_numbers;
use crate::tally::Tally;
use model::bench::{ArriveReply, TAKEN};
use model::file::Event;
use model::program::{Outcome, Printed, Run};

/// Counts the refusals and replies of a file.
pub fn tally(expected: &Printed, tally: &mut Tally) {
    let Some(run) = &expected.run else {
        let number = lines(&expected.bytes).next().and_then(refusal);
        return tally.answer("print", number.unwrap_or(0));
    };
    tally.answer("print", 0);
    for (_, outcome) in &run.events {
        match outcome {
            Outcome::Refused(number) => tally.answer("print", *number),
            Outcome::Arrived(reply) => {
                let (kind, value) = arrive_numbers(*reply);
                tally.reply("file", kind, value);
            }
            Outcome::Sent(_) => {}
        }
    }
    tally.reply("file", 6, expected.bytes.ends_with(b"rest=yes\n").into());
}

fn lines(bytes: &[u8]) -> impl Iterator<Item = &str> {
    std::str::from_utf8(bytes).unwrap_or("").lines()
}

/// The number of a line `refused=line,number`.
fn refusal(line: &str) -> Option<u16> {
    line.strip_prefix("refused=")?.split(',').nth(1)?.parse().ok()
}

/// Demand 3 of the logs and of rest as they are printed, with the answers of the events.
pub fn demand_3(printed: &Printed) -> Result<(), String> {
    let Some(run) = &printed.run else {
        return Ok(());
    };
    let logs: Vec<Vec<u16>> = lines(&printed.bytes).filter_map(log).collect();
    let hops = lines(&printed.bytes).find_map(|line| line.strip_prefix("hops="));
    let states = &run.hops[..run.bench.hops_made()];
    let forest = run.bench.forest();
    let bits = |group: &model::forest::Units| group.iter().map(|unit| 1u32 << unit).sum();
    let groups: Vec<u32> = forest.groups.iter().map(bits).collect();
    checker::check(&checker::Run {
        units: run.content.units,
        groups: &groups,
        parents: &forest.answer(),
        calls: &calls(run),
        logs: &logs,
        hops_made: hops.and_then(|hops| hops.parse().ok()).unwrap_or(usize::MAX),
        hops_taken: states.iter().filter(|hop| hop.state == TAKEN).count(),
        rest: printed.bytes.ends_with(b"rest=yes\n"),
    })
    .map_err(|claim| format!("demand 3: {claim}"))
}

/// The messages of a line `log=unit,message,..`.
fn log(line: &str) -> Option<Vec<u16>> {
    let mut numbers = line.strip_prefix("log=")?.split(',');
    numbers.next();
    numbers.map(|number| number.parse().ok()).collect()
}

/// The events with their answers.
fn calls(run: &Run) -> Vec<checker::Call> {
    let call = |(event, outcome): &(Event, Outcome)| match (*event, *outcome) {
        (Event::Arrive { .. }, Outcome::Arrived(ArriveReply::Taken(taken))) => checker::Call::Arrive { taken },
        (Event::Arrive { .. }, _) => checker::Call::Arrive { taken: 0 },
        (Event::Send { source, group, .. }, outcome) => checker::Call::Send {
            source,
            group,
            message: match outcome {
                Outcome::Sent(message) => Some(message),
                _ => None,
            },
        },
    };
    run.events.iter().map(call).collect()
}
