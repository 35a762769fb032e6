//! The model's bench: one call of a list, what the bench keeps, and demand 3 of a run, all in the numbers of the header.

use crate::table::Table;
use crate::workload::Call;
use model::bench::{ArriveReply, Bench, Hop, Message, TAKEN};
use model::{Refusal, MESSAGES, UNITS};

/// A call's names in the tally: in a list of calls, and live.
pub fn names(call: Call) -> (&'static str, &'static str) {
    match call {
        Call::Send { .. } => ("send", "live send"),
        Call::Arrive { .. } => ("arrive", "live arrive"),
        Call::Log { .. } => ("log", "live log"),
        Call::LogLength { .. } => ("log length", "live log length"),
        Call::Rest { .. } => ("rest", "live rest"),
    }
}

/// Runs a call: the kind of the reply and its value. The value of a log is its length.
pub fn reply(call: Call, bench: &mut Bench, hops: &mut [Hop], book: &mut [u16]) -> Result<(u16, u16), Refusal> {
    match call {
        Call::Send { source, group, word } => bench.send(source, group, word, hops).map(|message| (1, message)),
        Call::Arrive { hop } => bench.arrive(hop, hops, book).map(arrive_numbers),
        Call::Log { unit } => bench.log_length(unit, book).map(|length| (7, length)),
        Call::LogLength { unit } => bench.log_length(unit, book).map(|length| (5, length)),
        Call::Rest { .. } => bench.rest(hops).map(|rest| (6, rest.into())),
    }
}

/// The kind and the value of an arrival's reply.
pub fn arrive_numbers(reply: ArriveReply) -> (u16, u16) {
    match reply {
        ArriveReply::Repeat => (2, 0),
        ArriveReply::Held => (3, 0),
        ArriveReply::Taken(copies) => (4, copies),
    }
}

pub fn refusal_of<T>(result: &Result<T, Refusal>) -> u16 {
    result.as_ref().err().map_or(0, |refusal| refusal.number)
}

/// What a bench keeps beside hops and log book.
pub struct Kept {
    pub totals: [u16; 4],
    pub log_lengths: [u16; UNITS],
    /// sources, groups, words; 0 past the messages sent
    pub messages: [[u32; MESSAGES]; 3],
    /// hops made and hops taken, by sender and receiver
    pub pairs: [[[u16; UNITS]; UNITS]; 2],
}

/// Hops made, hops taken, messages sent, the sum of their way sizes.
pub fn totals(bench: &Bench, hops: &[Hop]) -> [u16; 4] {
    let taken = taken(bench, hops).count();
    [bench.hops_made(), taken, bench.messages().len(), bench.route_sizes()].map(|total| total as u16)
}

fn taken<'a>(bench: &Bench, hops: &'a [Hop]) -> impl Iterator<Item = &'a Hop> {
    hops[..bench.hops_made()].iter().filter(|hop| hop.state == TAKEN)
}

pub fn kept(bench: &Bench, hops: &[Hop], book: &[u16]) -> Kept {
    let field = |of: fn(&Message) -> u32| std::array::from_fn(|at| bench.messages().get(at).map_or(0, of));
    let made = |sender| std::array::from_fn(|receiver| bench.pair_count(sender, receiver));
    let mut pairs = [std::array::from_fn(made), [[0; UNITS]; UNITS]];
    for hop in taken(bench, hops) {
        pairs[1][hop.sender as usize][hop.receiver as usize] += 1;
    }
    Kept {
        totals: totals(bench, hops),
        log_lengths: std::array::from_fn(|unit| bench.log_length(unit as u16, book).unwrap_or(0)),
        messages: [
            field(|message| message.source.into()),
            field(|message| message.group.into()),
            field(|message| message.word),
        ],
        pairs,
    }
}

/// What a run says: its sends and arrivals with their answers, and at its end the logs, the hops, and rest.
pub struct Said {
    pub calls: Vec<checker::Call>,
    pub logs: Vec<Vec<u16>>,
    pub hops_made: usize,
    pub hops_taken: usize,
    pub rest: bool,
}

impl Said {
    /// Nothing yet.
    pub fn new(units: usize) -> Said {
        Said { calls: Vec::new(), logs: vec![Vec::new(); units], hops_made: 0, hops_taken: 0, rest: false }
    }

    /// A call with the numbers of its reply; what is no send and no arrival does not count.
    pub fn call(&mut self, call: Call, [refusal, kind, value]: [u16; 3]) {
        match call {
            Call::Send { source, group, .. } => {
                let message = (refusal == 0).then_some(value);
                self.calls.push(checker::Call::Send { source, group, message });
            }
            Call::Arrive { .. } => {
                let taken = if kind == 4 { value } else { 0 };
                self.calls.push(checker::Call::Arrive { taken });
            }
            _ => {}
        }
    }

    /// Demand 3 of the run, on this forest.
    pub fn demand_3(&self, table: &Table, parents: &[u8; UNITS]) -> Result<(), String> {
        checker::check(&checker::Run {
            units: table.units,
            groups: &table.groups[..table.count],
            parents,
            calls: &self.calls,
            logs: &self.logs,
            hops_made: self.hops_made,
            hops_taken: self.hops_taken,
            rest: self.rest,
        })
        .map_err(|claim| format!("demand 3: {claim}"))
    }
}
