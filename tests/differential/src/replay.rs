//! What a list of calls answers and leaves, by the model, as the numbers of scrollcairn_calls; and demand 3 on them.

use crate::bench_calls::{self, names, refusal_of, Said};
use crate::calls::{Input, LentCall, Lists, BENCH_NUMBERS, HOPS_LENT, HOP_NUMBERS, REPLY_NUMBERS};
use crate::tally::Tally;
use crate::workload::Call;
use model::bench::{Bench, Hop, TAKEN};
use model::forest;

/// What scrollcairn_calls answers and leaves, by the model.
pub fn expected(input: &Input, tally: &mut Tally) -> ([u64; 3], Lists) {
    let mut left = input.lists.clone();
    let answer = match run(input, &mut left, tally) {
        Ok(numbers) => {
            tally.answer("calls", 0);
            [0, input.calls.len() as u64, numbers as u64]
        }
        Err((number, value)) => {
            tally.answer("calls", number);
            left = input.lists.clone();
            [number.into(), value.into(), 0]
        }
    };
    (answer, left)
}

/// How many numbers the replies are; or the refusal and its value.
fn run(input: &Input, left: &mut Lists, tally: &mut Tally) -> Result<usize, (u16, u16)> {
    let replies = REPLY_NUMBERS * input.calls.len();
    if left.hops.len() < HOP_NUMBERS || left.bench.len() < BENCH_NUMBERS || left.replies.len() < replies {
        return Err((1, 1));
    }
    let table = &input.table;
    let checked = forest::check(table.units, &table.groups, table.count, &input.parents);
    let forest = checked.map_err(|refusal| (refusal.number, refusal.value))?;
    let nine = Hop { sender: 9, receiver: 9, sequence: 9, message: 9, state: 9 };
    let mut hops = vec![nine; HOPS_LENT];
    let lent_hops = input.fresh_hops.min(HOPS_LENT);
    let lent_book = input.fresh_book.min(left.book.len());
    let fresh = Bench::fresh(forest, &mut hops[..lent_hops], &mut left.book[..lent_book]);
    tally.answer("fresh", refusal_of(&fresh));
    let mut bench = fresh.map_err(|refusal| (refusal.number, refusal.value))?;
    let mut numbers = Vec::new();
    for call in &input.calls {
        run_call(call, &mut bench, &mut hops, &mut left.book, &mut numbers, tally);
    }
    left.replies[..numbers.len()].copy_from_slice(&numbers);
    left.hops[..HOP_NUMBERS].copy_from_slice(&hop_numbers(&hops));
    left.bench[..BENCH_NUMBERS].copy_from_slice(&bench_numbers(&bench, &hops, &left.book));
    Ok(numbers.len())
}

/// The list `hops` of the header.
fn hop_numbers(hops: &[Hop]) -> Vec<u16> {
    let record = |hop: &Hop| [hop.sender, hop.receiver, hop.sequence, hop.message, hop.state];
    hops.iter().flat_map(record).collect()
}

/// Runs one call and appends its reply.
fn run_call(
    lent: &LentCall,
    bench: &mut Bench,
    hops: &mut [Hop],
    book: &mut [u16],
    replies: &mut Vec<u16>,
    tally: &mut Tally,
) {
    let lent_hops = (lent.hops as usize).min(hops.len());
    let lent_book = (lent.book as usize).min(book.len());
    let (hops, book) = (&mut hops[..lent_hops], &mut book[..lent_book]);
    let reply = bench_calls::reply(lent.call, bench, hops, book);
    tally.answer(names(lent.call).0, refusal_of(&reply));
    match (lent.call, reply) {
        (Call::Log { unit }, _) => {
            let log = bench.log(unit, book);
            replies.extend([0, 7, log.len() as u16]);
            replies.extend(log);
        }
        (_, Err(refusal)) => replies.extend([refusal.number, 0, 0]),
        (_, Ok((kind, value))) => {
            tally.reply("calls", kind, value);
            replies.extend([0, kind, value]);
        }
    }
}

/// The list `bench` of the header.
fn bench_numbers(bench: &Bench, hops: &[Hop], book: &[u16]) -> Vec<u32> {
    let kept = bench_calls::kept(bench, hops, book);
    let wide = |numbers: &[u16]| -> Vec<u32> { numbers.iter().map(|&number| number.into()).collect() };
    let pairs = wide(kept.pairs.as_flattened().as_flattened());
    [&wide(&kept.totals)[..], &wide(&kept.log_lengths), kept.messages.as_flattened(), &pairs].concat()
}

/// Takes the replies apart. The last log of each unit and the last rest count: they come after all sends and arrivals.
fn said(input: &Input, replies: &[u16]) -> Option<Said> {
    let mut said = Said::new(input.table.units);
    let mut numbers = replies.iter().copied();
    for lent in &input.calls {
        let reply = [numbers.next()?, numbers.next()?, numbers.next()?];
        match lent.call {
            Call::Log { unit } => {
                let log: Vec<u16> = numbers.by_ref().take(reply[2].into()).collect();
                if let Some(place) = said.logs.get_mut(unit as usize) {
                    *place = log;
                }
            }
            Call::Rest { .. } => said.rest = reply[2] == 1,
            call => said.call(call, reply),
        }
    }
    Some(said)
}

/// Demand 3 on what a list of calls answered and left. Only for inputs that are not refused.
pub fn demand_3(input: &Input, left: &Lists) -> Result<(), String> {
    let mut said = said(input, &left.replies).ok_or("too few replies")?;
    said.hops_made = left.bench[0] as usize;
    let states = left.hops.chunks(5).take(said.hops_made).map(|hop| hop[4]);
    said.hops_taken = states.filter(|&state| state == TAKEN).count();
    said.demand_3(&input.table, &input.parents)
}
