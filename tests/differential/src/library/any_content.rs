//! Live calls on benches of any content: a call ends, writes only where it may, and nothing where it is turned away or says repeat; a log
//! lies inside the book. All else is free.

use super::lists::{Given, Lent, Lists};
use super::live::{make, refused, used, Answer};
use crate::random::Random;
use crate::table;
use crate::tally::Tally;
use crate::workload::Call;
use model::Refusal;
use scrollcairn::live::{Part, Step, Totals};

/// Calls on rubbish, or on a bench that was opened and is damaged as it goes.
pub fn any_content(random: &mut Random, tally: &mut Tally) -> Result<(), String> {
    let mut lists = Lists::rubbish(random);
    let mut totals = any_totals(random);
    if random.percent(70) {
        let (table, parents) = table::with_parents(random);
        let given = Given::new(&table, &parents, random);
        let whole = given.whole(&lists);
        totals = given.open(&mut lists, &whole).totals;
    }
    for _ in 0..random.between(10, 80) {
        if random.percent(15) {
            lists.damage(random);
        }
        if random.percent(5) {
            totals = any_totals(random);
        }
        let call = any_call(totals, random);
        let mut lent = lists.whole();
        if random.percent(5) {
            lent = lent.one_short(used(call), random);
        }
        let before = lists.clone();
        let answer = make(call, totals, &mut lists, &lent);
        tally.compared("library, live calls on any content");
        contained(call, totals, &lent, answer, before, &lists)
            .map_err(|what| format!("any content, {call:?} with {totals:?}, lent {lent:?}: {what}"))?;
        if let Answer::Step(step) = answer {
            totals = step.totals;
        }
    }
    Ok(())
}

fn any_totals(random: &mut Random) -> Totals {
    let limit = random.pick(&[10, 201, 2_001, 65_536]);
    let mut any = || random.below(limit) as u16;
    Totals { made: any(), taken: any(), sent: any(), routed: any() }
}

/// A call with numbers that mostly pass for units, groups and hops.
fn any_call(totals: Totals, random: &mut Random) -> Call {
    let mut below = |limit: usize| match random.percent(20) {
        true => random.next() as u16,
        false => random.below(limit) as u16,
    };
    let (unit, group) = (below(34), below(26));
    let hop = below(usize::from(totals.made).min(2_000) + 2);
    let word = random.word();
    match random.below(8) {
        0 | 1 => Call::Send { source: unit, group, word },
        2..=4 => Call::Arrive { hop },
        5 => Call::Log { unit },
        6 => Call::LogLength { unit },
        _ => Call::Rest { kind: 4 },
    }
}

/// The lists that a call may change, each in the places that it uses.
fn written(call: Call) -> &'static [&'static str] {
    match call {
        Call::Send { .. } => &["messages", "pairs", "hops"],
        Call::Arrive { .. } => &["messages", "pairs", "gauges", "hops", "book"],
        _ => &[],
    }
}

fn contained(
    call: Call,
    totals: Totals,
    lent: &Lent,
    answer: Answer,
    before: Lists,
    after: &Lists,
) -> Result<(), String> {
    let is_short = !lent.short(used(call)).is_empty();
    let stays = match answer {
        Answer::Step(Step { reply, .. }) => reply.refusal != 0 || reply.kind == 2,
        _ => true,
    };
    let mut expected = before;
    if !stays {
        written(call).iter().for_each(|list| expected.take(list, after));
    }
    after.same(&expected)?;
    let short = refused(Refusal::plain(1));
    let holds = match answer {
        Answer::Part(part) if is_short => part == Part::default(),
        Answer::Part(part) => part.start.checked_add(part.length).is_some_and(|end| end <= lent.of("book")),
        Answer::Step(step) => (!is_short || step.reply == short) && (!stays || step.totals == totals),
        Answer::Reply(reply) => !is_short || reply == short,
    };
    match holds {
        true => Ok(()),
        false => Err(format!("answers {answer:?}")),
    }
}
