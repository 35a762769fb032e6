//! The live calls against the model: a bench is opened, and every call of a list is made on it, the model beside it.

use super::lists::{enough, Given, Lent, Lists};
use super::same_list;
use crate::bench_calls::{self, names, refusal_of, Said};
use crate::calls::{Input, LentCall};
use crate::random::Random;
use crate::tally::{Tally, LIVE_LISTS};
use crate::workload::Call;
use model::bench::{Bench, Hop, TAKEN};
use model::forest::{self, Forest};
use model::{Refusal, BOOK, HOPS, MESSAGES};
use scrollcairn::live::{self, Part, Reply, Step, Totals};

/// In a list of fewer calls, all lists are compared after each.
const FEW_CALLS: usize = 100;

/// What a call answers.
#[derive(Clone, Copy, Debug, PartialEq, Eq)]
pub enum Answer {
    Step(Step),
    Part(Part),
    Reply(Reply),
}

/// The lists that a call uses.
pub fn used(call: Call) -> &'static [&'static str] {
    used_by(names(call).1)
}

fn used_by(name: &str) -> &'static [&'static str] {
    LIVE_LISTS.iter().find(|(call, _)| *call == name).expect("a call's name").1
}

/// Makes a call that is lent so much of the lists.
pub fn make(call: Call, totals: Totals, lists: &mut Lists, lent: &Lent) -> Answer {
    let mut l = lists.lend(lent);
    match call {
        Call::Send { source, group, word } => Answer::Step(live::send(totals, source, group, word, &mut l)),
        Call::Arrive { hop } => Answer::Step(live::arrive(totals, hop, &mut l)),
        Call::Log { unit } => Answer::Part(live::log(unit, l.tables, l.gauges, l.book)),
        Call::LogLength { unit } => Answer::Reply(live::log_length(unit, l.tables, l.gauges, l.book)),
        Call::Rest { .. } => Answer::Reply(live::rest(totals, l.hops)),
    }
}

/// A reply that is refused; `value` is 0 but for 11.
pub fn refused(refusal: Refusal) -> Reply {
    Reply { refusal: refusal.number, kind: 0, value: refusal.value }
}

/// Opens a bench on the input's forest and makes its calls, each lent as much of hops and book as it says and all of the other lists; now
/// and then once before with one list too short.
pub fn live(input: &Input, random: &mut Random, tally: &mut Tally) -> Result<(), String> {
    let Some(mut run) = open(input, random, tally)? else {
        return Ok(());
    };
    run.same().map_err(|what| format!("after live open: {what}"))?;
    let short = random.pick(&[0, 0, 2, 10]);
    for (number, LentCall { call, hops, book }) in input.calls.iter().enumerate() {
        let lent = run.lists.whole().at_most("hops", (*hops).into()).at_most("book", (*book).into());
        let before = random.percent(short).then(|| lent.one_short(used(*call), random));
        for lent in before.into_iter().chain([lent]) {
            let mut compared = run.call(*call, &lent, tally);
            if input.calls.len() < FEW_CALLS {
                compared = compared.and_then(|()| run.same());
            }
            compared.map_err(|what| format!("live call {number}, {call:?}, lent {lent:?}: {what}"))?;
        }
    }
    run.same().map_err(|what| format!("after the last live call: {what}"))?;
    tally.compared("demand 3, of live calls");
    run.demand_3(input)
}

/// A bench that is opened, after tries that are lent too little; none where the forest is refused. Refused, open leaves every list.
fn open(input: &Input, random: &mut Random, tally: &mut Tally) -> Result<Option<Run>, String> {
    let mut lists = Lists::rubbish(random);
    let given = Given::new(&input.table, &input.parents, random);
    let whole = given.whole(&lists);
    let as_said = whole.clone().at_most("hops", input.fresh_hops).at_most("book", input.fresh_book);
    for lent in [whole.one_short(used_by("live open"), random), as_said, whole] {
        let before = lists.clone();
        let step = given.open(&mut lists, &lent);
        let opened = opened(input, &lent, tally);
        let reply = opened.as_ref().map_or_else(|refusal| refused(*refusal), |_| Reply { kind: 8, ..Reply::default() });
        let expected = Step { totals: Totals::default(), reply };
        if step != expected {
            return Err(format!("live open, lent {lent:?}, answers {step:?}, and not {expected:?}"));
        }
        match opened {
            Err(_) => lists.same(&before).map_err(|what| format!("live open, lent {lent:?}, is refused: {what}"))?,
            Ok(forest) => {
                same_tables(&given, &before, &lists, &lent, random)?;
                return Ok(Some(Run::new(forest, lists, before)));
            }
        }
    }
    Ok(None)
}

/// What the model says of open: the forest, or the refusal.
fn opened(input: &Input, lent: &Lent, tally: &mut Tally) -> Result<Forest, Refusal> {
    let table = &input.table;
    let short = lent.short(used_by("live open"));
    let opened = match short.is_empty() {
        true => forest::check(table.units, &table.groups, table.count, &input.parents),
        false => Err(Refusal::plain(1)),
    };
    tally.compared("library, live open");
    tally.answer("live open", refusal_of(&opened));
    if let [list] = short[..] {
        tally.too_short("live open", list);
    }
    opened
}

/// Open fills the tables: what they held before makes no difference.
fn same_tables(given: &Given, before: &Lists, opened: &Lists, lent: &Lent, random: &mut Random) -> Result<(), String> {
    let mut other = before.clone();
    other.tables = random.wide_rubbish(before.tables.len());
    given.open(&mut other, lent);
    let used = ..enough("tables");
    same_list("live open on other rubbish, tables", &other.tables[used], &opened.tables[used])
}

/// The library's bench and the model's.
struct Run {
    totals: Totals,
    lists: Lists,
    /// the lists before the bench was opened, with the tables that open left
    base: Lists,
    bench: Bench,
    hops: Vec<Hop>,
    book: Vec<u16>,
    said: Said,
}

impl Run {
    fn new(forest: Forest, lists: Lists, before: Lists) -> Run {
        let said = Said::new(forest.units());
        let (mut hops, mut book) = (vec![Hop::default(); HOPS], vec![0; BOOK]);
        let bench = Bench::fresh(forest, &mut hops, &mut book).expect("whole lists");
        let mut base = before;
        base.take("tables", &lists);
        Run { totals: Totals::default(), lists, base, bench, hops, book, said }
    }

    /// Makes a call and compares its answer.
    fn call(&mut self, call: Call, lent: &Lent, tally: &mut Tally) -> Result<(), String> {
        let expected = self.expected(call, lent, tally);
        let found = make(call, self.totals, &mut self.lists, lent);
        tally.compared("library, live calls");
        if found != expected {
            return Err(format!("answers {found:?}, and not {expected:?}"));
        }
        match found {
            Answer::Step(Step { totals, reply }) => {
                self.totals = totals;
                self.said.call(call, [reply.refusal, reply.kind, reply.value]);
                Ok(())
            }
            Answer::Part(Part { start, length }) => {
                let log = start..start + length;
                same_list("the log", &self.lists.book[log.clone()], &self.book[log])
            }
            Answer::Reply(_) => Ok(()),
        }
    }

    /// What the model answers.
    fn expected(&mut self, call: Call, lent: &Lent, tally: &mut Tally) -> Answer {
        let name = names(call).1;
        let short = lent.short(used(call));
        let reply = match short.is_empty() {
            true => bench_calls::reply(call, &mut self.bench, &mut self.hops, &mut self.book),
            false => Err(Refusal::plain(1)),
        };
        tally.answer(name, refusal_of(&reply));
        if let [list] = short[..] {
            tally.too_short(name, list);
        }
        if let Ok((kind, value)) = reply {
            tally.reply("live", kind, value);
        }
        let numbers = reply.map_or_else(refused, |(kind, value)| Reply { refusal: 0, kind, value });
        match (call, reply) {
            (Call::Send { .. } | Call::Arrive { .. }, _) => {
                let [made, taken, sent, routed] = bench_calls::totals(&self.bench, &self.hops);
                Answer::Step(Step { totals: Totals { made, taken, sent, routed }, reply: numbers })
            }
            (Call::Log { unit }, Ok((_, length))) => {
                Answer::Part(Part { start: MESSAGES * unit as usize, length: length.into() })
            }
            (Call::Log { .. }, Err(_)) => Answer::Part(Part::default()),
            _ => Answer::Reply(numbers),
        }
    }

    /// The library's lists are the model's; what follows in longer lists, and the tables, are as they were.
    fn same(&self) -> Result<(), String> {
        let kept = bench_calls::kept(&self.bench, &self.hops, &self.book);
        let mut expected = self.base.clone();
        expected.messages.splice(..3 * MESSAGES, kept.messages.as_flattened().iter().copied());
        expected.pairs.splice(..kept.pairs.len(), kept.pairs);
        expected.gauges.splice(..kept.log_lengths.len(), kept.log_lengths);
        expected.hops.splice(..HOPS, self.hops.iter().map(header_hop));
        expected.book.splice(..BOOK, self.book.iter().copied());
        self.lists.same(&expected)
    }

    /// Demand 3 of the calls made and of what the library hands back at their end.
    fn demand_3(mut self, input: &Input) -> Result<(), String> {
        let lent = self.lists.whole();
        let lists = self.lists.lend(&lent);
        for (unit, log) in self.said.logs.iter_mut().enumerate() {
            let part = live::log(unit as u16, lists.tables, lists.gauges, lists.book);
            *log = lists.book[part.start..][..part.length].to_vec();
        }
        self.said.rest = live::rest(self.totals, lists.hops).value == 1;
        self.said.hops_made = self.totals.made.into();
        let made = &lists.hops[..self.said.hops_made];
        self.said.hops_taken = made.iter().filter(|hop| u16::from(hop.state) == TAKEN).count();
        self.said.demand_3(&input.table, &input.parents)
    }
}

/// The model's hop as the header has it.
fn header_hop(hop: &Hop) -> live::Hop {
    let Hop { sender, receiver, sequence, message, state } = *hop;
    live::Hop { sender: sender as u8, receiver: receiver as u8, sequence, message, state: state as u8 }
}
