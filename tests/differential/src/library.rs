//! The calls of the library against the model. Every list that is lent holds rubbish before, so that what must stay is seen to stay.

mod any_content;
mod lists;
mod live;

pub use any_content::any_content;
pub use live::live;

use crate::calls::{Input, LentCall, Lists};
use crate::random::Random;
use crate::table::Table;
use crate::tally::Tally;
use model::file::{self, Content};
use model::program::Printed;
use model::{Refusal, EVENT_NUMBERS, FILE, GROUPS, UNITS};

pub const HERE: bool = true;

type Parents = Result<[u8; UNITS], Refusal>;

/// A length for a lent list: mostly enough or more, now and then too short.
fn length(random: &mut Random, enough: usize) -> usize {
    match random.percent(5) {
        true => too_short(random, enough),
        false => at_least(random, enough),
    }
}

fn too_short(random: &mut Random, enough: usize) -> usize {
    random.pick(&[0, 1, enough / 2, enough - 1])
}

fn at_least(random: &mut Random, enough: usize) -> usize {
    match random.percent(40) {
        true => enough + random.between(1, 40),
        false => enough,
    }
}

fn rubbish_bytes(random: &mut Random, length: usize) -> Vec<u8> {
    (0..length).map(|_| random.next() as u8).collect()
}

/// An answer as numbers, whether refused or not.
fn numbers<T>(answer: &Result<T, scrollcairn::Refusal>, values: impl Fn(&T) -> [u64; 2]) -> [u64; 3] {
    match answer {
        Ok(value) => [0, values(value)[0], values(value)[1]],
        Err(refusal) => [refusal.number().into(), refusal.value().into(), 0],
    }
}

fn refused(refusal: Refusal) -> [u64; 3] {
    [refusal.number.into(), refusal.value.into(), 0]
}

fn same_answer(call: &str, found: [u64; 3], expected: [u64; 3]) -> Result<(), String> {
    match found == expected {
        true => Ok(()),
        false => Err(format!("{call} answers {found:?}, and not {expected:?}")),
    }
}

/// The first place where two lists differ.
fn same_list<T: PartialEq + std::fmt::Debug>(what: &str, found: &[T], expected: &[T]) -> Result<(), String> {
    let longest = found.len().max(expected.len());
    let differs = |at: &usize| found.get(*at) != expected.get(*at);
    match (0..longest).find(differs) {
        None => Ok(()),
        Some(at) => Err(format!("{what}, place {at}: {:?}, and not {:?}", found.get(at), expected.get(at))),
    }
}

/// scrollcairn_run.
pub fn run(file: &[u8], expected: &Printed, random: &mut Random, tally: &mut Tally) -> Result<(), String> {
    let length = length(random, scrollcairn::OUTPUT);
    let mut left = rubbish_bytes(random, length);
    let mut out = left.clone();
    let answer = scrollcairn::run(file, &mut out);
    let found = numbers(&answer, |ran| [ran.printed as u64, ran.taken as u64]);
    let expected_answer = match length < scrollcairn::OUTPUT {
        true => [1, 0, 0],
        false => {
            left[..expected.bytes.len()].copy_from_slice(&expected.bytes);
            [0, expected.bytes.len() as u64, expected.taken as u64]
        }
    };
    tally.compared("library, run");
    tally.answer("run", expected_answer[0] as u16);
    same_list("run, bytes printed", &out, &left)?;
    same_answer("run", found, expected_answer)
}

fn rubbish_content(random: &mut Random) -> scrollcairn::Content {
    let mut content = scrollcairn::Content { groups: [0; GROUPS], parents: [0; UNITS], counts: [0; 4] };
    content.groups.fill_with(|| random.next() as u32);
    content.parents.fill_with(|| random.next() as u8);
    content.counts.fill_with(|| random.next() as u16);
    content
}

/// The model's content as the header has it.
fn header_content(content: &Content) -> scrollcairn::Content {
    let (units, count) = (content.units as u16, content.count as u16);
    scrollcairn::Content {
        groups: content.groups,
        parents: content.parents,
        counts: [units, count, content.build as u16, content.events as u16],
    }
}

/// scrollcairn_read, and scrollcairn_write of what was read, and reading that again.
pub fn read_and_write(file: &[u8], random: &mut Random, tally: &mut Tally) -> Result<(), String> {
    if random.percent(10) {
        write_rubbish(random)?;
    }
    let Some((content, list)) = read(file, random, tally)? else {
        return Ok(());
    };
    let Some(written) = write(&content, &list, random, tally)? else {
        return Ok(());
    };
    tally.compared("library, round trip");
    same_list("a file read and written", &written, file)?;
    match read(&written, random, tally)? {
        Some((again, _)) if again != content => Err("written and read, the content differs".into()),
        _ => Ok(()),
    }
}

/// What was read, and the event list; none where it was refused.
fn read(file: &[u8], random: &mut Random, tally: &mut Tally) -> Result<Option<(Content, Vec<u32>)>, String> {
    let length = length(random, EVENT_NUMBERS);
    let mut left = random.wide_rubbish(length);
    let mut list = left.clone();
    let before = rubbish_content(random);
    let mut content = before.clone();
    let answer = scrollcairn::read(file, &mut list, &mut content);
    let found = numbers(&answer, |read| [read.numbers as u64, read.parents_line as u64]);
    let expected = file::read(file, &mut left);
    tally.compared("library, read");
    tally.answer("read", expected.as_ref().err().map_or(0, |refusal| refusal.number));
    let (expected_answer, expected_content) = match &expected {
        Err(refusal) => (refused(*refusal), before),
        Ok(content) => {
            let line = content.parents_line().into();
            ([0, 3 * content.events as u64, line], header_content(content))
        }
    };
    same_answer("read", found, expected_answer)?;
    same_list("read, events", &list, &left)?;
    same_list("read, groups", &content.groups, &expected_content.groups)?;
    same_list("read, parents", &content.parents, &expected_content.parents)?;
    same_list("read, counts", &content.counts, &expected_content.counts)?;
    Ok(expected.ok().map(|content| (content, list)))
}

/// The bytes written; none where it was refused.
fn write(content: &Content, list: &[u32], random: &mut Random, tally: &mut Tally) -> Result<Option<Vec<u8>>, String> {
    let lent = length(random, EVENT_NUMBERS).min(list.len());
    let length = length(random, FILE);
    let mut left = rubbish_bytes(random, length);
    let mut out = left.clone();
    let answer = scrollcairn::write(&header_content(content), &list[..lent], &mut out);
    let found = numbers(&answer, |&bytes| [bytes as u64, 0]);
    let expected = file::write(content, &list[..lent], &mut left);
    tally.compared("library, write");
    tally.answer("write", expected.err().map_or(0, |refusal| refusal.number));
    let expected_answer = match expected {
        Err(refusal) => refused(refusal),
        Ok(bytes) => [0, bytes as u64, 0],
    };
    same_answer("write", found, expected_answer)?;
    same_list("write, bytes", &out, &left)?;
    Ok(expected.ok().map(|bytes| out[..bytes].to_vec()))
}

/// A content that no reader gave: the call ends, within its lists; what it writes is free.
fn write_rubbish(random: &mut Random) -> Result<(), String> {
    let mut content = rubbish_content(random);
    if random.percent(50) {
        content.counts = [32, 24, random.below(2) as u16, 3_000];
    }
    let list = random.wide_rubbish(EVENT_NUMBERS + 10);
    let before = rubbish_bytes(random, FILE + 50);
    let mut out = before.clone();
    match scrollcairn::write(&content, &list, &mut out) {
        Ok(bytes) if bytes <= FILE => same_list("write of rubbish, bytes past 32,768", &out[FILE..], &before[FILE..]),
        answer => Err(format!("write of rubbish answers {answer:?}")),
    }
}

fn same_forest(
    call: &str,
    answer: Result<(), scrollcairn::Refusal>,
    found: &[u8; UNITS],
    before: &[u8; UNITS],
    expected: Parents,
) -> Result<(), String> {
    let expected_answer = expected.map_or_else(refused, |_| [0; 3]);
    same_answer(call, numbers(&answer, |_| [0, 0]), expected_answer)?;
    same_list(&format!("{call}, parents"), found, &expected.unwrap_or(*before))
}

fn rubbish_parents(random: &mut Random) -> [u8; UNITS] {
    let mut parents = [0; UNITS];
    parents.fill_with(|| random.next() as u8);
    parents
}

/// scrollcairn_build.
pub fn build(table: &Table, expected: Parents, random: &mut Random, tally: &mut Tally) -> Result<(), String> {
    let before = rubbish_parents(random);
    let mut parents = before;
    let answer = scrollcairn::build(table.units, &table.groups, table.count, &mut parents);
    tally.compared("library, build");
    same_forest("build", answer, &parents, &before, expected)
}

/// scrollcairn_check.
pub fn check(
    table: &Table,
    drawn: &[u8; UNITS],
    expected: Parents,
    random: &mut Random,
    tally: &mut Tally,
) -> Result<(), String> {
    let before = rubbish_parents(random);
    let mut parents = before;
    let answer = scrollcairn::check(table.units, &table.groups, table.count, drawn, &mut parents);
    tally.compared("library, check");
    same_forest("check", answer, &parents, &before, expected)
}

/// A call with a greater number, of which the low half is small, in each place that has 65,535, the word's aside: it must make no
/// difference.
fn with_greater(numbers: [u32; 6], at: usize) -> [u32; 6] {
    const WORD: usize = 3;
    std::array::from_fn(|place| match numbers[place] {
        65_535 if place != WORD => 65_536 * (1 + at as u32 % 3) + at as u32 % 4,
        number => number,
    })
}

/// scrollcairn_calls.
pub fn calls(input: &Input, expected_answer: [u64; 3], expected: &Lists, tally: &mut Tally) -> Result<(), String> {
    let fresh = ::replay::Fresh {
        units: input.table.units,
        groups: &input.table.groups,
        count: input.table.count,
        parents: &input.parents,
        hops: input.fresh_hops,
        book: input.fresh_book,
    };
    let numbers = |(at, call): (usize, &LentCall)| with_greater(call.numbers(), at);
    let calls: Vec<u32> = input.calls.iter().enumerate().flat_map(numbers).collect();
    let mut lists = ::replay::Lists {
        book: input.lists.book.clone(),
        hops: input.lists.hops.clone(),
        bench: input.lists.bench.clone(),
        replies: input.lists.replies.clone(),
    };
    let answer = ::replay::calls(&fresh, &calls, &mut lists);
    tally.compared("library, calls");
    let found = answer.map_or_else(|refused| refused, |ran| [0, ran.calls as u64, ran.reply_numbers as u64]);
    if found[0] == 0 && expected_answer[0] == 0 {
        same_replies(input, &lists.replies, &expected.replies)?;
    }
    same_answer("calls", found, expected_answer)?;
    same_list("calls, replies", &lists.replies, &expected.replies)?;
    same_list("calls, hop numbers", &lists.hops, &expected.hops)?;
    same_list("calls, bench numbers", &lists.bench, &expected.bench)?;
    same_list("calls, log book", &lists.book, &expected.book)?;
    match expected_answer {
        [0, number, end] => well_formed(&lists.replies[..end as usize], number as usize),
        _ => Ok(()),
    }
}

/// The replies, told by the call that gives the first one that differs.
fn same_replies(input: &Input, found: &[u16], expected: &[u16]) -> Result<(), String> {
    let mut at = 0;
    for (number, call) in input.calls.iter().enumerate() {
        let more = if expected[at + 1] == 7 { expected[at + 2] as usize } else { 0 };
        let end = at + 3 + more;
        if found[at..end] != expected[at..end] {
            return Err(format!(
                "call {number}, {call:?}, replies {:?}, and not {:?}",
                &found[at..end],
                &expected[at..end]
            ));
        }
        at = end;
    }
    Ok(())
}

/// The replies are as many as the calls and nothing beside.
fn well_formed(numbers: &[u16], calls: usize) -> Result<(), String> {
    match ::replay::replies(numbers) {
        Some(replies) if replies.len() == calls => Ok(()),
        _ => Err(format!("the replies of {calls} calls are no replies")),
    }
}
