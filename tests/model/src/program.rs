//! Document 01, "The bench file", second paragraph: what the program prints for a file.

use crate::bench::{ArriveReply, Bench, Hop};
use crate::file::{self, Content, Event};
use crate::forest;
use crate::{Refusal, BOOK, HOPS};

/// An event's outcome.
#[derive(Clone, Copy, Debug, PartialEq, Eq)]
pub enum Outcome {
    Sent(u16),
    Arrived(ArriveReply),
    Refused(u16),
}

/// The bytes printed, and the sum of the copies taken; for a run, also its bench, hops and book, and each event with its outcome.
pub struct Printed {
    pub bytes: Vec<u8>,
    pub taken: usize,
    pub run: Option<Run>,
}

pub struct Run {
    pub content: Content,
    pub bench: Bench,
    pub hops: Vec<Hop>,
    pub book: Vec<u16>,
    pub events: Vec<(Event, Outcome)>,
}

/// File bytes to printed bytes.
pub fn run(file: &[u8]) -> Printed {
    match run_file(file) {
        Err(refusal) => {
            Printed { bytes: refused_line(refusal.value, refusal.number).into_bytes(), taken: 0, run: None }
        }
        Ok(run) => Printed { bytes: printed(&run).into_bytes(), taken: taken(&run), run: Some(run) },
    }
}

/// The forest comes after the file: it is looked at once no line is refused, and its own refusal names the line of `parents=`.
fn run_file(file: &[u8]) -> Result<Run, Refusal> {
    let (content, events) = file::read_lines(file)?;
    let forest = match content.build {
        true => forest::build(content.units, &content.groups, content.count),
        false => forest::check(content.units, &content.groups, content.count, &content.parents),
    };
    let forest = forest.map_err(|refusal| Refusal { number: refusal.number, value: content.parents_line() })?;
    let mut hops = vec![Hop::default(); HOPS];
    let mut book = vec![0; BOOK];
    let mut bench = Bench::fresh(forest, &mut hops, &mut book)?;
    let run = |event| (event, run_event(event, &mut bench, &mut hops, &mut book));
    let events = events.into_iter().map(run).collect();
    Ok(Run { content, bench, hops, book, events })
}

fn run_event(event: Event, bench: &mut Bench, hops: &mut [Hop], book: &mut [u16]) -> Outcome {
    let outcome = match event {
        Event::Arrive { hop } => bench.arrive(hop, hops, book).map(Outcome::Arrived),
        Event::Send { source, group, word } => bench.send(source, group, word, hops).map(Outcome::Sent),
    };
    outcome.unwrap_or_else(|refusal| Outcome::Refused(refusal.number))
}

/// A line `refused=` for each event that is refused; a line `log=` for each unit; `hops=`; `rest=`.
fn printed(run: &Run) -> String {
    let mut text = String::new();
    for (at, (_, outcome)) in run.events.iter().enumerate() {
        if let Outcome::Refused(number) = outcome {
            let line = run.content.parents_line() + 1 + at as u16;
            text += &refused_line(line, *number);
        }
    }
    for unit in 0..run.content.units {
        text += &format!("log={unit}");
        for message in run.bench.log(unit as u16, &run.book) {
            text += &format!(",{message}");
        }
        text += "\n";
    }
    text += &format!("hops={}\n", run.bench.hops_made());
    match run.bench.rest(&run.hops) {
        Ok(true) => text += "rest=yes\n",
        _ => text += "rest=no\n",
    }
    text
}

fn refused_line(line: u16, number: u16) -> String {
    format!("refused={line},{number}\n")
}

/// The sum of the numbers that all answers of taken carried.
fn taken(run: &Run) -> usize {
    let taken = |(_, outcome): &(Event, Outcome)| match outcome {
        Outcome::Arrived(ArriveReply::Taken(copies)) => *copies as usize,
        _ => 0,
    };
    run.events.iter().map(taken).sum()
}
