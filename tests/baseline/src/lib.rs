//! The same program as a Rust programmer would write it for speed, without proofs: the measure for the verified one.

mod bench;
mod forest;
mod parse;

pub use bench::Bench;
pub use forest::{build, check};

use parse::{Heading, Parser};

pub const UNITS: usize = 32;
pub const GROUPS: usize = 24;
pub const MESSAGES: usize = 200;
pub const HOPS: usize = 2_000;
pub const EVENTS: usize = 3_000;
pub const FILE: usize = 32_768;
pub const ROOT: u8 = 255;

/// The number of a refusal, and the line or group that it carries.
#[derive(Clone, Copy, Debug, PartialEq, Eq)]
pub struct Refusal {
    pub number: u16,
    pub value: u16,
}

#[derive(Clone, Copy)]
enum Event {
    Send { source: u16, group: u16 },
    Arrive { hop: u16 },
}

/// Runs bench files, one after the other, in buffers that it keeps.
pub struct Runner {
    bench: Box<Bench>,
    events: Vec<Event>,
}

impl Default for Runner {
    fn default() -> Runner {
        Runner::new()
    }
}

impl Runner {
    pub fn new() -> Runner {
        Runner { bench: Box::new(Bench::new()), events: Vec::with_capacity(EVENTS) }
    }

    /// Appends what the file prints to `out`, and answers the sum of the copies taken.
    pub fn run(&mut self, file: &[u8], out: &mut Vec<u8>) -> usize {
        match self.prepare(file) {
            Ok(heading) => self.run_events(&heading, out),
            Err(refusal) => {
                refused_line(out, refusal.value, refusal.number);
                0
            }
        }
    }

    /// Reads the file and sets up the bench.
    fn prepare(&mut self, file: &[u8]) -> Result<Heading, Refusal> {
        self.events.clear();
        let heading = Parser::new(file)?.read(&mut self.events)?;
        let groups = &heading.groups[..heading.count];
        let parents = match &heading.drawn {
            Some(drawn) => check(heading.units, groups, drawn),
            None => build(heading.units, groups),
        };
        let parents = parents.map_err(|refusal| Refusal { number: refusal.number, value: 3 + heading.count as u16 })?;
        self.bench.reset(heading.units, groups, &parents);
        Ok(heading)
    }

    fn run_events(&mut self, heading: &Heading, out: &mut Vec<u8>) -> usize {
        let mut line = 3 + heading.count as u16;
        let mut taken = 0;
        for event in &self.events {
            line += 1;
            let outcome = match *event {
                Event::Send { source, group } => self.bench.send(source, group).map(|()| 0),
                Event::Arrive { hop } => self.bench.arrive(hop),
            };
            match outcome {
                Ok(copies) => taken += copies,
                Err(number) => refused_line(out, line, number),
            }
        }
        self.bench.print(out);
        taken
    }
}

fn refused_line(out: &mut Vec<u8>, line: u16, number: u16) {
    out.extend_from_slice(b"refused=");
    decimal(out, line);
    out.push(b',');
    decimal(out, number);
    out.push(b'\n');
}

/// Appends a number in decimal.
fn decimal(out: &mut Vec<u8>, mut number: u16) {
    let mut digits = [0; 5];
    let mut at = digits.len();
    loop {
        at -= 1;
        digits[at] = b'0' + (number % 10) as u8;
        number /= 10;
        if number == 0 {
            break;
        }
    }
    out.extend_from_slice(&digits[at..]);
}
