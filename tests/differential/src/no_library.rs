//! Stands in for library.rs in a build without the static library. `main` refuses `--library` then, so that nothing here is reached.

use crate::calls::{Input, Lists};
use crate::random::Random;
use crate::table::Table;
use crate::tally::Tally;
use model::program::Printed;
use model::{Refusal, UNITS};

pub const HERE: bool = false;

type Parents = Result<[u8; UNITS], Refusal>;

fn absent() -> Result<(), String> {
    Err("built without the feature `library`".to_string())
}

pub fn run(_: &[u8], _: &Printed, _: &mut Random, _: &mut Tally) -> Result<(), String> {
    absent()
}

pub fn read_and_write(_: &[u8], _: &mut Random, _: &mut Tally) -> Result<(), String> {
    absent()
}

pub fn build(_: &Table, _: Parents, _: &mut Random, _: &mut Tally) -> Result<(), String> {
    absent()
}

pub fn check(_: &Table, _: &[u8; UNITS], _: Parents, _: &mut Random, _: &mut Tally) -> Result<(), String> {
    absent()
}

pub fn calls(_: &Input, _: [u64; 3], _: &Lists, _: &mut Tally) -> Result<(), String> {
    absent()
}

pub fn live(_: &Input, _: &mut Random, _: &mut Tally) -> Result<(), String> {
    absent()
}

pub fn any_content(_: &mut Random, _: &mut Tally) -> Result<(), String> {
    absent()
}
