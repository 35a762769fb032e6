//! One case: an input of some kind, the model's outcome, and that of everything it is compared with.

use crate::random::Random;
use crate::table::{self, Table};
use crate::tally::Tally;
use crate::{calls, damage, files, library, printed, program, replay};
use model::program::Printed;
use model::{forest, Refusal, ROOT, UNITS};
use std::path::PathBuf;

/// What the model is compared with, beside the baseline.
pub struct Subjects {
    pub program: Option<PathBuf>,
    pub library: bool,
}

/// What differs, and the input that shows it.
pub struct Difference {
    pub what: String,
    pub file: Option<Vec<u8>>,
    pub numbers: Option<String>,
}

/// Runs a case; its kind is random too.
pub fn run(random: &mut Random, subjects: &Subjects, tally: &mut Tally) -> Result<(), Difference> {
    match random.below(100) {
        0..=64 => {
            let (kind, file) = file(random);
            tally.case(kind);
            compare_file(&file, random, subjects, tally)
        }
        65..=72 => build_case(random, subjects, tally),
        73..=82 => check_case(random, subjects, tally),
        83 | 84 if subjects.library => {
            tally.case("live calls on any content");
            library::any_content(random, tally).map_err(|what| Difference { what, file: None, numbers: None })
        }
        _ => calls_case(random, subjects, tally),
    }
}

/// A bench file and its kind.
pub fn file(random: &mut Random) -> (&'static str, Vec<u8>) {
    match random.below(60) {
        0..=17 => {
            let length = files::length(random);
            ("file: good", files::good(random, length))
        }
        18..=23 => ("file: rich", files::rich(random)),
        24 | 25 => ("file: full bench", files::full(random)),
        26 => ("file: both limits", files::both_limits(random)),
        27..=31 => ("file: any drawing", files::drawn(random)),
        32..=44 => {
            let length = random.pick(&[0, 2, 10, 40]);
            let good = files::good(random, length);
            ("file: damaged", damage::damage(random, good))
        }
        45..=55 => ("file: faulty lines", damage::faulty(random)),
        56 | 57 => ("file: about 3,000 events", files::many_events(random)),
        58 => ("file: about 32,768 bytes", files::many_bytes(random)),
        _ => {
            let file = files::many_events(random);
            ("file: damaged, many events", damage::damage(random, file))
        }
    }
}

/// Compares everything that runs files; a difference is shown by as few lines as can be found.
pub fn compare_file(
    file: &[u8],
    random: &mut Random,
    subjects: &Subjects,
    tally: &mut Tally,
) -> Result<(), Difference> {
    let expected = model::program::run(file);
    printed::tally(&expected, tally);
    let lengths = random.next();
    let Err(what) = compare_runs(file, &expected, lengths, subjects, tally) else {
        return Ok(());
    };
    let difference = |file: &[u8]| {
        let expected = model::program::run(file);
        compare_runs(file, &expected, lengths, subjects, &mut Tally::default()).err()
    };
    let fewer = fewer_lines(file, |file| difference(file).is_some());
    let again = difference(&fewer).unwrap_or_default();
    Err(Difference { what: format!("{what}\nthe file below: {again}"), file: Some(fewer), numbers: None })
}

/// The baseline, the program and the library on one file; the checker on what was printed.
fn compare_runs(
    file: &[u8],
    expected: &Printed,
    lengths: u64,
    subjects: &Subjects,
    tally: &mut Tally,
) -> Result<(), String> {
    let mut random = Random::new(lengths, 0);
    let mut out = Vec::new();
    let taken = baseline::Runner::new().run(file, &mut out);
    tally.compared("baseline, printed");
    same_bytes("baseline", &out, &expected.bytes)?;
    if taken != expected.taken {
        return Err(format!("baseline took {taken}, not {}", expected.taken));
    }
    if let Some(path) = &subjects.program {
        let out = program::run(path, file, &mut random)?;
        tally.compared("program, printed");
        same_bytes("program", &out, &expected.bytes)?;
    }
    if subjects.library {
        library::run(file, expected, &mut random, tally)?;
        library::read_and_write(file, &mut random, tally)?;
    }
    tally.compared("demand 3, of a file");
    printed::demand_3(expected)
}

fn same_bytes(who: &str, printed: &[u8], expected: &[u8]) -> Result<(), String> {
    if printed == expected {
        return Ok(());
    }
    let at = printed.iter().zip(expected).take_while(|(a, b)| a == b).count();
    let line = 1 + expected[..at].iter().filter(|&&b| b == b'\n').count();
    let tail = |bytes: &[u8]| {
        let start = bytes[..at].iter().rposition(|&b| b == b'\n').map_or(0, |at| at + 1);
        String::from_utf8_lossy(&bytes[start..bytes.len().min(start + 60)]).into_owned()
    };
    Err(format!("{who} prints other bytes, at printed line {line}: {:?}, and not {:?}", tail(printed), tail(expected)))
}

/// Takes lines out as long as the file still shows the difference, with a limit on the tries.
fn fewer_lines(file: &[u8], differs: impl Fn(&[u8]) -> bool) -> Vec<u8> {
    let mut lines: Vec<&[u8]> = file.split_inclusive(|&byte| byte == b'\n').collect();
    let mut size = lines.len() / 2;
    let mut tries = 500;
    while size > 0 {
        let mut at = 0;
        while at + size <= lines.len() && tries > 0 {
            tries -= 1;
            let without = [&lines[..at], &lines[at + size..]].concat();
            match differs(&without.concat()) {
                true => lines = without,
                false => at += size,
            }
        }
        size /= 2;
    }
    lines.concat()
}

fn table_difference(what: String, table: &Table, drawn: Option<&[u8; UNITS]>) -> Difference {
    let valid = forest::build(table.units, &table.groups, table.count).is_ok();
    Difference {
        what,
        file: valid.then(|| files::heading(table, drawn).into_bytes()),
        numbers: Some(format!("{table:?}, drawn {drawn:?}")),
    }
}

/// Building a forest; what is built must be accepted, and stay as it is.
fn build_case(random: &mut Random, subjects: &Subjects, tally: &mut Tally) -> Result<(), Difference> {
    let table = match random.percent(70) {
        true => table::valid(random),
        false => table::wild(random),
    };
    tally.case("build");
    build_of(&table, random, subjects, tally)
}

pub fn build_of(table: &Table, random: &mut Random, subjects: &Subjects, tally: &mut Tally) -> Result<(), Difference> {
    compare_build(table, random, subjects, tally).map_err(|what| table_difference(what, table, None))
}

type Parents = Result<[u8; UNITS], Refusal>;

fn compare_build(table: &Table, random: &mut Random, subjects: &Subjects, tally: &mut Tally) -> Result<(), String> {
    let expected = forest::build(table.units, &table.groups, table.count);
    let expected = expected.map(|forest| forest.answer());
    tally.answer("build", expected.err().map_or(0, |refusal| refusal.number));
    if let Some(groups) = table.groups.get(..table.count) {
        tally.compared("baseline, build");
        same_parents("baseline builds", baseline::build(table.units, groups), expected)?;
    }
    if let Ok(parents) = expected {
        let checked = forest::check(table.units, &table.groups, table.count, &parents);
        let checked = checked.map(|forest| forest.answer());
        if checked != expected {
            return Err(format!("model: a built forest is not accepted: {checked:?}"));
        }
    }
    match subjects.library {
        true => library::build(table, expected, random, tally),
        false => Ok(()),
    }
}

fn same_parents(who: &str, found: Result<[u8; UNITS], baseline::Refusal>, expected: Parents) -> Result<(), String> {
    let found = found.map_err(|refusal| Refusal { number: refusal.number, value: refusal.value });
    match found == expected {
        true => Ok(()),
        false => Err(format!("{who} {found:?}, and not {expected:?}")),
    }
}

/// Checking a drawn forest.
fn check_case(random: &mut Random, subjects: &Subjects, tally: &mut Tally) -> Result<(), Difference> {
    let (table, drawn) = match random.below(10) {
        0 | 1 => {
            let table = table::wild(random);
            let drawn = table::drawing(random, &table);
            (table, drawn)
        }
        2..=4 => {
            let (table, drawn) = table::accepted(random);
            (table, drawn.unwrap_or([ROOT; UNITS]))
        }
        _ => {
            let table = table::valid(random);
            let drawn = table::drawing(random, &table);
            (table, drawn)
        }
    };
    tally.case("check");
    check_of(&table, &drawn, random, subjects, tally)
}

pub fn check_of(
    table: &Table,
    drawn: &[u8; UNITS],
    random: &mut Random,
    subjects: &Subjects,
    tally: &mut Tally,
) -> Result<(), Difference> {
    compare_check(table, drawn, random, subjects, tally).map_err(|what| table_difference(what, table, Some(drawn)))
}

fn compare_check(
    table: &Table,
    drawn: &[u8; UNITS],
    random: &mut Random,
    subjects: &Subjects,
    tally: &mut Tally,
) -> Result<(), String> {
    let expected = forest::check(table.units, &table.groups, table.count, drawn);
    let expected = expected.map(|forest| forest.answer());
    tally.answer("check", expected.err().map_or(0, |refusal| refusal.number));
    if let Some(groups) = table.groups.get(..table.count) {
        tally.compared("baseline, check");
        let found = baseline::check(table.units, groups, drawn);
        same_parents("baseline checks", found, expected)?;
    }
    match subjects.library {
        true => library::check(table, drawn, expected, random, tally),
        false => Ok(()),
    }
}

/// A list of calls. Without the library, only demand 3 is checked on what the model leaves.
fn calls_case(random: &mut Random, subjects: &Subjects, tally: &mut Tally) -> Result<(), Difference> {
    let input = calls::input(random);
    tally.case("calls");
    let (answer, left) = replay::expected(&input, tally);
    let mut result = Ok(());
    if subjects.library {
        result = library::calls(&input, answer, &left, tally).and_then(|()| library::live(&input, random, tally));
    }
    if answer[0] == 0 {
        tally.compared("demand 3, of calls");
        result = result.and_then(|()| replay::demand_3(&input, &left));
    }
    result.map_err(|what| Difference { what, file: calls::as_file(&input), numbers: Some(calls::describe(&input)) })
}
