//! Numbers at the limits in each place of each line. Every input of a small size, through the baseline and the library; the program is left
//! out there, since a process for each would take too long.

use crate::cases::{self, Difference, Subjects};
use crate::random::Random;
use crate::table::Table;
use crate::tally::Tally;
use model::{places, GROUPS, ROOT, UNITS};

pub fn run(subjects: &Subjects, tally: &mut Tally) -> Result<(), Difference> {
    let random = &mut Random::new(0, 0);
    for file in places::files() {
        tally.case("a number in each place");
        cases::compare_file(file.as_bytes(), random, subjects, tally)?;
    }
    let subjects = Subjects { program: None, library: subjects.library };
    for units in 1..=4 {
        for table in tables(units, 3) {
            tally.case("small: build");
            cases::build_of(&table, random, &subjects, tally)?;
        }
        for table in tables(units, if units < 4 { 2 } else { 1 }) {
            for drawn in drawings(units) {
                tally.case("small: check");
                cases::check_of(&table, &drawn, random, &subjects, tally)?;
            }
        }
    }
    for heading in HEADINGS {
        for events in lists(EVENTS, 6) {
            tally.case("small: file");
            let file = format!("{heading}{}", events.concat());
            cases::compare_file(file.as_bytes(), random, &subjects, tally)?;
        }
    }
    Ok(())
}

/// Two units; three in a line, with unit 1 carrying for group 0.
const HEADINGS: [&str; 2] = [
    "units=2\ngroups=2\ngroup=0,1\ngroup=1\nparents=-,0\n",
    "units=3\ngroups=2\ngroup=0,2\ngroup=1,2\nparents=-,0,1\n",
];

const EVENTS: &[&str] = &["send=1,0,1\n", "send=1,1,2\n", "arrive=0\n", "arrive=1\n", "arrive=2\n"];

/// All lists of at most so many of the choices.
fn lists<T: Copy>(choices: &[T], most: usize) -> Vec<Vec<T>> {
    let mut all = vec![Vec::new()];
    let mut start = 0;
    for _ in 0..most {
        let end = all.len();
        for at in start..end {
            for &choice in choices {
                let longer = [&all[at][..], &[choice]].concat();
                all.push(longer);
            }
        }
        start = end;
    }
    all
}

/// All tables of so many units and at most so many groups.
fn tables(units: usize, most: usize) -> Vec<Table> {
    let sets: Vec<u32> = (1..1 << units).collect();
    let table = |list: Vec<u32>| {
        let mut groups = [0; GROUPS];
        groups[..list.len()].copy_from_slice(&list);
        Table { units, groups, count: list.len() }
    };
    lists(&sets, most).into_iter().map(table).collect()
}

/// All drawings of so many units.
fn drawings(units: usize) -> Vec<[u8; UNITS]> {
    let parents: Vec<u8> = (0..units as u8).chain([ROOT]).collect();
    let whole = lists(&parents, units).into_iter().filter(|list| list.len() == units);
    let drawing = |list: Vec<u8>| {
        let mut drawn = [ROOT; UNITS];
        drawn[..units].copy_from_slice(&list);
        drawn
    };
    whole.map(drawing).collect()
}
