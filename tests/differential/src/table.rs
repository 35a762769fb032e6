//! Random tables of groups and drawings of forests.

use crate::random::Random;
use model::{forest, GROUPS, ROOT, UNITS};

/// A number of units and the groups, of which `count` count; the other places hold rubbish.
#[derive(Clone, Debug)]
pub struct Table {
    pub units: usize,
    pub groups: [u32; GROUPS],
    pub count: usize,
}

impl Table {
    fn rubbish(random: &mut Random, units: usize, count: usize) -> Table {
        let mut groups = [0; GROUPS];
        groups.fill_with(|| random.next() as u32);
        Table { units, groups, count }
    }
}

pub fn units(random: &mut Random) -> usize {
    match random.below(8) {
        0 => 1,
        1 => 2,
        2 | 3 => random.between(3, 6),
        4 | 5 => random.between(7, 16),
        6 => random.between(17, 32),
        _ => 32,
    }
}

fn count(random: &mut Random) -> usize {
    match random.below(8) {
        0 => 0,
        1 => 1,
        2 | 3 => random.between(2, 4),
        4 | 5 => random.between(3, 8),
        6 => random.between(9, 23),
        _ => 24,
    }
}

/// A table that is not refused.
pub fn valid(random: &mut Random) -> Table {
    let (units, count) = (units(random), count(random));
    let mut table = Table::rubbish(random, units, count);
    let shape = random.below(8);
    let density = random.between(5, 95);
    for at in 0..count {
        table.groups[at] = match random.below(12) {
            0 if at > 0 => table.groups[random.below(at)],
            _ => group(random, shape, density, at, units),
        };
    }
    table
}

/// A group of the table's shape; never empty.
fn group(random: &mut Random, shape: usize, density: usize, at: usize, units: usize) -> u32 {
    let bit = |unit: usize| 1u32 << (unit % units);
    let one = bit(random.below(units));
    one | match shape {
        // one to four members anywhere
        0 | 1 => (0..random.below(4)).fold(0, |set, _| set | bit(random.below(units))),
        // as many as the table's density says
        2 => (0..units).filter(|_| random.percent(density)).fold(0, |set, unit| set | bit(unit)),
        // neighbours
        3 => {
            let (first, length) = (random.below(units), random.between(1, 6));
            (first..first + length).fold(0, |set, unit| set | bit(unit))
        }
        // two in a chain; `one` may join two pairs
        4 => bit(at) | bit(at + 1),
        // a star
        5 => bit(0) | bit(at + 1),
        // single units
        6 => 0,
        // many
        _ => (0..units).filter(|_| random.percent(70)).fold(0, |set, unit| set | bit(unit)),
    }
}

/// A table that may be refused: counts out of range, empty groups, members past the units.
pub fn wild(random: &mut Random) -> Table {
    let mut table = valid(random);
    let faults = random.between(1, 2);
    for _ in 0..faults {
        let place = random.below(table.count.clamp(1, GROUPS));
        match random.below(7) {
            0 => table.units = random.pick(&[0, 33, 34, 64, 255, 256, 288, 65_536, usize::MAX]),
            1 => table.count = random.pick(&[25, 26, 32, 256, 280, 65_536, usize::MAX]),
            2 | 6 => table.groups[place] = 0,
            3 => table.groups[place] |= 1 << random.below(UNITS),
            4 => table.units = random.between(1, 32),
            _ => table.count = random.between(0, 24),
        }
    }
    table
}

/// A table with a forest that is accepted for it: none for `build`, else a drawing. Mostly there are groups.
pub fn accepted(random: &mut Random) -> (Table, Option<[u8; UNITS]>) {
    loop {
        let (table, drawn) = any_accepted(random);
        if table.count > 0 || random.percent(15) {
            return (table, drawn);
        }
    }
}

fn any_accepted(random: &mut Random) -> (Table, Option<[u8; UNITS]>) {
    match random.below(8) {
        0..=2 => (valid(random), None),
        3..=5 => groups_on_tree(random),
        6 => {
            let table = valid(random);
            let line = line(random, table.units);
            (table, Some(line))
        }
        _ => {
            let table = valid(random);
            let built = built(&table);
            (table, Some(built))
        }
    }
}

/// The same, with the parents of either forest.
pub fn with_parents(random: &mut Random) -> (Table, [u8; UNITS]) {
    let (table, drawn) = accepted(random);
    let parents = drawn.unwrap_or_else(|| built(&table));
    (table, parents)
}

/// The parents of the built forest.
pub fn built(table: &Table) -> [u8; UNITS] {
    match forest::build(table.units, &table.groups, table.count) {
        Ok(forest) => forest.answer(),
        Err(_) => [ROOT; UNITS],
    }
}

/// The units in a single line, in any order: no group lacks a primary.
fn line(random: &mut Random, units: usize) -> [u8; UNITS] {
    let mut order: Vec<usize> = (0..units).collect();
    random.shuffle(&mut order);
    let mut parents = [ROOT; UNITS];
    for pair in order.windows(2) {
        parents[pair[1]] = pair[0] as u8;
    }
    parents
}

/// A tree first, then groups that have a primary in it: members below the primary, with carriers between.
fn groups_on_tree(random: &mut Random) -> (Table, Option<[u8; UNITS]>) {
    let (units, count) = (units(random), count(random));
    let parents = tree(random, units);
    let mut table = Table::rubbish(random, units, count);
    let share = random.pick(&[10, 25, 50, 90]);
    for group in table.groups[..count].iter_mut() {
        let primary = random.below(units);
        *group = 1 << primary;
        for unit in 0..units {
            if is_below(&parents, unit, primary) && random.percent(share) {
                *group |= 1 << unit;
            }
        }
    }
    (table, Some(parents))
}

fn is_below(parents: &[u8; UNITS], unit: usize, upper: usize) -> bool {
    let mut at = unit;
    while at != upper && parents[at] != ROOT {
        at = parents[at] as usize;
    }
    at == upper
}

/// A random forest without circles: deep, wide or mixed.
fn tree(random: &mut Random, units: usize) -> [u8; UNITS] {
    let mut order: Vec<usize> = (0..units).collect();
    random.shuffle(&mut order);
    let depth = random.below(3);
    let roots = random.pick(&[0, 0, 10, 30]);
    let mut parents = [ROOT; UNITS];
    for at in 1..units {
        if random.percent(roots) {
            continue;
        }
        let upper = match depth {
            0 => random.between(at.saturating_sub(2), at - 1),
            1 => random.below(at.min(3)),
            _ => random.below(at),
        };
        parents[order[at]] = order[upper] as u8;
    }
    parents
}

/// A drawing for a table, accepted or not; places past the units hold rubbish.
pub fn drawing(random: &mut Random, table: &Table) -> [u8; UNITS] {
    let units = table.units.clamp(1, UNITS);
    let mut drawn = match random.below(4) {
        0 => built(table),
        1 => line(random, units),
        2 => tree(random, units),
        _ => [ROOT; UNITS].map(|root| match random.percent(30) {
            true => root,
            false => random.below(units) as u8,
        }),
    };
    match random.below(6) {
        0 => circle(random, units, &mut drawn),
        1 => {
            let unit = random.below(units);
            drawn[unit] = unit as u8;
        }
        2 => drawn[random.below(units)] = random.pick(&[units as u8, 32, 33, 64, 254]),
        3 => drawn[random.below(units)] = random.below(units) as u8,
        _ => {}
    }
    if random.percent(50) {
        drawn[units..].fill_with(|| random.next() as u8);
    }
    drawn
}

/// A circle of a few units.
fn circle(random: &mut Random, units: usize, drawn: &mut [u8; UNITS]) {
    let mut order: Vec<usize> = (0..units).collect();
    random.shuffle(&mut order);
    order.truncate(random.between(1, units));
    for at in 0..order.len() {
        drawn[order[at]] = order[(at + 1) % order.len()] as u8;
    }
}
