//! Forests, with sets of units in 32 bits.

use crate::{Refusal, GROUPS, ROOT, UNITS};

fn refuse<T>(number: u16, value: u16) -> Result<T, Refusal> {
    Err(Refusal { number, value })
}

/// The units of a set, lowest first.
pub fn units_of(mut set: u32) -> impl Iterator<Item = usize> {
    std::iter::from_fn(move || {
        if set == 0 {
            return None;
        }
        let unit = set.trailing_zeros() as usize;
        set &= set - 1;
        Some(unit)
    })
}

fn all(units: usize) -> u32 {
    u32::MAX >> (UNITS - units)
}

/// Refusals 5, 4 and 6 of a table.
fn table(units: usize, groups: &[u32]) -> Result<(), Refusal> {
    if units == 0 || units > UNITS || groups.len() > GROUPS {
        return refuse(5, 0);
    }
    if groups.contains(&0) {
        return refuse(4, 0);
    }
    if groups.iter().any(|group| group & !all(units) != 0) {
        return refuse(6, 0);
    }
    Ok(())
}

/// The built forest of a table.
pub fn build(units: usize, groups: &[u32]) -> Result<[u8; UNITS], Refusal> {
    table(units, groups)?;
    let mut builder = Builder { groups, memberships: memberships(groups), parents: [ROOT; UNITS] };
    builder.lay_out(all(units), all_groups(groups.len()), ROOT);
    Ok(builder.parents)
}

fn all_groups(count: usize) -> u32 {
    (1 << count) - 1
}

/// For each unit the set of its groups.
fn memberships(groups: &[u32]) -> [u32; UNITS] {
    let mut memberships = [0; UNITS];
    for (group, members) in groups.iter().enumerate() {
        for unit in units_of(*members) {
            memberships[unit] |= 1 << group;
        }
    }
    memberships
}

struct Builder<'a> {
    groups: &'a [u32],
    memberships: [u32; UNITS],
    parents: [u8; UNITS],
}

impl Builder<'_> {
    /// Splits `units` into the parts that the groups of `live` join, and lays out each below `parent`.
    fn lay_out(&mut self, mut units: u32, live: u32, parent: u8) {
        while units != 0 {
            let part = self.part(units.trailing_zeros() as usize, live) & units;
            units &= !part;
            let root = self.root(part);
            self.parents[root] = parent;
            let rest = part & !(1 << root);
            self.lay_out(rest, live & !self.memberships[root], root as u8);
        }
    }

    /// The units joined to one unit.
    fn part(&self, unit: usize, live: u32) -> u32 {
        let mut part = 1u32 << unit;
        let mut waiting = part;
        let mut unused = live;
        while waiting != 0 {
            let unit = waiting.trailing_zeros() as usize;
            waiting &= waiting - 1;
            for group in units_of(self.memberships[unit] & unused) {
                waiting |= self.groups[group] & !part;
                part |= self.groups[group];
            }
            unused &= !self.memberships[unit];
        }
        part
    }

    fn root(&self, part: u32) -> usize {
        let mut root = part.trailing_zeros() as usize;
        for unit in units_of(part) {
            if self.memberships[unit].count_ones() > self.memberships[root].count_ones() {
                root = unit;
            }
        }
        root
    }
}

/// Accepts or refuses a drawn forest.
pub fn check(units: usize, groups: &[u32], drawn: &[u8; UNITS]) -> Result<[u8; UNITS], Refusal> {
    table(units, groups)?;
    let mut parents = [ROOT; UNITS];
    parents[..units].copy_from_slice(&drawn[..units]);
    if parents.iter().any(|&p| p != ROOT && p as usize >= units) {
        return refuse(6, 0);
    }
    let Some(above) = ancestors(units, &parents) else {
        return refuse(10, 0);
    };
    match groups.iter().position(|&g| primary(g, &above).is_none()) {
        Some(group) => refuse(11, group as u16),
        None => Ok(parents),
    }
}

/// For each unit the set of units above it, itself included; none where there is a circle.
pub fn ancestors(units: usize, parents: &[u8; UNITS]) -> Option<[u32; UNITS]> {
    let mut above = [0u32; UNITS];
    for (unit, set) in above.iter_mut().enumerate().take(units) {
        let mut at = unit;
        *set = 1 << unit;
        while parents[at] != ROOT {
            at = parents[at] as usize;
            if *set >> at & 1 == 1 {
                return None;
            }
            *set |= 1 << at;
        }
    }
    Some(above)
}

/// The member above all members.
pub fn primary(group: u32, above: &[u32; UNITS]) -> Option<usize> {
    let common = units_of(group).fold(group, |common, unit| common & above[unit]);
    units_of(common).next()
}
