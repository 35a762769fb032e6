//! Document 01, "Groups and ways", "A drawn forest", "A built forest".

use crate::{Refusal, GROUPS, ROOT, UNITS};
use std::collections::BTreeSet;

/// A set of units.
pub type Units = BTreeSet<usize>;

/// A number of units, the groups that count, and the parent of each unit (none for a root). Built or accepted by `build` or `check`.
#[derive(Clone, Debug)]
pub struct Forest {
    pub groups: Vec<Units>,
    pub parents: Vec<Option<usize>>,
}

impl Forest {
    pub fn units(&self) -> usize {
        self.parents.len()
    }

    /// Above are the unit itself and its ancestors.
    pub fn is_above(&self, upper: usize, lower: usize) -> bool {
        upper == lower || self.ancestors(lower).contains(&upper)
    }

    /// The parent, its parent and so on. Where there is a circle the walk would not end; each ancestor is met within as many steps as there
    /// are units.
    fn ancestors(&self, unit: usize) -> Units {
        let mut found = Units::new();
        let mut at = unit;
        for _ in 0..self.units() {
            let Some(parent) = self.parents[at] else {
                break;
            };
            found.insert(parent);
            at = parent;
        }
        found
    }

    /// The member above all members of the group, if there is one.
    pub fn primary(&self, group: usize) -> Option<usize> {
        let members = &self.groups[group];
        let above_all = |unit: &&usize| members.iter().all(|&member| self.is_above(**unit, member));
        members.iter().find(above_all).copied()
    }

    /// The way: all units on the paths down from the primary to members, with both ends.
    pub fn route(&self, group: usize) -> Units {
        let primary = self.primary(group).expect("an accepted forest");
        let mut route = Units::new();
        for &member in &self.groups[group] {
            let mut at = member;
            route.insert(at);
            while at != primary {
                at = self.parents[at].expect("the primary is above the member");
                route.insert(at);
            }
        }
        route
    }

    /// The children of a unit, in rising unit number.
    pub fn children(&self, unit: usize) -> Vec<usize> {
        (0..self.units()).filter(|&child| self.parents[child] == Some(unit)).collect()
    }

    /// The parents as the forest calls answer them: 255 for a root, and where there is no unit.
    pub fn answer(&self) -> [u8; UNITS] {
        let mut answer = [ROOT; UNITS];
        for (unit, parent) in self.parents.iter().enumerate() {
            answer[unit] = parent.map_or(ROOT, |parent| parent as u8);
        }
        answer
    }
}

/// The call "build": 5, 4, 6, in that order.
pub fn build(units: usize, groups: &[u32; GROUPS], count: usize) -> Result<Forest, Refusal> {
    let groups = table(units, groups, count)?;
    inside(units, &groups)?;
    Ok(lay_out(units, groups))
}

/// The call "check": 5, 4, 6, 10, 11, in that order. Parents past the units are not read.
pub fn check(units: usize, groups: &[u32; GROUPS], count: usize, drawn: &[u8; UNITS]) -> Result<Forest, Refusal> {
    let groups = table(units, groups, count)?;
    inside(units, &groups)?;
    let drawn = &drawn[..units];
    if drawn.iter().any(|&p| p != ROOT && p as usize >= units) {
        return Err(Refusal::plain(6));
    }
    let parent = |&p: &u8| (p != ROOT).then_some(p as usize);
    let parents = drawn.iter().map(parent).collect();
    accept(Forest { groups, parents })
}

/// 5 and 4: the groups that count, as sets.
fn table(units: usize, groups: &[u32; GROUPS], count: usize) -> Result<Vec<Units>, Refusal> {
    if units == 0 || units > UNITS || count > GROUPS {
        return Err(Refusal::plain(5));
    }
    let members = |&bits: &u32| (0..UNITS).filter(|u| bits >> u & 1 == 1).collect();
    let groups: Vec<Units> = groups[..count].iter().map(members).collect();
    if groups.iter().any(Units::is_empty) {
        return Err(Refusal::plain(4));
    }
    Ok(groups)
}

/// 6, for members.
fn inside(units: usize, groups: &[Units]) -> Result<(), Refusal> {
    if groups.iter().flatten().any(|&member| member >= units) {
        return Err(Refusal::plain(6));
    }
    Ok(())
}

/// Accepted is a forest without a unit among its own ancestors (10) and without a group that lacks a primary (11, with the lowest one).
pub fn accept(forest: Forest) -> Result<Forest, Refusal> {
    if (0..forest.units()).any(|unit| forest.ancestors(unit).contains(&unit)) {
        return Err(Refusal::plain(10));
    }
    match (0..forest.groups.len()).find(|&group| forest.primary(group).is_none()) {
        Some(group) => Err(Refusal { number: 11, value: group as u16 }),
        None => Ok(forest),
    }
}

/// Document 01, "A built forest": the bench is split into parts, and the rule lays out each.
pub fn lay_out(units: usize, groups: Vec<Units>) -> Forest {
    let mut forest = Forest { groups, parents: vec![None; units] };
    let live: Vec<Units> = forest.groups.clone();
    for part in parts(&(0..units).collect(), &live) {
        lay_out_part(&part, None, &live, &mut forest);
    }
    forest
}

/// One part: its root, then each of the parts that are left without it, below that root. `live` are the groups that are not set aside.
fn lay_out_part(part: &Units, above: Option<usize>, live: &[Units], forest: &mut Forest) {
    let root = root(part, &forest.groups);
    forest.parents[root] = above;
    let rest: Units = part.iter().copied().filter(|&unit| unit != root).collect();
    let holds_root = |group: &&Units| group.contains(&root);
    let live: Vec<Units> = live.iter().filter(|g| !holds_root(g)).cloned().collect();
    for smaller in parts(&rest, &live) {
        lay_out_part(&smaller, Some(root), &live, forest);
    }
}

/// The unit of the part that most of all groups hold, set aside or not; of several the lowest.
fn root(part: &Units, all_groups: &[Units]) -> usize {
    let degree = |unit: usize| all_groups.iter().filter(|g| g.contains(&unit)).count();
    let most = part.iter().map(|&unit| degree(unit)).max();
    let has_most = |unit: &&usize| Some(degree(**unit)) == most;
    *part.iter().find(has_most).expect("a part is not empty")
}

/// The parts into which `units` fall: units of one group are joined, and so are those that are linked over others.
fn parts(units: &Units, groups: &[Units]) -> Vec<Units> {
    let mut parts: Vec<Units> = Vec::new();
    for &unit in units {
        if parts.iter().any(|part| part.contains(&unit)) {
            continue;
        }
        let mut part = Units::from([unit]);
        loop {
            let joined = |other: &&usize| linked(&part, **other, groups);
            let grown: Units = units.iter().filter(joined).copied().collect();
            let grown: Units = part.union(&grown).copied().collect();
            if grown == part {
                break;
            }
            part = grown;
        }
        parts.push(part);
    }
    parts
}

/// Some group holds `other` and a unit of the part.
fn linked(part: &Units, other: usize, groups: &[Units]) -> bool {
    groups.iter().any(|group| group.contains(&other) && group.iter().any(|unit| part.contains(unit)))
}
