//! The refusals of document 01.

use std::error::Error;
use std::fmt;

/// Why a call was turned away: one variant for each number, 1 to 17. A forest's refusals have line 0.
#[derive(Clone, Copy, Debug, PartialEq, Eq, Hash)]
pub enum Refusal {
    /// 1: too short a lent list.
    ShortList,
    /// 2: a file of more than 32,768 bytes.
    LongFile,
    /// 3: no line where one is due, a line without LF, or the wrong key.
    BadLine { line: u16 },
    /// 4: a value in bad form; of a forest, an empty group.
    BadValue { line: u16 },
    /// 5: no units or more than 32, or more than 24 groups.
    OutOfLimits { line: u16 },
    /// 6: a number of no unit, as member or parent.
    NoUnit { line: u16 },
    /// 7: members that do not go up.
    MembersFall { line: u16 },
    /// 8: more or fewer parents than units.
    ParentsDiffer { line: u16 },
    /// 9: one event more than 3,000.
    ManyEvents { line: u16 },
    /// 10: a unit among its own ancestors.
    Circle,
    /// 11: a group without a primary; the lowest.
    NoPrimary { group: u16 },
    /// 12: a send from no unit.
    NoSource,
    /// 13: a send to no group.
    NoGroup,
    /// 14: one message more than 200.
    ManyMessages,
    /// 15: a message for whose way there is no room: the ways of all messages may have 2,000 units in all.
    NoRoom,
    /// 16: an arrival of a hop that was not made.
    NoHop,
    /// 17: the log of no unit.
    NoLog,
}

impl Refusal {
    /// The refusal of this number, with the line or group that it carries. The library answers no others.
    pub(crate) fn of(number: u64, value: u64) -> Refusal {
        let carried = u16::try_from(value).expect("a line or a group");
        let (line, group) = (carried, carried);
        let refusal = match number {
            1 => Refusal::ShortList,
            2 => Refusal::LongFile,
            3 => Refusal::BadLine { line },
            4 => Refusal::BadValue { line },
            5 => Refusal::OutOfLimits { line },
            6 => Refusal::NoUnit { line },
            7 => Refusal::MembersFall { line },
            8 => Refusal::ParentsDiffer { line },
            9 => Refusal::ManyEvents { line },
            10 => Refusal::Circle,
            11 => Refusal::NoPrimary { group },
            12 => Refusal::NoSource,
            13 => Refusal::NoGroup,
            14 => Refusal::ManyMessages,
            15 => Refusal::NoRoom,
            16 => Refusal::NoHop,
            17 => Refusal::NoLog,
            _ => unreachable!("no refusal has the number {number}"),
        };
        assert_eq!(refusal.value(), carried, "what refusal {number} carries");
        refusal
    }

    /// Document 01's number, 1 to 17.
    pub fn number(self) -> u16 {
        match self {
            Refusal::ShortList => 1,
            Refusal::LongFile => 2,
            Refusal::BadLine { .. } => 3,
            Refusal::BadValue { .. } => 4,
            Refusal::OutOfLimits { .. } => 5,
            Refusal::NoUnit { .. } => 6,
            Refusal::MembersFall { .. } => 7,
            Refusal::ParentsDiffer { .. } => 8,
            Refusal::ManyEvents { .. } => 9,
            Refusal::Circle => 10,
            Refusal::NoPrimary { .. } => 11,
            Refusal::NoSource => 12,
            Refusal::NoGroup => 13,
            Refusal::ManyMessages => 14,
            Refusal::NoRoom => 15,
            Refusal::NoHop => 16,
            Refusal::NoLog => 17,
        }
    }

    /// The line that it carries; 0 for a forest's.
    pub fn line(self) -> Option<u16> {
        match self {
            Refusal::BadLine { line }
            | Refusal::BadValue { line }
            | Refusal::OutOfLimits { line }
            | Refusal::NoUnit { line }
            | Refusal::MembersFall { line }
            | Refusal::ParentsDiffer { line }
            | Refusal::ManyEvents { line } => Some(line),
            _ => None,
        }
    }

    /// The line or the group that it carries; 0 where it carries none.
    pub fn value(self) -> u16 {
        match self {
            Refusal::NoPrimary { group } => group,
            refusal => refusal.line().unwrap_or(0),
        }
    }
}

/// The number and what it means, with the line of a file or the group: `11, a group without a primary: group 2`.
impl fmt::Display for Refusal {
    fn fmt(&self, f: &mut fmt::Formatter) -> fmt::Result {
        let number = self.number();
        write!(f, "{number}, {}", TEXTS[number as usize - 1])?;
        match (*self, self.line()) {
            (Refusal::NoPrimary { group }, _) => write!(f, ": group {group}"),
            (_, Some(line @ 1..)) => write!(f, ": line {line}"),
            _ => Ok(()),
        }
    }
}

impl Error for Refusal {}

/// What is refused, by number.
const TEXTS: [&str; 17] = [
    "too short a lent list",
    "more than 32,768 bytes",
    "no line where one is due, a line without LF, or the wrong key",
    "a value in bad form, or an empty group",
    "no units or more than 32, or more than 24 groups",
    "a number of no unit, as member or parent",
    "members that do not go up",
    "more or fewer parents than units",
    "one event more than 3,000",
    "a unit among its own ancestors",
    "a group without a primary",
    "a send from no unit",
    "a send to no group",
    "one message more than 200",
    "a message for whose way there is no room",
    "an arrival of a hop that was not made",
    "the log of no unit",
];

#[cfg(test)]
mod tests {
    use super::*;

    /// The numbers that carry a line, and the one that carries a group.
    #[test]
    fn numbers_and_what_they_carry() {
        for number in 1..=17 {
            let carries = matches!(number, 3..=9 | 11);
            let refusal = Refusal::of(number, if carries { 5 } else { 0 });
            assert_eq!((u64::from(refusal.number()), refusal.value()), (number, if carries { 5 } else { 0 }));
            assert_eq!(refusal.line(), (3..=9).contains(&number).then_some(5));
        }
    }

    #[test]
    fn texts() {
        let text = |number, value| Refusal::of(number, value).to_string();
        assert_eq!(text(7, 3), "7, members that do not go up: line 3");
        assert_eq!(text(6, 0), "6, a number of no unit, as member or parent");
        assert_eq!(text(11, 0), "11, a group without a primary: group 0");
        assert_eq!(text(17, 0), "17, the log of no unit");
    }

    #[test]
    #[should_panic(expected = "what refusal 12 carries")]
    fn a_value_where_none_is_carried() {
        Refusal::of(12, 1);
    }
}
