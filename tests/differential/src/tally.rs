//! What was met: cases of each kind, and answers of each call. A refusal that a call can give and never gave is a failure of the test.

use std::collections::BTreeMap;

/// How many of each.
#[derive(Default)]
pub struct Tally {
    kinds: BTreeMap<&'static str, u64>,
    compared: BTreeMap<&'static str, u64>,
    refusals: BTreeMap<(&'static str, u16), u64>,
    short: BTreeMap<(&'static str, &'static str), u64>,
    replies: BTreeMap<(&'static str, &'static str), u64>,
}

/// The refusals that each call can give. A file that prints is the program's or `run`'s.
const CAN_REFUSE: &[(&str, &[u16])] = &[
    ("print", &[2, 3, 4, 5, 6, 7, 8, 9, 10, 11, 12, 13, 14, 15, 16]),
    ("build", &[4, 5, 6]),
    ("check", &[4, 5, 6, 10, 11]),
];

/// Those of the calls that only the library has.
const LIBRARY_CAN_REFUSE: &[(&str, &[u16])] = &[
    ("run", &[1]),
    ("read", &[1, 2, 3, 4, 5, 6, 7, 8, 9]),
    ("write", &[1]),
    ("calls", &[1, 4, 5, 6, 10, 11]),
    ("fresh", &[1]),
    ("send", &[1, 12, 13, 14, 15]),
    ("arrive", &[1, 16]),
    ("log", &[1, 17]),
    ("log length", &[1, 17]),
    ("rest", &[1]),
    ("live open", &[1, 4, 5, 6, 10, 11]),
    ("live send", &[1, 12, 13, 14, 15]),
    ("live arrive", &[1, 16]),
    ("live log", &[1, 17]),
    ("live log length", &[1, 17]),
    ("live rest", &[1]),
];

/// The lists that each live call uses. For each of them, too short and alone so, the call must have answered 1.
pub const LIVE_LISTS: &[(&str, &[&str])] = &[
    ("live open", &["tables", "messages", "pairs", "gauges", "hops", "book", "groups", "parents"]),
    ("live send", &["tables", "messages", "pairs", "hops"]),
    ("live arrive", &["tables", "messages", "pairs", "gauges", "hops", "book"]),
    ("live log", &["tables", "gauges", "book"]),
    ("live log length", &["tables", "gauges", "book"]),
    ("live rest", &["hops"]),
];

/// Replies that must be met as well, in files and in lists of calls, and live.
const REPLIES: &[&str] = &["repeat", "held", "taken 1", "taken more", "rest", "no rest"];
const REPLIED: &[&str] = &["file", "calls"];

/// From so many random cases on everything must have been met.
const ENOUGH_CASES: u64 = 3_000;

impl Tally {
    pub fn case(&mut self, kind: &'static str) {
        *self.kinds.entry(kind).or_default() += 1;
    }

    pub fn compared(&mut self, with: &'static str) {
        *self.compared.entry(with).or_default() += 1;
    }

    /// An answer of a call; 0 where it was not refused.
    pub fn answer(&mut self, call: &'static str, refusal: u16) {
        *self.refusals.entry((call, refusal)).or_default() += 1;
    }

    /// A refusal 1 of a live call for this list alone.
    #[cfg(feature = "library")]
    pub fn too_short(&mut self, call: &'static str, list: &'static str) {
        *self.short.entry((call, list)).or_default() += 1;
    }

    /// A reply in a file, a list of calls, or live, by the numbers of the header.
    pub fn reply(&mut self, by: &'static str, kind: u16, value: u16) {
        let reply = match (kind, value) {
            (2, _) => "repeat",
            (3, _) => "held",
            (4, 1) => "taken 1",
            (4, _) => "taken more",
            (6, 1) => "rest",
            (6, _) => "no rest",
            _ => return,
        };
        *self.replies.entry((by, reply)).or_default() += 1;
    }

    fn met(&self, call: &'static str, refusal: u16) -> u64 {
        self.refusals.get(&(call, refusal)).copied().unwrap_or(0)
    }

    /// The tables.
    pub fn print(&self, library: bool) {
        println!("cases:");
        for (kind, number) in &self.kinds {
            println!("  {number:>8}  {kind}");
        }
        println!("comparisons:");
        for (with, number) in &self.compared {
            println!("  {number:>8}  {with}");
        }
        println!("answers of each call: number of the refusal (- for not refused) and how often");
        for (call, _) in calls(library) {
            let mut row = format!("  {call:<16} -:{}", self.met(call, 0));
            for refusal in (1..=17).filter(|&refusal| self.met(call, refusal) > 0) {
                row += &format!(" {refusal}:{}", self.met(call, refusal));
            }
            println!("{row}");
        }
        if library {
            print_pairs("refusal 1 of a live call for one list alone", &self.short);
        }
        print_pairs("replies", &self.replies);
    }

    /// What should have been met and was not; nothing where there were few cases.
    pub fn missing(&self, library: bool, cases: u64) -> Vec<String> {
        let mut missing = Vec::new();
        if cases < ENOUGH_CASES {
            return missing;
        }
        for (call, refusals) in calls(library) {
            for &refusal in [0].iter().chain(refusals) {
                if self.met(call, refusal) == 0 {
                    missing.push(format!("{call} never answered {refusal}"));
                }
            }
        }
        let live: &[&str] = if library { &["live"] } else { &[] };
        for by in REPLIED.iter().chain(live) {
            let never = |reply: &&&'static str| !self.replies.contains_key(&(*by, **reply));
            missing.extend(REPLIES.iter().filter(never).map(|reply| format!("{by}: no reply was: {reply}")));
        }
        for (call, lists) in LIVE_LISTS.iter().filter(|_| library) {
            let never = |list: &&&'static str| !self.short.contains_key(&(*call, **list));
            missing.extend(lists.iter().filter(never).map(|list| format!("{call} never refused short {list}")));
        }
        missing
    }
}

/// A row for each first name: the second names and their numbers.
fn print_pairs(title: &str, numbers: &BTreeMap<(&'static str, &'static str), u64>) {
    println!("{title}:");
    let mut rows: BTreeMap<&str, String> = BTreeMap::new();
    for ((first, second), number) in numbers {
        *rows.entry(first).or_default() += &format!(" {second}:{number}");
    }
    rows.iter().for_each(|(first, row)| println!("  {first:<16}{row}"));
}

fn calls(library: bool) -> impl Iterator<Item = (&'static str, &'static [u16])> {
    let more = if library { LIBRARY_CAN_REFUSE } else { &[] };
    CAN_REFUSE.iter().chain(more).copied()
}
