//! The inputs that are timed: the largest benches within 3,000 events and 32,768 bytes, and the largest tables.

use model::forest::{self, Forest};
use model::{EVENTS, FILE, GROUPS, ROOT, UNITS};

/// A small generator of random numbers (splitmix64), always from the same seed.
pub struct Random(pub u64);

impl Random {
    pub fn below(&mut self, limit: usize) -> usize {
        self.0 = self.0.wrapping_add(0x9E37_79B9_7F4A_7C15);
        let mut z = self.0;
        z = (z ^ (z >> 30)).wrapping_mul(0xBF58_476D_1CE4_E5B9);
        z = (z ^ (z >> 27)).wrapping_mul(0x94D0_49BB_1331_11EB);
        ((z ^ (z >> 31)) % limit as u64) as usize
    }
}

/// A bench file, and how many of its lines are events.
pub struct File {
    pub bytes: Vec<u8>,
    pub events: usize,
}

/// The order in which copies arrive.
#[derive(Clone, Copy, PartialEq, Eq)]
pub enum Order {
    Rising,
    /// In rounds: all hops that are out, the highest number first.
    Reversed,
    /// Each arrival a second time.
    Repeated,
}

/// 32 units in a tree, 24 groups on it whose ways have about ten units.
pub struct Largest {
    groups: [u32; GROUPS],
    parents: [u8; UNITS],
    route_sizes: [usize; GROUPS],
}

impl Largest {
    pub fn new(random: &mut Random) -> Largest {
        let mut parents = [ROOT; UNITS];
        for (unit, parent) in parents.iter_mut().enumerate().skip(1) {
            *parent = (unit as u8 - 1) / 2;
        }
        let mut groups = [0; GROUPS];
        for (group, members) in groups.iter_mut().enumerate() {
            // all groups below unit 0, 1 or 2; as many members as make a way of 8 to 12 units
            let primary = group % 3;
            *members = 1 << primary;
            while route(&parents, *members, primary).count_ones() < 8 + group as u32 % 4 {
                let unit = random.below(UNITS);
                if route(&parents, 1 << unit, 0) >> primary & 1 == 1 {
                    *members |= 1 << unit;
                }
            }
        }
        let forest = forest::check(UNITS, &groups, GROUPS, &parents).expect("an accepted forest");
        Largest { groups, parents, route_sizes: std::array::from_fn(|group| forest.route(group).len()) }
    }

    /// A run of so many messages and at most so many hops, all of which arrive as far as the file's limits allow.
    pub fn file(&self, random: &mut Random, messages: usize, hops: usize, order: Order) -> File {
        let mut file = self.heading();
        let mut left = hops;
        for message in 0..messages {
            let group = self.group(random, left, messages - message);
            left -= self.route_sizes[group];
            add(&mut file, format!("send={},{group},7\n", random.below(UNITS)));
        }
        match order {
            Order::Reversed => reversed(&mut file),
            _ => rising(&mut file, hops - left, order == Order::Repeated),
        }
        file
    }

    /// A group for the next message, such that the ways of all messages come close to `hops`: ten for each, and room left for those that
    /// follow.
    fn group(&self, random: &mut Random, hops: usize, messages: usize) -> usize {
        let sizes = &self.route_sizes;
        let least = sizes.iter().min().expect("24 groups");
        let room = hops - least * (messages - 1);
        let most = match hops > 10 * messages {
            true => room,
            false => room.min(10),
        };
        let fits: Vec<usize> = (0..GROUPS).filter(|&group| sizes[group] <= most).collect();
        match messages {
            1 => *fits.iter().max_by_key(|&&group| sizes[group]).expect("room"),
            _ => fits[random.below(fits.len())],
        }
    }

    fn heading(&self) -> File {
        let bits = |set: u32| (0..UNITS).filter(move |unit| set >> unit & 1 == 1);
        let join = |list: Vec<String>| list.join(",");
        let mut text = format!("units={UNITS}\ngroups={GROUPS}\n");
        for &group in &self.groups {
            text += &format!("group={}\n", join(bits(group).map(|u| u.to_string()).collect()));
        }
        let parent = |&parent: &u8| match parent {
            ROOT => "-".to_string(),
            number => number.to_string(),
        };
        text += &format!("parents={}\n", join(self.parents.iter().map(parent).collect()));
        File { bytes: text.into_bytes(), events: 0 }
    }
}

/// The units between the members and the primary.
fn route(parents: &[u8; UNITS], members: u32, primary: usize) -> u32 {
    let mut route = 0;
    for member in (0..UNITS).filter(|unit| members >> unit & 1 == 1) {
        let mut at = member;
        route |= 1 << at;
        while at != primary && parents[at] != ROOT {
            at = parents[at] as usize;
            route |= 1 << at;
        }
    }
    route
}

/// Adds an event as long as the limits allow.
fn add(file: &mut File, line: String) -> bool {
    let fits = file.events < EVENTS && file.bytes.len() + line.len() <= FILE;
    if fits {
        file.bytes.extend(line.bytes());
        file.events += 1;
    }
    fits
}

fn rising(file: &mut File, hops: usize, repeated: bool) {
    for hop in 0..hops {
        for _ in 0..1 + repeated as usize {
            add(file, format!("arrive={hop}\n"));
        }
    }
}

/// The model tells which hops are out after each round.
fn reversed(file: &mut File) {
    let mut seen = 0;
    loop {
        let run = model::program::run(&file.bytes).run.expect("a good file");
        let made = run.bench.hops_made();
        let all_fit = (seen..made).rev().all(|hop| add(file, format!("arrive={hop}\n")));
        if made == seen || !all_fit {
            return;
        }
        seen = made;
    }
}

/// The file with its last line badly written.
pub fn refused_at_last_line(file: &File) -> File {
    let mut bytes = file.bytes.clone();
    bytes.pop();
    bytes.extend(b"x\n");
    bytes.truncate(FILE);
    File { bytes, events: file.events }
}

/// The largest tables for build.
pub fn tables(random: &mut Random) -> [(&'static str, [u32; GROUPS]); 3] {
    let mut any = [0; GROUPS];
    any.fill_with(|| (0..4).fold(0, |set, _| set | 1 << random.below(UNITS)));
    let chain = std::array::from_fn(|group| 0b11 << group);
    let star = std::array::from_fn(|group| 1 | 1 << (group + 1));
    [
        ("build, 24 random groups of up to 4 on 32 units", any),
        ("build, the chain of 24 groups {k, k+1}", chain),
        ("build, the star of 24 groups {0, k}", star),
    ]
}

/// The forest that the model builds.
pub fn built(groups: &[u32; GROUPS]) -> Forest {
    forest::build(UNITS, groups, GROUPS).expect("a good table")
}
