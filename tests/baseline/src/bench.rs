//! The bench: hops of one pair are linked, so that the next one to take is found at once.

use crate::forest::{ancestors, primary, units_of};
use crate::{decimal, GROUPS, HOPS, MESSAGES, ROOT, UNITS};

#[derive(Clone, Copy, PartialEq, Eq)]
enum State {
    Out,
    Held,
    Taken,
}

#[derive(Clone, Copy)]
struct Hop {
    sender: u8,
    receiver: u8,
    group: u8,
    state: State,
    message: u8,
    /// the next hop of this pair
    next: u16,
}

const NONE: u16 = u16::MAX;

/// Of one ordered pair of units: its first hop not taken, and its last hop.
#[derive(Clone, Copy)]
struct Pair {
    first: u16,
    last: u16,
}

const NO_HOPS: Pair = Pair { first: NONE, last: NONE };

/// A bench, message by message.
pub struct Bench {
    units: usize,
    groups: usize,
    members: [u32; GROUPS],
    routes: [u32; GROUPS],
    primaries: [u8; GROUPS],
    children: [u32; UNITS],
    messages: usize,
    route_sizes: usize,
    hops: Vec<Hop>,
    hops_taken: usize,
    pairs: [[Pair; UNITS]; UNITS],
    log_lengths: [usize; UNITS],
    logs: [[u8; MESSAGES]; UNITS],
}

impl Default for Bench {
    fn default() -> Bench {
        Bench::new()
    }
}

impl Bench {
    /// Buffers; `reset` makes a bench of them.
    pub fn new() -> Bench {
        Bench {
            units: 0,
            groups: 0,
            members: [0; GROUPS],
            routes: [0; GROUPS],
            primaries: [0; GROUPS],
            children: [0; UNITS],
            messages: 0,
            route_sizes: 0,
            hops: Vec::with_capacity(HOPS),
            hops_taken: 0,
            pairs: [[NO_HOPS; UNITS]; UNITS],
            log_lengths: [0; UNITS],
            logs: [[0; MESSAGES]; UNITS],
        }
    }

    /// A fresh bench on an accepted forest.
    pub fn reset(&mut self, units: usize, groups: &[u32], parents: &[u8; UNITS]) {
        let above = ancestors(units, parents).expect("an accepted forest");
        self.units = units;
        self.groups = groups.len();
        for (group, &members) in groups.iter().enumerate() {
            let primary = primary(members, &above).expect("an accepted forest");
            let below_primary = |&unit: &usize| above[unit] >> primary & 1 == 1;
            let upward = units_of(members).fold(0, |route, unit| route | above[unit]);
            let route = units_of(upward).filter(below_primary);
            self.members[group] = members;
            self.primaries[group] = primary as u8;
            self.routes[group] = route.fold(0, |set, unit| set | 1 << unit);
        }
        self.children = [0; UNITS];
        for (unit, &parent) in parents[..units].iter().enumerate() {
            if parent != ROOT {
                self.children[parent as usize] |= 1 << unit;
            }
        }
        self.messages = 0;
        self.route_sizes = 0;
        self.hops.clear();
        self.hops_taken = 0;
        self.pairs = [[NO_HOPS; UNITS]; UNITS];
        self.log_lengths = [0; UNITS];
    }

    /// A message from a unit to a group; refused with its number.
    pub fn send(&mut self, source: u16, group: u16) -> Result<(), u16> {
        let (source, group) = (source as usize, group as usize);
        if source >= self.units {
            return Err(12);
        }
        if group >= self.groups {
            return Err(13);
        }
        if self.messages == MESSAGES {
            return Err(14);
        }
        let size = self.routes[group].count_ones() as usize;
        if self.route_sizes + size > HOPS {
            return Err(15);
        }
        self.route_sizes += size;
        self.messages += 1;
        let primary = self.primaries[group];
        self.make_hop(source, primary as usize, group as u8, self.messages as u8);
        Ok(())
    }

    /// How many copies were taken.
    pub fn arrive(&mut self, hop: u16) -> Result<usize, u16> {
        let Some(hop) = self.hops.get_mut(hop as usize) else {
            return Err(16);
        };
        if hop.state != State::Out {
            return Ok(0);
        }
        hop.state = State::Held;
        let (sender, receiver) = (hop.sender as usize, hop.receiver as usize);
        let mut taken = 0;
        loop {
            let next = self.pairs[sender][receiver].first;
            match self.hops.get(next as usize) {
                Some(hop) if hop.state == State::Held => self.take(next as usize, *hop),
                _ => break,
            }
            taken += 1;
        }
        self.hops_taken += taken;
        Ok(taken)
    }

    fn take(&mut self, at: usize, hop: Hop) {
        let (receiver, group) = (hop.receiver as usize, hop.group as usize);
        self.hops[at].state = State::Taken;
        self.pairs[hop.sender as usize][receiver].first = hop.next;
        if self.members[group] >> receiver & 1 == 1 {
            self.logs[receiver][self.log_lengths[receiver]] = hop.message;
            self.log_lengths[receiver] += 1;
        }
        for child in units_of(self.children[receiver] & self.routes[group]) {
            self.make_hop(receiver, child, hop.group, hop.message);
        }
    }

    fn make_hop(&mut self, sender: usize, receiver: usize, group: u8, message: u8) {
        let number = self.hops.len() as u16;
        let pair = &mut self.pairs[sender][receiver];
        if pair.first == NONE {
            pair.first = number;
        } else {
            self.hops[pair.last as usize].next = number;
        }
        pair.last = number;
        self.hops.push(Hop {
            sender: sender as u8,
            receiver: receiver as u8,
            group,
            state: State::Out,
            message,
            next: NONE,
        });
    }

    /// The messages that a unit has logged; none for no unit.
    pub fn log(&self, unit: u16) -> &[u8] {
        let unit = unit as usize;
        match unit < self.units {
            true => &self.logs[unit][..self.log_lengths[unit]],
            false => &[],
        }
    }

    /// Whether every hop is taken.
    pub fn is_at_rest(&self) -> bool {
        self.hops_taken == self.hops.len()
    }

    /// The lines of logs, hops and rest.
    pub fn print(&self, out: &mut Vec<u8>) {
        for unit in 0..self.units as u16 {
            out.extend_from_slice(b"log=");
            decimal(out, unit);
            for &message in self.log(unit) {
                out.push(b',');
                decimal(out, message as u16);
            }
            out.push(b'\n');
        }
        out.extend_from_slice(b"hops=");
        decimal(out, self.hops.len() as u16);
        out.extend_from_slice(match self.is_at_rest() {
            true => b"\nrest=yes\n",
            false => b"\nrest=no\n",
        });
    }
}
