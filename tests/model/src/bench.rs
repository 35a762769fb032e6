//! Document 01, "The bench, message by message".

use crate::forest::{Forest, Units};
use crate::{Refusal, BOOK, HOPS, MESSAGES, UNITS};

/// A hop record, five numbers in this order.
#[derive(Clone, Copy, Debug, Default, PartialEq, Eq)]
pub struct Hop {
    pub sender: u16,
    pub receiver: u16,
    pub sequence: u16,
    pub message: u16,
    pub state: u16,
}

/// The three states of a hop.
pub const OUT: u16 = 0;
pub const HELD: u16 = 1;
pub const TAKEN: u16 = 2;

#[derive(Clone, Copy, Debug, PartialEq, Eq)]
pub struct Message {
    pub source: u16,
    pub group: u16,
    pub word: u32,
}

#[derive(Clone, Copy, Debug, PartialEq, Eq)]
pub enum ArriveReply {
    Repeat,
    Held,
    /// How many copies were taken.
    Taken(u16),
}

/// What a bench keeps. Hops and log book are lent by the caller to each call.
#[derive(Clone, Debug)]
pub struct Bench {
    forest: Forest,
    primaries: Vec<usize>,
    routes: Vec<Units>,
    messages: Vec<Message>,
    hops_made: usize,
    /// hops made, by sender and receiver
    pair_counts: [[u16; UNITS]; UNITS],
    log_lengths: [usize; UNITS],
}

impl Bench {
    /// A fresh bench on a built or accepted forest; what is used of hops and book becomes zero.
    pub fn fresh(forest: Forest, hops: &mut [Hop], book: &mut [u16]) -> Result<Bench, Refusal> {
        lent_hops(hops)?;
        lent_book(book)?;
        hops[..HOPS].fill(Hop::default());
        book[..BOOK].fill(0);
        let groups = 0..forest.groups.len();
        let primary = |group| forest.primary(group).expect("an accepted forest");
        Ok(Bench {
            primaries: groups.clone().map(primary).collect(),
            routes: groups.map(|group| forest.route(group)).collect(),
            messages: Vec::new(),
            hops_made: 0,
            pair_counts: [[0; UNITS]; UNITS],
            log_lengths: [0; UNITS],
            forest,
        })
    }

    /// Send: the message is recorded, with a hop in state out to the primary of its group.
    pub fn send(&mut self, source: u16, group: u16, word: u32, hops: &mut [Hop]) -> Result<u16, Refusal> {
        lent_hops(hops)?;
        if source as usize >= self.forest.units() {
            return Err(Refusal::plain(12));
        }
        if group as usize >= self.forest.groups.len() {
            return Err(Refusal::plain(13));
        }
        if self.messages.len() >= MESSAGES {
            return Err(Refusal::plain(14));
        }
        if self.route_sizes() + self.routes[group as usize].len() > HOPS {
            return Err(Refusal::plain(15));
        }
        let message = Message { source, group, word };
        self.messages.push(message);
        let number = self.messages.len() as u16;
        let primary = self.primaries[group as usize];
        self.make_hop(source as usize, primary, number, hops);
        Ok(number)
    }

    /// Arrive: a cable brings a copy of the hop.
    pub fn arrive(&mut self, hop: u16, hops: &mut [Hop], book: &mut [u16]) -> Result<ArriveReply, Refusal> {
        lent_hops(hops)?;
        lent_book(book)?;
        let hop = hop as usize;
        if hop >= self.hops_made {
            return Err(Refusal::plain(16));
        }
        if hops[hop].state != OUT {
            return Ok(ArriveReply::Repeat);
        }
        hops[hop].state = HELD;
        let (sender, receiver) = (hops[hop].sender, hops[hop].receiver);
        let mut taken = 0;
        while let Some(next) = self.lowest_untaken(sender, receiver, hops) {
            if hops[next].state != HELD {
                break;
            }
            self.take(next, hops, book);
            taken += 1;
        }
        Ok(match taken {
            0 => ArriveReply::Held,
            _ => ArriveReply::Taken(taken),
        })
    }

    /// The pair's untaken hop of lowest sequence number.
    fn lowest_untaken(&self, sender: u16, receiver: u16, hops: &[Hop]) -> Option<usize> {
        (0..self.hops_made)
            .filter(|&at| hops[at].sender == sender && hops[at].receiver == receiver)
            .filter(|&at| hops[at].state != TAKEN)
            .min_by_key(|&at| hops[at].sequence)
    }

    /// Takes a copy: its receiver, if it is a member, logs the message behind those that its row has; then a hop goes to each of its
    /// children on the way, the lowest number first.
    fn take(&mut self, hop: usize, hops: &mut [Hop], book: &mut [u16]) {
        hops[hop].state = TAKEN;
        let message = hops[hop].message;
        let receiver = hops[hop].receiver as usize;
        let group = self.messages[message as usize - 1].group as usize;
        if self.forest.groups[group].contains(&receiver) {
            book[receiver * MESSAGES + self.log_lengths[receiver]] = message;
            self.log_lengths[receiver] += 1;
        }
        for child in self.forest.children(receiver) {
            if self.routes[group].contains(&child) {
                self.make_hop(receiver, child, message, hops);
            }
        }
    }

    /// The sequence number is the pair's count with this hop in it.
    fn make_hop(&mut self, sender: usize, receiver: usize, message: u16, hops: &mut [Hop]) {
        self.pair_counts[sender][receiver] += 1;
        hops[self.hops_made] = Hop {
            sender: sender as u16,
            receiver: receiver as u16,
            sequence: self.pair_counts[sender][receiver],
            message,
            state: OUT,
        };
        self.hops_made += 1;
    }

    /// Log: the unit's messages, as a part of the caller's book; empty where it is turned away.
    pub fn log<'a>(&self, unit: u16, book: &'a [u16]) -> &'a [u16] {
        match self.log_length(unit, book) {
            Err(_) => &[],
            Ok(length) => {
                let start = unit as usize * MESSAGES;
                &book[start..start + length as usize]
            }
        }
    }

    /// The second log call: the length of the log, or what `log` is refused for, 1 or 17.
    pub fn log_length(&self, unit: u16, book: &[u16]) -> Result<u16, Refusal> {
        lent_book(book)?;
        if unit as usize >= self.forest.units() {
            return Err(Refusal::plain(17));
        }
        Ok(self.log_lengths[unit as usize] as u16)
    }

    /// At rest: no hop is left to be taken.
    pub fn rest(&self, hops: &[Hop]) -> Result<bool, Refusal> {
        lent_hops(hops)?;
        Ok(hops[..self.hops_made].iter().all(|hop| hop.state == TAKEN))
    }

    pub fn forest(&self) -> &Forest {
        &self.forest
    }

    pub fn messages(&self) -> &[Message] {
        &self.messages
    }

    pub fn hops_made(&self) -> usize {
        self.hops_made
    }

    pub fn pair_count(&self, sender: usize, receiver: usize) -> u16 {
        self.pair_counts[sender][receiver]
    }

    /// The sum of the messages' way sizes.
    pub fn route_sizes(&self) -> usize {
        let size = |message: &Message| self.routes[message.group as usize].len();
        self.messages.iter().map(size).sum()
    }
}

/// 1, for the hops.
fn lent_hops(hops: &[Hop]) -> Result<(), Refusal> {
    match hops.len() < HOPS {
        true => Err(Refusal::plain(1)),
        false => Ok(()),
    }
}

/// 1, for the log book.
fn lent_book(book: &[u16]) -> Result<(), Refusal> {
    match book.len() < BOOK {
        true => Err(Refusal::plain(1)),
        false => Ok(()),
    }
}
