//! The bench file, read line by line.

use crate::{Event, Refusal, EVENTS, FILE, GROUPS, ROOT, UNITS};

/// What stands before the events.
pub struct Heading {
    pub units: usize,
    pub count: usize,
    pub groups: [u32; GROUPS],
    /// None for `build`.
    pub drawn: Option<[u8; UNITS]>,
}

pub struct Parser<'a> {
    rest: &'a [u8],
    line: u16,
}

impl<'a> Parser<'a> {
    pub fn new(file: &'a [u8]) -> Result<Parser<'a>, Refusal> {
        match file.len() > FILE {
            true => Err(Refusal { number: 2, value: 0 }),
            false => Ok(Parser { rest: file, line: 0 }),
        }
    }

    /// Reads the whole file; the events go to a list.
    pub fn read(mut self, events: &mut Vec<Event>) -> Result<Heading, Refusal> {
        let heading = self.heading();
        let all = heading.and_then(|heading| self.events(events).map(|()| heading));
        all.map_err(|number| Refusal { number, value: self.line })
    }

    fn heading(&mut self) -> Result<Heading, u16> {
        let units = number(self.value(b"units=")?).ok_or(4u16)? as usize;
        if units == 0 || units > UNITS {
            return Err(5);
        }
        let count = number(self.value(b"groups=")?).ok_or(4u16)? as usize;
        if count > GROUPS {
            return Err(5);
        }
        let mut groups = [0; GROUPS];
        for group in &mut groups[..count] {
            *group = members(self.value(b"group=")?, units)?;
        }
        let drawn = match self.value(b"parents=")? {
            b"build" => None,
            list => Some(parents(list, units)?),
        };
        Ok(Heading { units, count, groups, drawn })
    }

    fn events(&mut self, events: &mut Vec<Event>) -> Result<(), u16> {
        while !self.rest.is_empty() {
            let line = self.line()?;
            let event = if let Some(hop) = line.strip_prefix(b"arrive=") {
                let hop = number(hop).ok_or(4u16)?;
                Event::Arrive { hop }
            } else if let Some(list) = line.strip_prefix(b"send=") {
                send(list).ok_or(4u16)?
            } else {
                return Err(3);
            };
            if events.len() == EVENTS {
                return Err(9);
            }
            events.push(event);
        }
        Ok(())
    }

    /// The next line, without its LF.
    fn line(&mut self) -> Result<&'a [u8], u16> {
        self.line += 1;
        let end = self.rest.iter().position(|&byte| byte == b'\n').ok_or(3u16)?;
        let line = &self.rest[..end];
        self.rest = &self.rest[end + 1..];
        Ok(line)
    }

    fn value(&mut self, key: &[u8]) -> Result<&'a [u8], u16> {
        self.line()?.strip_prefix(key).ok_or(3)
    }
}

fn commas(list: &[u8]) -> impl Iterator<Item = &[u8]> {
    list.split(|&byte| byte == b',')
}

/// A decimal number of at most so many digits, without leading zeros.
fn decimal(text: &[u8], digits: usize) -> Option<u64> {
    if text.is_empty() || text.len() > digits || (text.len() > 1 && text[0] == b'0') {
        return None;
    }
    let mut number = 0;
    for &byte in text {
        if !byte.is_ascii_digit() {
            return None;
        }
        number = number * 10 + (byte - b'0') as u64;
    }
    Some(number)
}

/// A number up to 65,535.
fn number(text: &[u8]) -> Option<u16> {
    u16::try_from(decimal(text, 5)?).ok()
}

/// A word, up to 4,294,967,295.
fn word(text: &[u8]) -> Option<u32> {
    u32::try_from(decimal(text, 10)?).ok()
}

fn members(list: &[u8], units: usize) -> Result<u32, u16> {
    let (mut set, mut outside, mut falling) = (0u32, false, false);
    let mut last = None;
    for text in commas(list) {
        let member = number(text).ok_or(4u16)?;
        if member as usize >= units {
            outside = true;
            continue;
        }
        falling |= last >= Some(member);
        last = Some(member);
        set |= 1 << member;
    }
    match (outside, falling) {
        (true, _) => Err(6),
        (false, true) => Err(7),
        (false, false) => Ok(set),
    }
}

fn parents(list: &[u8], units: usize) -> Result<[u8; UNITS], u16> {
    let mut parents = [ROOT; UNITS];
    let (mut length, mut outside) = (0, false);
    for text in commas(list) {
        let parent = match text {
            b"-" => ROOT as u16,
            _ => {
                let parent = number(text).ok_or(4u16)?;
                outside |= parent as usize >= units;
                parent
            }
        };
        if length < UNITS {
            parents[length] = parent as u8;
        }
        length += 1;
    }
    match (outside, length == units) {
        (true, _) => Err(6),
        (false, false) => Err(8),
        (false, true) => Ok(parents),
    }
}

fn send(list: &[u8]) -> Option<Event> {
    let mut parts = commas(list);
    let source = number(parts.next()?)?;
    let group = number(parts.next()?)?;
    word(parts.next()?)?;
    match parts.next() {
        None if source < u16::MAX => Some(Event::Send { source, group }),
        _ => None,
    }
}
