//! Document 01, "The bench file", and document 02, #101: reading and writing. A file is refused for its first bad line, and there for the
//! lowest number.

use crate::{Refusal, EVENTS, EVENT_NUMBERS, FILE, GROUPS, ROOT, UNITS};
use std::str::FromStr;

/// What a file says beside its events. Places of groups that do not count are 0; parents are 255 for roots, past the units, and where the
/// file says `build`.
#[derive(Clone, Debug, PartialEq, Eq)]
pub struct Content {
    pub units: usize,
    pub groups: [u32; GROUPS],
    pub count: usize,
    pub build: bool,
    pub parents: [u8; UNITS],
    pub events: usize,
}

impl Content {
    /// The line of `parents=`.
    pub fn parents_line(&self) -> u16 {
        3 + self.count as u16
    }
}

#[derive(Clone, Copy, Debug, PartialEq, Eq)]
pub enum Event {
    Send { source: u16, group: u16, word: u32 },
    Arrive { hop: u16 },
}

impl Event {
    /// Its three numbers in the list: of a send source+1, group and word; of an arrival 0, hop and 0.
    pub fn numbers(self) -> [u32; 3] {
        match self {
            Event::Send { source, group, word } => [u32::from(source) + 1, group.into(), word],
            Event::Arrive { hop } => [0, hop.into(), 0],
        }
    }
}

/// Reads a file into a content and a lent event list. Refusals 1 to 9; a refused file leaves the list as it was.
pub fn read(file: &[u8], list: &mut [u32]) -> Result<Content, Refusal> {
    if list.len() < EVENT_NUMBERS {
        return Err(Refusal::plain(1));
    }
    let (content, events) = read_lines(file)?;
    for (numbers, event) in list.chunks_mut(3).zip(events) {
        numbers.copy_from_slice(&event.numbers());
    }
    Ok(content)
}

/// What a file says, its lines read by their places. Refusals 2 to 9.
pub fn read_lines(file: &[u8]) -> Result<(Content, Vec<Event>), Refusal> {
    if file.len() > FILE {
        return Err(Refusal::plain(2));
    }
    let mut lines = Lines::new(file);
    let units = lines.read(units_line)?;
    let count = lines.read(groups_line)?;
    let mut groups = [0; GROUPS];
    for group in groups.iter_mut().take(count) {
        *group = lines.read(|line| group_line(line, units))?;
    }
    let drawn = lines.read(|line| parents_line(line, units))?;
    let mut events = Vec::new();
    while !lines.at_end() {
        events.push(lines.read(|line| event_line(line, events.len()))?);
    }
    let content = Content {
        units,
        groups,
        count,
        build: drawn.is_none(),
        parents: drawn.unwrap_or([ROOT; UNITS]),
        events: events.len(),
    };
    Ok((content, events))
}

/// The lines of a file, one after the other. Lines count from 1.
struct Lines<'a> {
    rest: &'a [u8],
    number: u16,
}

impl<'a> Lines<'a> {
    fn new(file: &'a [u8]) -> Lines<'a> {
        Lines { rest: file, number: 0 }
    }

    fn at_end(&self) -> bool {
        self.rest.is_empty()
    }

    /// The next line, by the rule of its place. A line that is missing or lacks its LF is 3.
    fn read<T>(&mut self, rule: impl Fn(&[u8]) -> Result<T, u16>) -> Result<T, Refusal> {
        self.number += 1;
        let value = self.number;
        let refuse = |number| Refusal { number, value };
        let Some(end) = self.rest.iter().position(|&byte| byte == b'\n') else {
            return Err(refuse(3));
        };
        let line = &self.rest[..end];
        self.rest = &self.rest[end + 1..];
        rule(line).map_err(refuse)
    }
}

/// `units=`: 3, 4, 5.
fn units_line(line: &[u8]) -> Result<usize, u16> {
    let value = after_key(line, b"units=").ok_or(3u16)?;
    let units = decimal::<u16>(value).ok_or(4u16)? as usize;
    match units == 0 || units > UNITS {
        true => Err(5),
        false => Ok(units),
    }
}

/// `groups=`: 3, 4, 5.
fn groups_line(line: &[u8]) -> Result<usize, u16> {
    let value = after_key(line, b"groups=").ok_or(3u16)?;
    let groups = decimal::<u16>(value).ok_or(4u16)? as usize;
    match groups > GROUPS {
        true => Err(5),
        false => Ok(groups),
    }
}

/// `group=`, its members in rising order: 3, 4, 6, 7.
fn group_line(line: &[u8], units: usize) -> Result<u32, u16> {
    let value = after_key(line, b"group=").ok_or(3u16)?;
    let members = entries(value, decimal::<u16>).ok_or(4u16)?;
    if members.iter().any(|&member| member as usize >= units) {
        return Err(6);
    }
    if members.windows(2).any(|pair| pair[0] >= pair[1]) {
        return Err(7);
    }
    Ok(members.iter().map(|&member| 1 << member).sum())
}

/// `parents=`: `build`, or an entry for each unit, where `-` is a root's. 3, 4, 6, 8. None for `build`.
fn parents_line(line: &[u8], units: usize) -> Result<Option<[u8; UNITS]>, u16> {
    let value = after_key(line, b"parents=").ok_or(3u16)?;
    if value == b"build" {
        return Ok(None);
    }
    let entry = |text: &[u8]| match text {
        b"-" => Some(None),
        number => decimal::<u16>(number).map(Some),
    };
    let drawn = entries(value, entry).ok_or(4u16)?;
    if drawn.iter().flatten().any(|&parent| parent as usize >= units) {
        return Err(6);
    }
    if drawn.len() != units {
        return Err(8);
    }
    let mut parents = [ROOT; UNITS];
    for (unit, parent) in drawn.iter().enumerate() {
        parents[unit] = parent.map_or(ROOT, |parent| parent as u8);
    }
    Ok(Some(parents))
}

/// A line `send=` or `arrive=`, after so many events: 3, 4, 9.
fn event_line(line: &[u8], events_before: usize) -> Result<Event, u16> {
    let event = match (after_key(line, b"send="), after_key(line, b"arrive=")) {
        (Some(value), _) => send_event(value).ok_or(4u16)?,
        (_, Some(value)) => Event::Arrive { hop: decimal(value).ok_or(4u16)? },
        _ => return Err(3),
    };
    match events_before >= EVENTS {
        true => Err(9),
        false => Ok(event),
    }
}

/// Three numbers, the last of up to 32 bits. A source of 65,535 is badly written.
fn send_event(value: &[u8]) -> Option<Event> {
    let texts: Vec<&[u8]> = value.split(|&byte| byte == b',').collect();
    let [source, group, word] = texts[..] else {
        return None;
    };
    let (source, group, word) = (decimal(source)?, decimal(group)?, decimal(word)?);
    (source < 65_535).then_some(Event::Send { source, group, word })
}

/// The bytes after a key.
fn after_key<'a>(line: &'a [u8], key: &[u8]) -> Option<&'a [u8]> {
    line.strip_prefix(key)
}

/// The entries of a list with commas between; none where some entry is badly written.
fn entries<T>(value: &[u8], entry: impl Fn(&[u8]) -> Option<T>) -> Option<Vec<T>> {
    value.split(|&byte| byte == b',').map(entry).collect()
}

/// A decimal number without leading zeros, up to the largest of its type: 65,535, or of a word 4,294,967,295.
fn decimal<T: FromStr>(text: &[u8]) -> Option<T> {
    if text.is_empty() || !text.iter().all(u8::is_ascii_digit) {
        return None;
    }
    if text.len() > 1 && text[0] == b'0' {
        return None;
    }
    std::str::from_utf8(text).ok()?.parse().ok()
}

/// The writer puts the lines of a content first in the list of bytes, and answers their length. Refusal 1.
pub fn write(content: &Content, list: &[u32], out: &mut [u8]) -> Result<usize, Refusal> {
    if list.len() < EVENT_NUMBERS || out.len() < FILE {
        return Err(Refusal::plain(1));
    }
    let text = lines_of(content, list);
    out[..text.len()].copy_from_slice(text.as_bytes());
    Ok(text.len())
}

/// The lines of a content and its events.
pub fn lines_of(content: &Content, list: &[u32]) -> String {
    let mut text = format!("units={}\ngroups={}\n", content.units, content.count);
    for group in &content.groups[..content.count] {
        let members = (0..UNITS).filter(|unit| group >> unit & 1 == 1);
        let members: Vec<String> = members.map(|unit| unit.to_string()).collect();
        text += &format!("group={}\n", members.join(","));
    }
    let entry = |&parent: &u8| match parent {
        ROOT => "-".to_string(),
        number => number.to_string(),
    };
    let drawn: Vec<String> = content.parents[..content.units].iter().map(entry).collect();
    match content.build {
        true => text += "parents=build\n",
        false => text += &format!("parents={}\n", drawn.join(",")),
    }
    for event in list[..3 * content.events].chunks(3) {
        match event[0] {
            0 => text += &format!("arrive={}\n", event[1]),
            source => text += &format!("send={},{},{}\n", source - 1, event[1], event[2]),
        }
    }
    text
}
