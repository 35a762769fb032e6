//! Damaged bench files: single bytes, whole lines, numbers at the limits; and files written line by line with a fault here and there.

use crate::random::Random;
use crate::table;
use model::FILE;

/// Numbers at the limits, and what is no number.
const NUMBERS: &[&str] = &[
    "0",
    "1",
    "2",
    "23",
    "24",
    "25",
    "31",
    "32",
    "33",
    "255",
    "256",
    "1999",
    "2000",
    "65534",
    "65535",
    "65536",
    "65537",
    "65546",
    "99999",
    "100000",
    "131072",
    "4294967295",
    "4294967296",
    "18446744073709551615",
    "18446744073709551616",
    "100000000000000000000000000000000000000001",
    "00",
    "01",
    "000",
    "065535",
    "00000000000000000000000000000000000000000000000001",
    "",
    "-",
    "--",
    "-1",
    "+1",
    " 1",
    "1 ",
    "1\r",
    "1\t",
    "1\0",
    "0x1",
    "1.",
    "1e1",
    "build",
    "builds",
    "Build",
    "buil",
    "a",
    "\u{b2}",
];

/// Bytes that matter to a reader of lines.
const BYTES: &[u8] = b"\n\n\r ,,=--0019:/abu\0\x7f\x80\xff\t+";

/// One to three damages.
pub fn damage(random: &mut Random, mut file: Vec<u8>) -> Vec<u8> {
    let times = random.pick(&[1, 1, 1, 2, 3]);
    for _ in 0..times {
        match random.below(3) {
            0 => damage_byte(random, &mut file),
            1 => damage_line(random, &mut file),
            _ => damage_number(random, &mut file),
        }
    }
    file
}

/// A place in the file, more often in its heading.
fn place(random: &mut Random, length: usize) -> usize {
    match random.percent(50) {
        true => random.below(length.min(60) + 1).min(length),
        false => random.below(length + 1),
    }
}

fn damage_byte(random: &mut Random, file: &mut Vec<u8>) {
    let at = place(random, file.len());
    let byte = match random.percent(70) {
        true => random.pick(BYTES),
        false => random.next() as u8,
    };
    match random.below(6) {
        0 => file.truncate(at),
        1 => file.insert(at, byte),
        2 if at < file.len() => drop(file.remove(at)),
        3 if at < file.len() => file[at] ^= 1 << random.below(8),
        4 => drop(file.pop()),
        _ if at < file.len() => file[at] = byte,
        _ => file.push(byte),
    }
}

fn damage_line(random: &mut Random, file: &mut Vec<u8>) {
    let mut lines: Vec<Vec<u8>> = file.split_inclusive(|&b| b == b'\n').map(Vec::from).collect();
    if lines.is_empty() {
        return;
    }
    let heading = lines.len().min(8);
    let at = match random.percent(60) {
        true => random.below(heading),
        false => random.below(lines.len()),
    };
    match random.below(8) {
        0 => lines.insert(at, lines[at].clone()),
        1 => drop(lines.remove(at)),
        2 => lines.swap(at, heading - 1),
        3 => lines.insert(at, b"\n".to_vec()),
        4 => lines.iter_mut().for_each(|line| {
            line.pop();
            line.extend(b"\r\n");
        }),
        5 => {
            lines[at].pop();
            lines[at].extend(b"\r\n");
        }
        6 => lines[at] = other_key(random, &lines[at]),
        _ => {
            let other = random.below(lines.len());
            lines.insert(at, lines[other].clone());
        }
    }
    *file = lines.concat();
}

/// The line with another key.
fn other_key(random: &mut Random, line: &[u8]) -> Vec<u8> {
    let value = line.iter().position(|&b| b == b'=').map_or(0, |at| at + 1);
    let keys: [&[u8]; 14] = [
        b"units=",
        b"groups=",
        b"group=",
        b"parents=",
        b"send=",
        b"arrive=",
        b"unit=",
        b"parent=",
        b"Group=",
        b" group=",
        b"group =",
        b"arrives=",
        b"group",
        b"=",
    ];
    [random.pick(&keys), &line[value..]].concat()
}

/// Another number in the place of one.
fn damage_number(random: &mut Random, file: &mut Vec<u8>) {
    let is_start = |at: usize| file[at - 1] == b'=' || file[at - 1] == b',';
    let starts: Vec<usize> = (1..file.len()).filter(|&at| is_start(at)).collect();
    if starts.is_empty() {
        return;
    }
    let from = match random.percent(60) {
        true => starts[random.below(starts.len().min(20))],
        false => random.pick(&starts),
    };
    let end = |&at: &usize| matches!(file.get(at), None | Some(b',' | b'\n'));
    let to = (from..=file.len()).find(end).unwrap_or(file.len());
    let number = random.pick(NUMBERS);
    file.splice(from..to, number.bytes());
}

/// A file written line by line: mostly right, with some entries taken from the odd numbers, repeated, or too many.
pub fn faulty(random: &mut Random) -> Vec<u8> {
    let odd = random.pick(&[1, 3, 10, 30]);
    let units = table::units(random);
    let groups = random.pick(&[0, 1, 2, 3, 3, 24]);
    let mut text = format!("units={}\n", number(random, odd, units, units));
    text += &format!("groups={}\n", number(random, odd, groups, groups));
    for _ in 0..groups {
        text += &format!("group={}\n", members(random, odd, units));
    }
    text += &format!("parents={}\n", parents(random, odd, units));
    for _ in 0..random.below(12) {
        text += &event(random, odd, units, groups);
    }
    if random.percent(odd) {
        text.pop();
    }
    text.truncate(2 * FILE);
    text.into_bytes()
}

/// A number from `least` to `most`, or an odd one.
fn number(random: &mut Random, odd: usize, least: usize, most: usize) -> String {
    match random.percent(odd) {
        true => random.pick(NUMBERS).to_string(),
        false => random.between(least, most).to_string(),
    }
}

fn members(random: &mut Random, odd: usize, units: usize) -> String {
    let mut members: Vec<usize> = (0..units).filter(|_| random.percent(40)).collect();
    if members.is_empty() {
        members.push(random.below(units));
    }
    if random.percent(odd) {
        random.shuffle(&mut members);
    }
    if random.percent(odd) {
        members.push(members[random.below(members.len())]);
    }
    if random.percent(odd) {
        let many = random.between(20, 120);
        members.extend((0..many).map(|at| at * units / many));
    }
    if random.percent(odd) {
        members.push(random.pick(&[units, units + 1, 32, 33, 64, 255, 256]));
    }
    join(random, odd, members.iter().map(usize::to_string).collect())
}

fn parents(random: &mut Random, odd: usize, units: usize) -> String {
    if random.percent(30) {
        return "build".to_string();
    }
    let mut length = units;
    if random.percent(odd) {
        length = random.pick(&[1, units - 1, units + 1, 31, 32, 33, 64, 300]).max(1);
    }
    let outside = random.percent(odd);
    let mut entries = Vec::new();
    for _ in 0..length {
        entries.push(match random.below(4) {
            0 if outside => random.pick(&[units, 32, 255, 256, 65_535]).to_string(),
            0 | 1 => "-".to_string(),
            _ => random.below(units).to_string(),
        });
    }
    join(random, odd, entries)
}

/// Entries with commas, and perhaps an odd one among them.
fn join(random: &mut Random, odd: usize, mut entries: Vec<String>) -> String {
    if random.percent(odd) {
        let at = random.below(entries.len());
        entries[at] = random.pick(NUMBERS).to_string();
    }
    entries.join(",")
}

fn event(random: &mut Random, odd: usize, units: usize, groups: usize) -> String {
    if random.percent(50) {
        return format!("arrive={}\n", number(random, odd, 0, 6));
    }
    let mut numbers =
        vec![number(random, odd, 0, units), number(random, odd, 0, groups), number(random, odd, 0, 4_294_967_295)];
    if random.percent(odd) {
        numbers.push("0".to_string());
    }
    if random.percent(odd) {
        numbers.truncate(random.between(1, 2));
    }
    format!("send={}\n", numbers.join(","))
}
