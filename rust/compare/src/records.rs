//! Logs for the cases: streams of words as records, with midnights strewn in;
//! then, for many of them, damage to a record or to a byte.

use crate::random::Random;
use crate::words;

pub const WORD: u8 = 1;
pub const MIDNIGHT: u8 = 2;

struct Record {
    kind: u8,
    number: u32,
}

/// A log of any kind, as its bytes.
pub fn any(random: &mut Random) -> Vec<u8> {
    if random.once_in(32) {
        return noise(random);
    }
    let mut records = good(random);
    if random.once_in(3) {
        damage(random, &mut records);
    }
    let mut bytes: Vec<u8> = records
        .iter()
        .flat_map(|r| record(r.kind, r.number))
        .collect();
    match random.below(8) {
        0 => bytes.truncate(place_in(random, &bytes)),
        1 => damage_byte(random, &mut bytes),
        _ => {}
    }
    bytes
}

/// A record's bytes: its kind, then its number, low byte first.
pub fn record(kind: u8, number: u32) -> [u8; 5] {
    let [a, b, c, d] = number.to_le_bytes();
    [kind, a, b, c, d]
}

/// A stream of words, of which some may be refused, with midnights between them.
fn good(random: &mut Random) -> Vec<Record> {
    let words = words::any(random);
    let first = first_day(random);
    // Anywhere, or among the first words, so that the last day is a long one.
    let end = if random.once_in(8) {
        words.len() / 8
    } else {
        words.len()
    };
    let mut places: Vec<usize> = (0..midnights(random))
        .map(|_| place_in(random, &words[..end]))
        .collect();
    places.sort_unstable();
    let mut records = Vec::new();
    let mut days = 0;
    for place in 0..=words.len() {
        while places.get(days) == Some(&place) {
            // Over the top of the numbers the days begin at 0 again, which is
            // refused.
            let number = first.wrapping_add(days as u32);
            let kind = MIDNIGHT;
            records.push(Record { kind, number });
            days += 1;
        }
        let kind = WORD;
        let word = words.get(place).copied();
        records.extend(word.map(|number| Record { kind, number }));
    }
    records
}

/// How many midnights come: few, a month's or a year's, and around the limit.
fn midnights(random: &mut Random) -> u32 {
    match random.below(16) {
        0 => 0,
        1 => random.one_of(&[28, 31, 366]),
        2 => random.one_of(&[399, 400, 401, 402]),
        _ => random.between(1, 8),
    }
}

fn first_day(random: &mut Random) -> u32 {
    match random.below(8) {
        0 => 0,
        1 => u32::MAX - random.below(4),
        2 => u32::MAX - random.below(402),
        3 => random.word(),
        // The carry of adding 1 goes through a byte or more.
        4 => random.one_of(&[250, 65_530, 16_777_210]),
        _ => random.below(40_000),
    }
}

/// A place from the list's begin to its end.
fn place_in<T>(random: &mut Random, list: &[T]) -> usize {
    random.between(0, list.len() as u32) as usize
}

/// One change to a record that no station would make.
fn damage(random: &mut Random, records: &mut Vec<Record>) {
    let midnights: Vec<usize> = (0..records.len())
        .filter(|place| records[*place].kind == MIDNIGHT)
        .collect();
    if midnights.is_empty() {
        let kind = some_kind(random);
        let number = random.word();
        return records.push(Record { kind, number });
    }
    let place = random.one_of(&midnights);
    let number = records[place].number;
    match random.below(8) {
        0 => records[place].number = number.wrapping_add(1),
        1 => records[place].number = number.wrapping_sub(1),
        2 => records[place].number ^= random.bit(),
        3 => records[place].kind = WORD,
        4 => {
            records.remove(place);
        }
        5 => records.swap(place, midnights[0]),
        6 => {
            let kind = MIDNIGHT;
            records.insert(place, Record { kind, number });
        }
        _ => {
            let other = random.below(records.len() as u32) as usize;
            records[other].kind = some_kind(random);
        }
    }
}

/// A kind byte, mostly one that is refused.
fn some_kind(random: &mut Random) -> u8 {
    match random.below(4) {
        0 => random.one_of(&[0, 3, 0x11, 0x81, 0x82, 255]),
        1 => random.one_of(&[WORD, MIDNIGHT]),
        _ => random.below(256) as u8,
    }
}

/// One byte changed, lost or too many. With the last two, all records behind it
/// are out of step.
fn damage_byte(random: &mut Random, bytes: &mut Vec<u8>) {
    if bytes.is_empty() {
        return bytes.push(some_kind(random));
    }
    let place = random.below(bytes.len() as u32) as usize;
    match random.below(3) {
        0 => bytes[place] ^= 1 << random.below(8),
        1 => {
            bytes.remove(place);
        }
        _ => bytes.insert(place, random.below(256) as u8),
    }
}

/// Bytes without a plan; where they are tame, many that could be kinds.
fn noise(random: &mut Random) -> Vec<u8> {
    let count = random.below(64);
    let tame = random.coin();
    let byte = |random: &mut Random| match random.below(4) {
        0 if tame => 0,
        1 | 2 if tame => random.one_of(&[WORD, MIDNIGHT]),
        _ => random.below(256) as u8,
    };
    (0..count).map(|_| byte(random)).collect()
}
