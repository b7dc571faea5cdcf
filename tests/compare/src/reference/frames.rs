//! Frames: reading one into a record, and writing a record.

use super::values::{self, Meaning, Value};
use super::Refusal;
use std::collections::BTreeMap;

/// A frame's record: its code, the other numbers and the values' places (start, length), by key.
#[derive(Default)]
pub struct Record {
    pub code: u64,
    pub numbers: BTreeMap<u8, u64>,
    pub places: BTreeMap<u8, (u64, u64)>,
}

/// What a known key holds.
#[derive(Clone, Copy, PartialEq)]
pub enum Holds {
    /// An unsigned number up to this one.
    UpTo(u64),
    Array,
    String,
    Anything,
}

/// The greatest size of header and body together.
pub const MOST_SIZE: usize = 60_000;

const CODE: u8 = 0x00;
const WORD: u64 = 4_294_967_295;

/// The known header keys besides the code.
pub const HEADER: [(u8, Holds); 2] = [(0x01, Holds::UpTo(u64::MAX)), (0x05, Holds::UpTo(u64::MAX))];

/// The known body keys.
pub const BODY: [(u8, Holds); 14] = [
    (0x10, Holds::UpTo(WORD)),
    (0x11, Holds::UpTo(WORD)),
    (0x12, Holds::UpTo(WORD)),
    (0x13, Holds::UpTo(WORD)),
    (0x14, Holds::UpTo(WORD)),
    (0x15, Holds::UpTo(1)),
    (0x20, Holds::Array),
    (0x21, Holds::Array),
    (0x22, Holds::String),
    (0x23, Holds::String),
    (0x27, Holds::String),
    (0x28, Holds::Array),
    (0x30, Holds::Anything),
    (0x31, Holds::String),
];

/// The body keys that a code requires, 0x11, 0x13 and 0x14 nowhere among them; none for an unknown code.
pub fn required(code: u64) -> Option<&'static [u8]> {
    Some(match code {
        0x01 => &[0x10, 0x12, 0x20],
        0x02 | 0x03 => &[0x10, 0x21],
        0x04 => &[0x10, 0x20, 0x21],
        0x05 => &[0x10, 0x20],
        0x06 | 0x0a => &[0x22, 0x21],
        0x07 => &[0x23, 0x21],
        0x08 => &[0x27, 0x21],
        0x09 => &[0x10, 0x21, 0x28],
        0x40 | 0x00 => &[],
        0x8000..=0x8fff => &[0x31],
        _ => return None,
    })
}

fn suits(value: &Value, holds: Holds) -> bool {
    match holds {
        Holds::UpTo(most) => value.unsigned().is_some_and(|n| n <= most),
        Holds::Array => value.array().is_some(),
        Holds::String => value.string().is_some(),
        Holds::Anything => true,
    }
}

/// The first frame's record and length, or the refusal; only 4 has a place.
pub fn read(lent: &[u8]) -> Result<(Record, usize), Refusal> {
    let (size, start) = size(lent)?;
    let frame = lent.get(..start + size).ok_or(1u32)?;
    let (header, body) = halves(frame, start)?;
    let header = entries(&header).ok_or(6u32)?;
    let body = match &body {
        Some(body) => entries(body).ok_or(6u32)?,
        None => Vec::new(),
    };
    let (header, body) = (once(header).ok_or(7u32)?, once(body).ok_or(7u32)?);
    let code = header.get(&CODE).and_then(|value| value.unsigned()).ok_or(8u32)?;
    let required = required(code).ok_or(8u32)?;
    let wrong = |map: &BTreeMap<u8, &Value>, known: &[(u8, Holds)]| {
        known.iter().any(|(key, holds)| map.get(key).is_some_and(|value| !suits(value, *holds)))
    };
    if wrong(&header, &HEADER) || wrong(&body, &BODY) {
        return Err(9.into());
    }
    if required.iter().any(|key| !body.contains_key(key)) {
        return Err(10.into());
    }
    let mut record = Record { code, ..Record::default() };
    record.keep(&header, &HEADER, lent);
    record.keep(&body, &BODY, lent);
    Ok((record, start + size))
}

/// The size and where the contents start: 2 on the first byte, 1 for an unfinished number, 3.
fn size(lent: &[u8]) -> Result<(usize, usize), u32> {
    let width = match lent.first() {
        None => return Err(1),
        Some(0x00..=0x7f) => 1,
        Some(first @ 0xcc..=0xcf) => 1 + (1 << (first - 0xcc)),
        Some(_) => return Err(2),
    };
    let number = values::whole(lent.get(..width).ok_or(1u32)?, 0).and_then(|value| value.unsigned());
    match number.expect("an unsigned form with all its bytes") {
        0 => Err(3),
        size if size > MOST_SIZE as u64 => Err(3),
        size => Ok((size as usize, width)),
    }
}

/// Header and body, if there is one, of a frame whose contents start there: 4, then 5.
fn halves(frame: &[u8], start: usize) -> Result<(Value<'_>, Option<Value<'_>>), Refusal> {
    // A place counts from the frame's first byte.
    let broken = |from: usize, place: usize| Refusal { place: Some(from + place), ..4.into() };
    let header = values::read(&frame[start..], 16).map_err(|place| broken(start, place))?;
    let after = start + header.bytes.len();
    if after == frame.len() {
        return Ok((header, None));
    }
    let body = values::read(&frame[after..], 16).map_err(|place| broken(after, place))?;
    if after + body.bytes.len() < frame.len() {
        return Err(5.into());
    }
    Ok((header, Some(body)))
}

/// A map's entries; none where it is no map or a key is not an unsigned number 0 to 127.
fn entries<'a, 'b>(value: &'b Value<'a>) -> Option<Vec<(u8, &'b Value<'a>)>> {
    let Meaning::Map(entries) = &value.meaning else { return None };
    entries.iter().map(|(key, held)| Some((key.unsigned().filter(|key| *key <= 127)? as u8, held))).collect()
}

/// The entries as a map; none where a key stands twice.
fn once<'a, 'b>(entries: Vec<(u8, &'b Value<'a>)>) -> Option<BTreeMap<u8, &'b Value<'a>>> {
    let count = entries.len();
    let map: BTreeMap<_, _> = entries.into_iter().collect();
    (map.len() == count).then_some(map)
}

impl Record {
    fn keep(&mut self, map: &BTreeMap<u8, &Value>, known: &[(u8, Holds)], lent: &[u8]) {
        for (key, holds) in known {
            match (map.get(key), holds) {
                (None, _) => {}
                (Some(value), Holds::UpTo(_)) => {
                    self.numbers.insert(*key, value.unsigned().expect("its type was checked"));
                }
                (Some(value), _) => {
                    let start = Value::start_of(value.bytes, lent) as u64;
                    self.places.insert(*key, (start, value.bytes.len() as u64));
                }
            }
        }
    }

    fn has(&self, key: &u8) -> bool {
        self.numbers.contains_key(key) || self.places.contains_key(key)
    }
}

/// The frame's bytes, or the refusal's number: 8, 4, 9, 10, 3. The buffer, and so 18, is the caller's.
pub fn write(record: &Record, bytes: &[u8]) -> Result<Vec<u8>, u32> {
    let required = required(record.code).ok_or(8u32)?;
    let mut held = BTreeMap::new();
    for (key, (start, length)) in &record.places {
        held.insert(*key, placed(bytes, *start, *length).and_then(|view| values::whole(view, 15)).ok_or(4u32)?);
    }
    for (key, holds) in HEADER.iter().chain(&BODY) {
        let number_suits = |n: &u64| matches!(holds, Holds::UpTo(most) if n <= most);
        if !record.numbers.get(key).is_none_or(number_suits) || !held.get(key).is_none_or(|value| suits(value, *holds)) {
            return Err(9);
        }
    }
    if !required.iter().all(|key| record.has(key)) {
        return Err(10);
    }
    let header = map(&[(CODE, values::integer(record.code.into()))], &HEADER, record, &held);
    let contents = [header, map(&[], &BODY, record, &held)].concat();
    if contents.len() > MOST_SIZE {
        return Err(3);
    }
    Ok([values::tagged(0xce, contents.len() as i128, 4), contents].concat())
}

fn placed(bytes: &[u8], start: u64, length: u64) -> Option<&[u8]> {
    bytes.get(usize::try_from(start).ok()?..)?.get(..usize::try_from(length).ok()?)
}

/// A map of the first entries and the known present keys, rising.
fn map(first: &[(u8, Vec<u8>)], known: &[(u8, Holds)], record: &Record, held: &BTreeMap<u8, Value>) -> Vec<u8> {
    let mut entries = first.to_vec();
    for (key, _) in known {
        let number = record.numbers.get(key).map(|n| values::integer((*n).into()));
        entries.extend(number.or(held.get(key).map(|value| value.bytes.to_vec())).map(|bytes| (*key, bytes)));
    }
    let mut bytes = vec![0x80 + entries.len() as u8]; // at most 14 known keys
    for (key, value) in entries {
        bytes.push(key);
        bytes.extend(value);
    }
    bytes
}
