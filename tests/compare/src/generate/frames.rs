//! Frames and records of frames.

use super::{about, values};
use crate::calls::{numbers, places, Calls, Reference};
use crate::cases::{Case, MOST_ROOM};
use crate::random::Random;
use crate::reference::frames::{read, required, Holds, BODY, HEADER, MOST_SIZE};
use laksubinat::raw;

const CODES: [u64; 12] = [0, 1, 2, 3, 4, 5, 6, 7, 8, 9, 10, 0x40];
const NEAR_CODES: [u64; 12] =
    [0x0b, 0x0c, 0x3f, 0x41, 0x42, 0x7fff, 0x8000, 0x8fff, 0x9000, 0x1_0001, 0x1_0000_0001, u64::MAX];

fn code(r: &mut Random) -> u64 {
    match r.below(8) {
        0 => *r.pick(&NEAR_CODES),
        1 => 0x8000 + r.below(0x1000) as u64,
        _ => *r.pick(&CODES),
    }
}

/// Whether a frame of this code has the key: as often as not index, offset and iterator of a select, update or delete, nearly
/// always a required one, else seldom.
fn wanted(r: &mut Random, code: u64, key: u8) -> bool {
    match (code, key) {
        (0x01 | 0x04 | 0x05, 0x11 | 0x13 | 0x14) => r.one_in(2),
        _ if required(code).is_some_and(|keys| keys.contains(&key)) => !r.one_in(60),
        _ => r.one_in(8),
    }
}

/// A number around the greatest that a key may hold, or 0, as an absent one counts.
fn near(r: &mut Random, most: u64) -> u64 {
    match r.below(12) {
        0 => most,
        1 => most.saturating_add(1),
        2 => values::number(r) as u64,
        3 => 0,
        _ => r.word() & most & 0xffff,
    }
}

/// A value that a known key may hold, now and then a wrong one.
fn held(r: &mut Random, holds: Holds) -> Vec<u8> {
    if r.one_in(60) {
        return values::value(r, 3, 10);
    }
    match holds {
        Holds::UpTo(most) => {
            let n = near(r, most);
            values::nearly_unsigned(r, n)
        }
        Holds::Array => {
            let items: Vec<_> = (0..r.below(4)).map(|_| values::value(r, 3, 20)).collect();
            values::array(r, &items)
        }
        Holds::String => {
            let length = r.below(40);
            let content = r.bytes(length);
            values::string(r, &content)
        }
        Holds::Anything => values::value(r, 6, 60),
    }
}

type Entries = Vec<(Vec<u8>, Vec<u8>)>;

fn header(r: &mut Random, code: u64) -> Entries {
    let mut entries = vec![(values::unsigned(r, 0), values::nearly_unsigned(r, code))];
    if r.one_in(40) {
        entries[0].1 = values::value(r, 1, 4);
    }
    for (key, holds) in HEADER {
        if r.one_in(2) {
            entries.push((values::nearly_unsigned(r, key.into()), held(r, holds)));
        }
    }
    entries
}

fn body(r: &mut Random, code: u64) -> Entries {
    let mut entries = Vec::new();
    for (key, holds) in BODY {
        if wanted(r, code, key) {
            entries.push((values::nearly_unsigned(r, key.into()), held(r, holds)));
        }
    }
    entries
}

/// Unknown keys, few or many, keys past 127, keys that are no numbers, keys that stand twice, entries in another order.
fn unsettle(r: &mut Random, entries: &mut Entries) {
    if r.one_in(3) {
        r.shuffle(entries);
    }
    for _ in 0..if r.one_in(4) { r.within(1..=3) } else { 0 } {
        let key = r.below(128) as u64;
        entries.push((values::unsigned(r, key), values::value(r, 3, 8)));
    }
    if r.one_in(30) {
        let key = *r.pick(&[127, 127, 128, 0x110, 0x1_0000_0000, 0x1_0000_0010]);
        entries.push((values::unsigned(r, key), vec![0xc0]));
    }
    if r.one_in(60) {
        let first = r.within(0x2a..=0x80) as u64;
        entries.extend((first..0x80).map(|key| (values::unsigned(r, key), vec![0xc0])));
    }
    if r.one_in(60) {
        let key = if r.one_in(2) { values::integer(r, 5) } else { values::value(r, 2, 4) };
        entries.push((key, vec![0xc0]));
    }
    if r.one_in(30) && !entries.is_empty() {
        let key = entries[r.below(entries.len())].0[..].last().copied().unwrap_or(0);
        entries.push((values::unsigned(r, key.into()), vec![0xc0]));
    }
    if r.one_in(30) {
        let depth = r.within(13..=17);
        entries.push((values::unsigned(r, 0x7e), values::nested(r, depth)));
    }
}

fn map(r: &mut Random, entries: &Entries) -> Vec<u8> {
    let mut bytes = values::map_header(r, entries.len());
    for (key, value) in entries {
        bytes.extend(key);
        bytes.extend(value);
    }
    bytes
}

/// Header and body; now and then no body, something else in its place, or bytes after it.
fn contents(r: &mut Random) -> Vec<u8> {
    let code = code(r);
    let mut header = header(r, code);
    let mut body = body(r, code);
    if r.one_in(30) {
        header.remove(0);
    }
    unsettle(r, &mut header);
    unsettle(r, &mut body);
    if r.one_in(60) {
        let size = about(r, MOST_SIZE);
        let rest = map(r, &header).len() + map(r, &body).len();
        body.push((vec![0x7d], values::sized(r, size.saturating_sub(rest + 1))));
    }
    let mut bytes = if r.one_in(60) { values::value(r, 2, 6) } else { map(r, &header) };
    match r.below(40) {
        0..=2 => {}
        3 => bytes.extend(values::value(r, 2, 6)),
        4 => bytes.extend([map(r, &body), values::scalar(r, 3)].concat()),
        _ => bytes.extend(map(r, &body)),
    }
    bytes
}

/// Frames that a server and its client exchanged.
const RECORDED: [&[u8]; 2] =
    [include_bytes!("../../../model/data/requests.bin"), include_bytes!("../../../model/data/responses.bin")];

/// One of the recorded frames, and those after it.
fn recorded(r: &mut Random) -> Vec<u8> {
    let mut bytes = *r.pick(&RECORDED);
    for _ in 0..r.below(30) {
        match read(bytes) {
            Ok((_, length)) if length < bytes.len() => bytes = &bytes[length..],
            _ => break,
        }
    }
    bytes.to_vec()
}

/// Bytes for reading a frame: the size mostly right, bytes after the frame, cuts and damage.
pub fn lent(r: &mut Random) -> Vec<u8> {
    match r.below(24) {
        0 | 1 => return sizes(r),
        2 => {
            let mut bytes = recorded(r);
            super::damage(r, &mut bytes);
            return bytes;
        }
        _ => {}
    }
    let contents = contents(r);
    let size = match r.below(30) {
        0 => values::number(r) as u64,
        1 => (contents.len() + r.within(1..=3)) as u64,
        2 => contents.len().saturating_sub(r.within(1..=3)) as u64,
        _ => contents.len() as u64,
    };
    let mut bytes = [values::unsigned(r, size), contents].concat();
    if r.one_in(5) {
        super::damage(r, &mut bytes);
    }
    if r.one_in(3) {
        let length = r.below(20);
        bytes.extend(r.bytes(length));
    }
    bytes
}

/// Size numbers at their borders in every form, whole or cut, with few bytes after them.
fn sizes(r: &mut Random) -> Vec<u8> {
    let size = *r.pick(&[0, 1, 2, 127, 128, 255, 59_999, 60_000, 60_001, 65_536, 1 << 32, u64::MAX]);
    let mut bytes = if r.one_in(6) { values::value(r, 1, 6) } else { values::unsigned(r, size) };
    if r.one_in(3) {
        bytes.truncate(r.below(bytes.len() + 1));
    }
    let length = if r.one_in(10) { 60_001 } else { r.below(4) };
    bytes.extend(r.bytes(length));
    bytes
}

/// A record, the bytes that its places refer to, and a room that is still to be chosen.
pub fn record(r: &mut Random) -> Case {
    let code = code(r);
    let mut frame = raw::Frame { code, ..raw::Frame::default() };
    let mut bytes = values::value(r, 2, 6);
    for (key, number) in numbers(&mut frame) {
        let Some((_, Holds::UpTo(most))) = HEADER.iter().chain(&BODY).find(|known| known.0 == key) else { continue };
        *number = raw::Number { present: wanted(r, code, key), value: near(r, *most) };
    }
    let mut last = raw::Place::default();
    for (key, place) in places(&mut frame) {
        let Some((_, holds)) = BODY.iter().find(|known| known.0 == key) else { continue };
        let present = wanted(r, code, key);
        let value = if present { held_by_writer(r, *holds) } else { vec![] };
        *place = raw::Place { present, start: bytes.len() as u64, length: value.len() as u64 };
        bytes.extend(value);
        match r.below(40) {
            0 => displace(r, place),
            1 => *place = raw::Place { present, ..last },
            _ => last = *place,
        }
    }
    if r.one_in(20) {
        fill(r, &mut frame, &mut bytes);
    }
    if r.one_in(20) {
        super::damage(r, &mut bytes);
    }
    Case::Write { frame, bytes, room: 0 }
}

/// Makes the data so long that the frame's size is about the greatest.
fn fill(r: &mut Random, frame: &mut raw::Frame, bytes: &mut Vec<u8>) {
    let start = bytes.len() as u64;
    bytes.push(0xc0);
    frame.data = raw::Place { present: true, start, length: 1 };
    let answer = Reference.frame_write(*frame, bytes, &mut [0; MOST_ROOM]);
    if answer.number == 0 {
        bytes.pop();
        let others = answer.length as usize - 5 - 1;
        let size = about(r, MOST_SIZE) - others;
        bytes.extend(values::sized(r, size));
        frame.data.length = bytes.len() as u64 - start;
    }
}

/// What a place holds: as in a frame that is read, or at the border of depth.
fn held_by_writer(r: &mut Random, holds: Holds) -> Vec<u8> {
    if r.one_in(50) {
        let depth = r.within(13..=17);
        return values::nested(r, depth);
    }
    held(r, holds)
}

fn displace(r: &mut Random, place: &mut raw::Place) {
    let far = [u64::MAX, u64::MAX - 1, 1 << 63, 1 << 32, 70_000];
    match r.below(6) {
        0 => place.start = *r.pick(&far),
        1 => place.length = *r.pick(&far),
        2 => place.length = u64::MAX - place.start + r.below(3) as u64 % (place.start + 1),
        3 => place.start = place.start.saturating_sub(1),
        4 => place.length += 1,
        _ => place.length = place.length.saturating_sub(1),
    }
}
