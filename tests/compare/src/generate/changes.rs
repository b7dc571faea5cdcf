//! Tuples, lists that suit them, and both at their borders.

use super::{about, values, working};
use crate::cases::Change;
use crate::random::Random;
use crate::reference::updates::{self, Fields, DEPTH, MOST_FIELDS, MOST_LIST_BYTES, MOST_OPERATIONS, MOST_TUPLE_BYTES};
use crate::reference::values as meant;

const MARKS: &[u8] = b"+-&^|=!#:";

/// The first numbers that are no integers of the rules.
const OUTSIDE: [i128; 2] = [-(1 << 63) - 1, 1 << 64];

fn field(r: &mut Random) -> Vec<u8> {
    match r.below(12) {
        0..=4 => {
            let n = values::number(r);
            values::integer(r, n)
        }
        5..=8 => {
            let length = if r.one_in(10) { *r.pick(&[31, 32, 33, 255, 256, 257]) } else { r.below(12) };
            let content = r.bytes(length);
            values::string(r, &content)
        }
        9 if r.one_in(8) => {
            let depth = about(r, DEPTH);
            values::nested(r, depth)
        }
        _ => values::value(r, 4, 20),
    }
}

fn fields(r: &mut Random, count: usize) -> Fields {
    (0..count).map(|_| field(r)).collect()
}

/// A tuple of any length; its array header in any form.
fn tuple(r: &mut Random) -> Vec<u8> {
    let count = match r.below(12) {
        0 => about(r, MOST_FIELDS),
        1 => r.within(13..=18),
        _ => r.below(8),
    };
    let mut fields = fields(r, count);
    if r.one_in(20) && !fields.is_empty() {
        // Fills one field up so that the tuple's bytes are about as many as are allowed.
        let at = r.below(count);
        fields[at] = vec![];
        let header = values::array_header(r, count);
        let bytes = about(r, MOST_TUPLE_BYTES).saturating_sub(header.len() + fields.concat().len());
        fields[at] = values::sized(r, bytes);
        return [header, fields.concat()].concat();
    }
    values::array(r, &fields)
}

/// The index of a field that the mark works on, if there is one.
fn suiting(r: &mut Random, fields: &Fields, mark: u8) -> Option<usize> {
    let suits = |field: &Vec<u8>| {
        let value = meant::whole(field, DEPTH).expect("a field is one value");
        match mark {
            b'+' | b'-' => value.integer().is_some(),
            b'&' | b'^' | b'|' => value.integer().is_some_and(|n| n >= 0),
            b':' => value.string().is_some(),
            _ => true,
        }
    };
    let all: Vec<_> = (0..fields.len()).filter(|f| suits(&fields[*f])).collect();
    (!all.is_empty()).then(|| *r.pick(&all))
}

/// A field number from 0: one that suits, any up to one past the end, or one that no tuple has.
fn field_number(r: &mut Random, fields: &Fields, mark: u8) -> i128 {
    match (r.below(40), suiting(r, fields, mark)) {
        (0, _) => values::number(r),
        (1, _) => -1,
        (2..=4, _) => r.below(fields.len() + 2) as i128,
        (5..=20, _) if mark == b'=' || mark == b'!' => fields.len() as i128,
        (_, Some(f)) => f as i128,
        (_, None) => fields.len() as i128 - 1,
    }
}

/// An argument that suits the mark, now and then any value. Sums and differences mostly come near a number's border.
fn argument(r: &mut Random, mark: u8, field: Option<i128>) -> Vec<u8> {
    let border = if r.one_in(6) { *r.pick(&OUTSIDE) } else { values::number(r) + r.below(3) as i128 - 1 };
    let n = match (mark, r.below(40), field) {
        (_, 0, _) => return values::value(r, 3, 10),
        (b'=' | b'!', ..) => return self::field(r),
        (b'+', 1..=25, Some(field)) => border - field,
        (b'-', 1..=25, Some(field)) => field - border,
        (b'^', 1..=25, Some(field)) => border ^ field,
        (b'#', 1, _) => 0,
        (b'#', 2..=30, _) => r.within(1..=4) as i128,
        (_, 2, _) => border,
        (_, 3, _) => -1,
        _ => border.abs(),
    };
    values::integer(r, in_range(n))
}

fn in_range(n: i128) -> i128 {
    n.clamp(-(1 << 63), (1 << 64) - 1)
}

/// Position, count and argument of a splice on a string of this length; the result often is about as long as a form holds.
fn splice(r: &mut Random, base: u64, length: usize) -> Vec<Vec<u8>> {
    let (p, count) = (r.below(12), r.below(12));
    let kept = length - count.min(length.saturating_sub(p));
    let wanted = if r.one_in(3) { *r.pick(&[31, 32, 255, 256]) } else { kept + r.below(6) };
    let content = r.bytes(wanted.saturating_sub(kept));
    let argument = if r.one_in(50) { values::value(r, 2, 5) } else { values::string(r, &content) };
    let near = |r: &mut Random, least: u64, n: usize| match r.below(30) {
        0 => values::number(r),
        1 => i128::from(least) - 1,
        _ => i128::from(least) + n as i128,
    };
    let (p, count) = (near(r, base, p), near(r, 0, count));
    vec![values::integer(r, p), values::integer(r, count), argument]
}

/// One operation for these fields, in any form; now and then one of a wrong shape.
pub fn operation(r: &mut Random, fields: &Fields, base: u64) -> Vec<u8> {
    let mark = *r.pick(MARKS);
    let f = field_number(r, fields, mark);
    let field = usize::try_from(f).ok().and_then(|f| meant::whole(fields.get(f)?, DEPTH));
    let length = field.as_ref().and_then(|field| field.string()).map_or(0, <[u8]>::len);
    let mut parts = vec![vec![0xa1, mark], values::integer(r, in_range(f + i128::from(base.min(1))))];
    match mark {
        b':' => parts.extend(splice(r, base.min(1), length)),
        _ => parts.push(argument(r, mark, field.and_then(|field| field.integer()))),
    }
    match r.below(400) {
        0 => parts[0] = vec![0xa1, r.word() as u8],
        1 => parts[0] = vec![0xd9, 0x01, mark],
        2 => parts[0] = values::value(r, 1, 3),
        3 => parts[1] = values::value(r, 1, 3),
        4 => drop(parts.pop()),
        5 => parts.push(vec![0x00]),
        6 => return values::value(r, 2, 6),
        _ => {}
    }
    values::array(r, &parts)
}

/// A list that follows what each of its operations makes of the fields.
pub fn list(r: &mut Random, tuple: &[u8], base: u64) -> Vec<u8> {
    let count = match r.below(20) {
        0 => about(r, MOST_OPERATIONS),
        1 => r.within(13..=18),
        _ => r.below(7),
    };
    let mut fields = updates::fields(tuple).unwrap_or_default();
    let mut operations: Vec<Vec<u8>> = Vec::new();
    for _ in 0..2 * count {
        if operations.len() == count {
            break;
        }
        let operation = operation(r, &fields, base);
        let alone = meant::array(&[&operation]);
        let before = fields.clone();
        let performed = updates::operations(&alone, base).map(|all| updates::perform(&mut fields, &all[0]));
        if !matches!(performed, Some(Ok(_))) {
            fields = before;
            // Of the operations that would be refused most are left out, so that long lists go through.
            if !r.one_in(4) {
                continue;
            }
        }
        operations.push(operation);
    }
    values::array(r, &operations)
}

/// An index base, seldom a wrong one.
pub fn base(r: &mut Random) -> u64 {
    match r.below(60) {
        0 => 2,
        1 => *r.pick(&[u64::MAX, 256, 1 << 32]),
        n => n as u64 % 2,
    }
}

/// The bytes of an operation of three before its argument: array header, mark and field number.
pub const BEFORE: usize = 4;

pub fn three(mark: u8, f: usize, argument: &[u8]) -> Vec<u8> {
    meant::array(&[&meant::string(&[mark]), &meant::integer(f as i128), argument])
}

/// The length of the shortest array header.
pub fn header_length(count: usize) -> usize {
    meant::array(&vec![[]; count]).len()
}

/// A list of about as many bytes as are allowed: assignments to one field, the last filled up.
fn long_list(r: &mut Random) -> Change {
    let count = r.within(3..=20);
    let mut left = about(r, MOST_LIST_BYTES) - header_length(count) - count * BEFORE;
    let mut operations = Vec::new();
    for after in (0..count).rev() {
        let size = if after == 0 { left } else { left / (after + 1) - r.below(50) };
        operations.push(three(b'=', 0, &values::sized(r, size)));
        left -= size;
    }
    Change { tuple: vec![0x91, 0x01], list: meant::array(&operations), base: 0, room: 0 }
}

/// A tuple that grows to about as many bytes as are allowed, by an assigned, inserted or spliced field.
fn filled(r: &mut Random) -> Change {
    let count = r.within(1..=20);
    let mut fields: Fields = (0..count).map(|_| values::scalar(r, 8)).collect();
    let at = r.below(count);
    let mark = *r.pick(b"=!:");
    if mark == b':' {
        fields[at] = vec![0xa0];
    }
    let tuple = values::array(r, &fields);
    match mark {
        b'!' => fields.insert(at, vec![]),
        _ => fields[at] = vec![],
    }
    let size = about(r, MOST_TUPLE_BYTES) - meant::array(&fields).len();
    let new = values::sized(r, size);
    let operation = match mark {
        b':' => meant::array(&[&[0xa1, b':'][..], &[at as u8], &[0x00], &[0x00], &[&[0xda], &new[1..]].concat()]),
        _ => three(mark, at, &new),
    };
    Change { tuple, list: meant::array(&[operation]), base: 0, room: 0 }
}

/// An undo list of about as many operations as are allowed: all fields removed, then some put back.
fn many_undone(r: &mut Random) -> Change {
    let count = r.within(30..=MOST_FIELDS);
    let tuple = meant::array(&(0..count).map(|_| values::scalar(r, 3)).collect::<Vec<_>>());
    let mut operations = vec![three(b'#', 0, &values::unsigned(r, count as u64))];
    for f in 0..about(r, MOST_OPERATIONS) - count.min(62) {
        operations.push(three(*r.pick(b"=!"), f, &[0x01]));
    }
    Change { tuple, list: meant::array(&operations), base: 0, room: 0 }
}

/// An undo list of about as many bytes as are allowed: splices that change nothing of a long string, one old field
/// filled up.
fn long_undone(r: &mut Random) -> Change {
    let splices = r.within(2..=MOST_OPERATIONS - 2);
    let bytes = about(r, MOST_LIST_BYTES);
    let header = header_length(splices + 1);
    let each = (bytes - header - BEFORE - 1) / splices - BEFORE;
    let text = [vec![0xda], values::sized(r, each)[1..].to_vec()].concat();
    let old = values::sized(r, bytes - header - splices * (each + BEFORE) - BEFORE);
    let tuple = meant::array(&[text, old]);
    let still = meant::array(&[vec![0xa1, b':'], vec![0x00], vec![0x00], vec![0x00], vec![0xa0]]);
    let mut operations = vec![still; splices];
    let at = r.within(0..=splices);
    operations.insert(at, three(b'=', 1, &[0xc0]));
    Change { tuple, list: meant::array(&operations), base: 0, room: 0 }
}

/// A value about as deep as a field may be; now and then c1 inside it or in its place.
fn spoiled(r: &mut Random) -> Vec<u8> {
    let depth = about(r, DEPTH);
    let mut bytes = values::nested(r, depth);
    match r.below(4) {
        0 => vec![0xc1],
        1 => {
            bytes.truncate(r.below(bytes.len()));
            [bytes, vec![0xc1]].concat()
        }
        _ => bytes,
    }
}

/// Items of an array, one of them perhaps broken, and what else may be wrong beside it: too many, too long, no array, bytes
/// left over; or the end is missing.
fn beside(r: &mut Random, mut items: Fields, most: usize, filler: fn(Vec<u8>) -> Vec<u8>) -> Vec<u8> {
    if r.one_in(4) {
        let size = about(r, most).saturating_sub(items.concat().len() + 8);
        let at = r.below(items.len() + 1);
        items.insert(at, filler(values::sized(r, size)));
    }
    let header = match r.below(12) {
        0 => values::map_header(r, items.len() / 2),
        _ => values::array_header(r, items.len()),
    };
    let mut bytes = [header, items.concat()].concat();
    match r.below(6) {
        0 => bytes.truncate(r.below(bytes.len())),
        1 => bytes.push(*r.pick(&[0x00, 0x91, 0xc1])),
        _ => {}
    }
    bytes
}

/// How many items, now and then about as many as are allowed.
fn count(r: &mut Random, most: usize) -> usize {
    if r.one_in(4) {
        about(r, most)
    } else {
        r.within(1..=5)
    }
}

/// A broken tuple, with any list.
fn spoiled_tuple(r: &mut Random) -> Change {
    let count = count(r, MOST_FIELDS);
    let mut fields: Fields = (0..count).map(|_| values::scalar(r, 4)).collect();
    let at = r.below(count);
    fields[at] = spoiled(r);
    let tuple = beside(r, fields, MOST_TUPLE_BYTES, |value| value);
    let list = if r.one_in(2) { vec![0x90] } else { vec![0x91, 0xc1] };
    Change { tuple, list, base: base(r), room: 0 }
}

/// A broken list: a broken value in an operation or for one, and perhaps an operation outside the rules before or after it.
fn spoiled_list(r: &mut Random) -> Change {
    let count = count(r, MOST_OPERATIONS);
    let mut operations: Fields = (0..count).map(|_| three(b'=', 0, &values::scalar(r, 4))).collect();
    if r.one_in(3) {
        let at = r.below(count);
        let argument = values::scalar(r, 4);
        operations[at] = three(*r.pick(b"*#&"), 0, &argument);
    }
    let at = r.below(count);
    let bad = spoiled(r);
    operations[at] = if r.one_in(6) { bad } else { three(*r.pick(b"=!+*"), 0, &bad) };
    let list = beside(r, operations, MOST_LIST_BYTES, |value| three(b'=', 0, &value));
    Change { tuple: vec![0x91, 0x01], list, base: if r.one_in(4) { 7 } else { 0 }, room: 0 }
}

/// The inputs of an update, undo or press call; the room is still to be chosen.
pub fn change(r: &mut Random) -> Change {
    let mut change = match r.below(100) {
        0 => long_list(r),
        1 | 2 => many_undone(r),
        3 | 4 => long_undone(r),
        5..=7 => filled(r),
        8..=11 => return spoiled_tuple(r),
        12..=15 => return spoiled_list(r),
        16..=23 => working::filled_up(r),
        24 | 25 => working::spliced_again(r),
        26..=29 => working::full_table(r),
        30..=32 => working::long_argument(r),
        33 | 34 => working::removed_twice(r),
        35 | 36 => working::kept_whole(r),
        _ => {
            let (tuple, base) = (tuple(r), base(r));
            Change { list: list(r, &tuple, base), tuple, base, room: 0 }
        }
    };
    if r.one_in(20) {
        super::damage(r, &mut change.tuple);
    }
    if r.one_in(10) {
        super::damage(r, &mut change.list);
    }
    change
}
