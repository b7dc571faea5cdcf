//! Values in any of their forms.

use crate::random::Random;
use crate::reference::values::tagged;

/// One of the forms, mostly the first, which is the shortest.
fn form(r: &mut Random, forms: Vec<Vec<u8>>) -> Vec<u8> {
    let at = if r.one_in(4) { r.below(forms.len()) } else { 0 };
    forms[at].clone()
}

/// The forms that hold a number or length from 0 up: in the first byte itself, or in bytes after it.
fn forms(n: usize, inside: Option<u8>, after: &[(u8, usize)]) -> Vec<Vec<u8>> {
    let after = after.iter().filter(|(_, width)| *width == 8 || n >> (8 * width) == 0);
    inside
        .map(|first| vec![first])
        .into_iter()
        .chain(after.map(|(first, width)| tagged(*first, n as i128, *width)))
        .collect()
}

fn unsigned_forms(n: u64) -> Vec<Vec<u8>> {
    let inside = (n < 0x80).then_some(n as u8);
    forms(n as usize, inside, &[(0xcc, 1), (0xcd, 2), (0xce, 4), (0xcf, 8)])
}

pub fn unsigned(r: &mut Random, n: u64) -> Vec<u8> {
    form(r, unsigned_forms(n))
}

fn signed_forms(n: i128) -> Vec<Vec<u8>> {
    let mut all = Vec::new();
    if (-0x20..0).contains(&n) {
        all.push(vec![n as u8]);
    }
    for (first, width) in [(0xd0, 1), (0xd1, 2), (0xd2, 4), (0xd3, 8)] {
        let half = 1i128 << (8 * width - 1);
        if (-half..half).contains(&n) {
            all.push(tagged(first, n, width));
        }
    }
    all
}

/// An integer in an unsigned or signed form.
pub fn integer(r: &mut Random, n: i128) -> Vec<u8> {
    let unsigned = u64::try_from(n).map_or(Vec::new(), unsigned_forms);
    form(r, [unsigned, signed_forms(n)].concat())
}

/// A number where an unsigned one is due; now and then its form is signed.
pub fn nearly_unsigned(r: &mut Random, n: u64) -> Vec<u8> {
    match signed_forms(n.into()) {
        forms if r.one_in(60) && !forms.is_empty() => form(r, forms),
        _ => unsigned(r, n),
    }
}

/// An integer near a power of two or an end of the integers' range.
pub fn number(r: &mut Random) -> i128 {
    if r.one_in(8) {
        return *r.pick(&[-(1 << 63), 1 - (1 << 63), -1, 0, 1 << 63, (1 << 64) - 2, (1 << 64) - 1]);
    }
    let power = 1i128 << r.within(0..=64);
    let n = match r.below(4) {
        0 => power,
        1 => power - 1,
        2 => power + 1,
        _ => i128::from(r.word()) % power,
    };
    if r.one_in(3) { -n } else { n }.clamp(-(1 << 63), (1 << 64) - 1)
}

pub fn string(r: &mut Random, content: &[u8]) -> Vec<u8> {
    let n = content.len();
    let header = form(r, forms(n, (n < 32).then_some(0xa0 + n as u8 % 32), &[(0xd9, 1), (0xda, 2), (0xdb, 4)]));
    [&header, content].concat()
}

fn bin(r: &mut Random, content: &[u8]) -> Vec<u8> {
    let header = form(r, forms(content.len(), None, &[(0xc4, 1), (0xc5, 2), (0xc6, 4)]));
    [&header, content].concat()
}

fn ext(r: &mut Random, content: &[u8]) -> Vec<u8> {
    let n = content.len();
    let inside = n.is_power_of_two().then(|| 0xd4 + n.trailing_zeros() as u8).filter(|first| *first <= 0xd8);
    let header = form(r, forms(n, inside, &[(0xc7, 1), (0xc8, 2), (0xc9, 4)]));
    [&header[..], &[r.word() as u8], content].concat()
}

pub fn array_header(r: &mut Random, n: usize) -> Vec<u8> {
    form(r, forms(n, (n < 16).then_some(0x90 + n as u8 % 16), &[(0xdc, 2), (0xdd, 4)]))
}

pub fn map_header(r: &mut Random, n: usize) -> Vec<u8> {
    form(r, forms(n, (n < 16).then_some(0x80 + n as u8 % 16), &[(0xde, 2), (0xdf, 4)]))
}

/// An array of these items.
pub fn array(r: &mut Random, items: &[Vec<u8>]) -> Vec<u8> {
    [array_header(r, items.len()), items.concat()].concat()
}

/// A value without others inside, of about this size where its kind has one.
pub fn scalar(r: &mut Random, size: usize) -> Vec<u8> {
    let length = r.below(size + 1);
    let content = r.bytes(length);
    match r.below(10) {
        0 => vec![0xc0],
        1 => vec![*r.pick(&[0xc2, 0xc3])],
        2 => tagged(0xca, r.word().into(), 4),
        3 => tagged(0xcb, *r.pick(&[0x7ff8_0000_0000_0001, 0xfff0_0000_0000_0000, 0x7ff0_0000_0000_0001]), 8),
        4 | 5 => string(r, &content),
        6 => bin(r, &content),
        7 => ext(r, &content),
        _ => {
            let n = number(r);
            integer(r, n)
        }
    }
}

/// Arrays of one in one another, and a value in them.
fn ones(r: &mut Random, depth: usize, size: usize) -> Vec<u8> {
    let levels = r.within(1..=depth);
    [vec![0x91; levels], value(r, depth - levels, size)].concat()
}

/// The items from one on are made like it, so that they have the same head.
fn make_alike(r: &mut Random, items: &mut [Vec<u8>]) {
    let first = r.below(items.len());
    let (like, rest) = items[first..].split_first_mut().expect("there is one");
    rest.fill(like.clone());
}

/// A value at most so deep, of about this size; the size left for each item also ends the nesting.
pub fn value(r: &mut Random, depth: usize, size: usize) -> Vec<u8> {
    if depth == 0 || size < 2 || !r.one_in(3) {
        return scalar(r, size);
    }
    if r.one_in(10) {
        return ones(r, depth, size);
    }
    let count = if r.one_in(30) { r.within(14..=40) } else { r.below(6) };
    let is_map = r.one_in(2);
    let mut items: Vec<_> =
        (0..count * (1 + usize::from(is_map))).map(|_| value(r, depth - 1, size / (count + 1))).collect();
    if !items.is_empty() && r.one_in(4) {
        make_alike(r, &mut items);
    }
    let header = if is_map { map_header(r, count) } else { array_header(r, count) };
    [header, items.concat()].concat()
}

/// A value exactly so deep: each level is an item of an array, or a key or value of a map.
pub fn nested(r: &mut Random, depth: usize) -> Vec<u8> {
    if depth == 0 {
        return scalar(r, 5);
    }
    if depth == 1 && r.one_in(2) {
        return if r.one_in(2) { map_header(r, 0) } else { array_header(r, 0) };
    }
    let is_map = r.one_in(2);
    let count = r.within(1..=3);
    let mut items: Vec<_> = (0..count * (1 + usize::from(is_map))).map(|_| scalar(r, 3)).collect();
    let at = r.below(items.len());
    items[at] = nested(r, depth - 1);
    let header = if is_map { map_header(r, count) } else { array_header(r, count) };
    [header, items.concat()].concat()
}

/// A string or bin of exactly so many bytes with its header; one byte is a small number.
pub fn sized(r: &mut Random, bytes: usize) -> Vec<u8> {
    let is_string = r.one_in(2);
    let (first, width) = match bytes {
        0 | 1 => return vec![0x05],
        2..=257 => (if is_string { 0xd9 } else { 0xc4 }, 1),
        258..=65_538 => (if is_string { 0xda } else { 0xc5 }, 2),
        _ => (if is_string { 0xdb } else { 0xc6 }, 4),
    };
    let length = bytes - 1 - width;
    [tagged(first, length as i128, width), r.bytes(length)].concat()
}

/// Bytes for a value read alone: every first byte, whole values and what follows them, borders, damage.
pub fn lent(r: &mut Random) -> Vec<u8> {
    let mut bytes = match r.below(8) {
        0 => {
            let length = r.below(24);
            r.bytes(length)
        }
        1 | 2 => {
            let depth = r.within(13..=18);
            nested(r, depth)
        }
        3 if r.one_in(20) => {
            let size = r.within(60_000..=70_000);
            sized(r, size)
        }
        4 => promising(r),
        _ => {
            let size = *r.pick(&[8, 40, 300, 2_000]);
            value(r, 18, size)
        }
    };
    if r.one_in(3) {
        super::damage(r, &mut bytes);
    }
    if r.one_in(3) {
        let length = r.below(20);
        bytes.extend(r.bytes(length));
    }
    bytes
}

/// A first byte of any kind, a length or count, and about as many bytes as it promises.
fn promising(r: &mut Random) -> Vec<u8> {
    let mut bytes = vec![r.word() as u8];
    let length = if r.one_in(4) { r.word() >> r.below(64) } else { r.below(20) as u64 };
    let width = *r.pick(&[0, 1, 2, 4, 8]);
    bytes.extend(&length.to_be_bytes()[8 - width..]);
    let content = (length as usize % 600 + r.below(5)).saturating_sub(2);
    bytes.extend(r.bytes(content));
    bytes
}
