//! Random inputs: whole ones in every form that the rules allow, ones at each border, and damaged ones.

pub mod changes;
pub mod frames;
pub mod sessions;
pub mod values;
pub mod working;

use crate::random::Random;

/// First bytes whose meaning differs from their neighbours'.
const TELLING: [u8; 44] = [
    0x00, 0x01, 0x7f, 0x80, 0x81, 0x8f, 0x90, 0x91, 0x93, 0x95, 0x9f, 0xa0, 0xa1, 0xbf, 0xc0, 0xc1, 0xc2, 0xc3, 0xc4, 0xc6,
    0xc7, 0xc9, 0xca, 0xcb, 0xcc, 0xcd, 0xce, 0xcf, 0xd0, 0xd1, 0xd2, 0xd3, 0xd4, 0xd8, 0xd9, 0xda, 0xdb, 0xdc, 0xdd, 0xde,
    0xdf, 0xe0, 0xfe, 0xff,
];

/// One to three injuries: a flipped bit, another byte, a cut, bytes put in, taken out or doubled.
pub fn damage(r: &mut Random, bytes: &mut Vec<u8>) {
    for _ in 0..r.within(1..=3) {
        let at = r.below(bytes.len());
        let end = (at + r.within(1..=4)).min(bytes.len());
        match r.below(9) {
            0 => bytes.truncate(at),
            1 => drop(bytes.drain(at..end)),
            2 => drop(bytes.splice(at..at, r.bytes(1))),
            3 => drop(bytes.splice(at..at, [*r.pick(&TELLING)])),
            4 => bytes.extend_from_within(at..end),
            _ if bytes.is_empty() => bytes.push(*r.pick(&TELLING)),
            5 => bytes[at] ^= 1 << r.below(8),
            6 => bytes[at] = r.word() as u8,
            7 => bytes[at] = 0xc1,
            _ => bytes[at] = *r.pick(&TELLING),
        }
    }
}

/// A number that lies near a limit: one or two below it, at it, or above.
pub fn about(r: &mut Random, limit: usize) -> usize {
    limit - 2 + r.below(5)
}

/// A buffer's room for a result of this length: mostly one at which the answer turns.
pub fn room(r: &mut Random, length: usize) -> usize {
    match r.below(12) {
        0 => length.saturating_sub(1),
        1 => r.below(length + 1),
        2 => 0,
        3..=6 => length,
        7 => length + 1,
        _ => length + r.below(300),
    }
}
