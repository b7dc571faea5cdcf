//! Lines of frames, ways to cut them, and feeds of sessions that no feed left.

use super::{about, damage, frames};
use crate::cases::{Feed, MOST_ROOM};
use crate::random::Random;
use crate::reference::frames::read;
use crate::reference::sessions::LEAST_CARRY;
use laksubinat::raw::{Number, Session};

/// Frames one after the other as on a line: mostly whole ones, now and then one that is refused or damaged; the end cut.
pub fn line(r: &mut Random) -> Vec<u8> {
    let mut bytes = Vec::new();
    for _ in 0..r.within(1..=10) {
        let mut frame = frames::lent(r);
        match read(&frame) {
            Ok((_, length)) => frame.truncate(length),
            Err(_) if !r.one_in(10) => continue,
            Err(_) => {}
        }
        bytes.extend(frame);
    }
    if r.one_in(8) {
        damage(r, &mut bytes);
    }
    if r.one_in(4) {
        bytes.truncate(r.below(bytes.len() + 1));
    }
    bytes
}

/// Lengths of pieces that are worth trying; the last takes all that is left.
pub const LENGTHS: [usize; 8] = [0, 1, 2, 3, 7, 40, 1_500, usize::MAX];

/// How a line of so many bytes is cut: the lengths of its pieces, again and again in this order.
pub fn cutting(r: &mut Random, bytes: usize) -> Vec<usize> {
    let mut lengths: Vec<_> = (0..r.within(1..=5)).map(|_| *r.pick(&LENGTHS)).collect();
    // So that it ends, and that a long line has not too many pieces.
    let least = 1 + bytes / r.within(100..=1_000);
    if lengths.iter().all(|length| *length < least) {
        lengths.push(least);
    }
    lengths
}

/// A carry buffer's room: mostly one at which the answer turns.
pub fn room(r: &mut Random) -> usize {
    match r.below(4) {
        0 => about(r, LEAST_CARRY),
        1 => r.below(MOST_ROOM + 1),
        _ => LEAST_CARRY,
    }
}

pub fn offset(r: &mut Random) -> u64 {
    match r.below(3) {
        0 => 0,
        1 => u64::MAX - r.below(60) as u64,
        _ => r.word(),
    }
}

/// How many bytes are said to be held where so many are there: fewer, more, and more than any buffer has.
fn held(r: &mut Random, there: usize) -> u64 {
    match r.below(8) {
        0 => r.below(there + 1) as u64,
        1 => (there + r.below(20)) as u64,
        2 => *r.pick(&[60_008, 60_009, 60_010, 1 << 32, 1 << 63, u64::MAX]),
        _ => there as u64,
    }
}

/// A feed of any session: a line is cut anywhere, and what stands before the cut is in the carry buffer.
pub fn feed(r: &mut Random) -> Feed {
    let mut begun = line(r);
    let cut = match r.below(4) {
        0 => r.below(10).min(begun.len()),
        _ => r.below(begun.len() + 1),
    };
    let piece = begun.split_off(cut);
    let refused = if r.one_in(8) { *r.pick(&[1, 2, 3, 4, 10, 18, 19, 77, u32::MAX]) } else { 0 };
    let session = Session { offset: offset(r), held: held(r, cut), refused, place: place(r) };
    Feed { session, begun, piece, room: room(r) }
}

/// A session's place: mostly none, now and then any, also one that is absent and has a value.
fn place(r: &mut Random) -> Number {
    match r.below(4) {
        0 => Number { present: r.one_in(2), value: *r.pick(&[0, 7, 60_009, u64::MAX]) },
        _ => Number::default(),
    }
}
