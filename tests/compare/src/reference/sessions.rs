//! Sessions: bytes as they come, answered frame by frame.

use super::frames::{self, Record};
use super::Refusal;

/// The least length of a carry buffer.
pub const LEAST_CARRY: usize = 60_009;

/// Whether there is a place, and which; one that is handed in may say both at once.
pub type Place = (bool, u64);

/// What one feed leaves for the next.
#[derive(Clone, Copy, Default)]
pub struct Session {
    /// The length of all frames answered since the opening or reset.
    pub offset: u64,
    /// How many bytes of the frame at hand stand at the carry buffer's start.
    pub held: u64,
    /// The refused frame's number, or 0.
    pub refused: u32,
    /// Where the refused frame broke.
    pub place: Place,
}

/// What a feed answers; the record comes with the frame's length.
pub struct Fed {
    pub number: u32,
    pub in_carry: bool,
    pub taken: usize,
    pub offset: u64,
    pub frame: Option<(Record, usize)>,
    pub session: Session,
    pub place: Place,
}

/// 19, or 0; the session is a fresh one.
pub fn open(carry: &[u8]) -> u32 {
    match carry.len() < LEAST_CARRY {
        true => 19,
        false => 0,
    }
}

/// How many bytes settle the frame at their start: the fewest that reading does not answer with 1. None where all wait.
fn settling(bytes: &[u8]) -> Option<usize> {
    let waits = |n: usize| matches!(frames::read(&bytes[..n]), Err(Refusal { number: 1, .. }));
    if waits(bytes.len()) {
        return None;
    }
    // Bytes that follow never unsettle a frame: the least number is found by halving.
    let (mut waiting, mut settled) = (0, bytes.len());
    while waiting + 1 < settled {
        let half = (waiting + settled) / 2;
        match waits(half) {
            true => waiting = half,
            false => settled = half,
        }
    }
    Some(settled)
}

/// A feed: 19, then the repeated answer, then what the begun frame and the piece together are.
pub fn feed(session: Session, piece: &[u8], carry: &mut [u8]) -> Fed {
    let Session { offset, held, refused, place } = session;
    let idle = |number| Fed { number, in_carry: false, taken: 0, offset, frame: None, session, place: Place::default() };
    if open(carry) != 0 {
        return idle(19);
    }
    if refused != 0 {
        return Fed { place, ..idle(refused) };
    }
    let begun = carry.len().min(usize::try_from(held).unwrap_or(usize::MAX));
    let bytes = [&carry[..begun], piece].concat();
    let Some(end) = settling(&bytes) else {
        carry[begun..bytes.len()].copy_from_slice(piece);
        let session = Session { held: bytes.len() as u64, place: Place::default(), ..session };
        return Fed { taken: piece.len(), session, ..idle(1) };
    };
    let taken = end.saturating_sub(begun);
    let in_carry = begun > 0;
    if in_carry {
        carry[begun..begun + taken].copy_from_slice(&piece[..taken]);
    }
    match frames::read(&bytes[..end]) {
        Ok((record, length)) => {
            let session = Session { offset: offset.wrapping_add(length as u64), ..Session::default() };
            Fed { in_carry, taken, frame: Some((record, length)), session, ..idle(0) }
        }
        Err(Refusal { number, place, .. }) => {
            let place = place.map_or(Place::default(), |place| (true, place as u64));
            let held = if in_carry { end as u64 } else { 0 };
            Fed { taken, session: Session { offset, held, refused: number, place }, place, ..idle(number) }
        }
    }
}
