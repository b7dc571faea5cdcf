//! One call with its inputs; what came of it; the difference between two of them.

use crate::calls::{numbers, places, Calls};
use crate::reference::values::{self, Meaning};
use laksubinat::raw::{self, Answer, FrameAnswer, PressAnswer, SessionAnswer, SessionOpening, ValueAnswer};
use std::fmt;

/// The inputs of an update, undo or press call.
#[derive(Clone)]
pub struct Change {
    pub tuple: Vec<u8>,
    pub list: Vec<u8>,
    pub base: u64,
    pub room: usize,
}

/// The inputs of a feed: the carry buffer has so much room, and begins with these bytes.
#[derive(Clone)]
pub struct Feed {
    pub session: raw::Session,
    pub begun: Vec<u8>,
    pub piece: Vec<u8>,
    pub room: usize,
}

#[derive(Clone)]
#[allow(clippy::large_enum_variant)] // one lives at a time
pub enum Case {
    Value { bytes: Vec<u8> },
    Read { bytes: Vec<u8> },
    Write { frame: raw::Frame, bytes: Vec<u8>, room: usize },
    Update(Change),
    Undo(Change),
    Press { change: Change, undo_room: usize },
    Open { room: usize },
    Feed(Feed),
}

/// The names of the calls, in the order of `Case`.
pub const CALLS: [&str; 8] =
    ["value_read", "frame_read", "frame_write", "update", "undo", "press", "session_open", "session_feed"];

#[derive(Clone, Debug, PartialEq)]
#[allow(clippy::large_enum_variant)] // one lives at a time
pub enum Reply {
    Value(ValueAnswer),
    Read(FrameAnswer),
    Written(Answer),
    Pressed(PressAnswer),
    Opened(SessionOpening),
    Fed(SessionAnswer),
}

/// A call's answer, and the lent buffer afterwards with the guards on both sides of it; of a press the undo list's too.
#[derive(Clone, PartialEq)]
pub struct Outcome {
    pub reply: Reply,
    buffer: Vec<u8>,
    undo: Vec<u8>,
}

/// Bytes on each side of a lent buffer, which no call may touch.
pub const GUARD: usize = 24;

/// The longest room that a case may have.
pub const MOST_ROOM: usize = 65_536;

/// What lent buffers hold before a call, but for what a carry buffer begins with: no two neighbours are equal.
static PATTERN: [u8; MOST_ROOM + 2 * GUARD] = {
    let mut pattern = [0; MOST_ROOM + 2 * GUARD];
    let mut at = 0;
    while at < pattern.len() {
        pattern[at] = (at % 251) as u8 ^ 0x55;
        at += 1;
    }
    pattern
};

impl Case {
    pub fn call(&self) -> usize {
        match self {
            Case::Value { .. } => 0,
            Case::Read { .. } => 1,
            Case::Write { .. } => 2,
            Case::Update(_) => 3,
            Case::Undo(_) => 4,
            Case::Press { .. } => 5,
            Case::Open { .. } => 6,
            Case::Feed(_) => 7,
        }
    }

    /// How long the lent buffer is, and the bytes that it begins with.
    fn lent(&self) -> (usize, &[u8]) {
        match self {
            Case::Value { .. } | Case::Read { .. } => (0, &[]),
            Case::Write { room, .. } | Case::Open { room } => (*room, &[]),
            Case::Update(change) | Case::Undo(change) | Case::Press { change, .. } => (change.room, &[]),
            Case::Feed(feed) => (feed.room, &feed.begun[..feed.room.min(feed.begun.len())]),
        }
    }

    /// Makes the call, on buffers that are else filled with the pattern.
    pub fn run(&self, calls: &dyn Calls) -> Outcome {
        let (room, begun) = self.lent();
        let undo_room = if let Case::Press { undo_room, .. } = self { *undo_room } else { 0 };
        let (mut buffer, mut undo) = (patterned(room), patterned(undo_room));
        let out = &mut buffer[GUARD..GUARD + room];
        out[..begun.len()].copy_from_slice(begun);
        let reply = match self {
            Case::Value { bytes } => Reply::Value(calls.value_read(bytes)),
            Case::Read { bytes } => Reply::Read(calls.frame_read(bytes)),
            Case::Write { frame, bytes, .. } => Reply::Written(calls.frame_write(*frame, bytes, out)),
            Case::Update(change) => Reply::Written(calls.update(&change.tuple, &change.list, change.base, out)),
            Case::Undo(change) => Reply::Written(calls.undo(&change.tuple, &change.list, change.base, out)),
            Case::Press { change, .. } => {
                let undo = &mut undo[GUARD..GUARD + undo_room];
                Reply::Pressed(calls.press(&change.tuple, &change.list, change.base, out, undo))
            }
            Case::Open { .. } => Reply::Opened(calls.session_open(out)),
            Case::Feed(feed) => Reply::Fed(calls.session_feed(feed.session, &feed.piece, out)),
        };
        Outcome { reply, buffer, undo }
    }

    /// The inputs that are bytes, for making them smaller.
    pub fn parts(&mut self) -> Vec<&mut Vec<u8>> {
        match self {
            Case::Value { bytes } | Case::Read { bytes } | Case::Write { bytes, .. } => vec![bytes],
            Case::Update(change) | Case::Undo(change) | Case::Press { change, .. } => {
                vec![&mut change.tuple, &mut change.list]
            }
            Case::Open { .. } => vec![],
            Case::Feed(feed) => vec![&mut feed.begun, &mut feed.piece],
        }
    }
}

/// A lent buffer of so much room with its guards, filled with the pattern.
pub fn patterned(room: usize) -> Vec<u8> {
    PATTERN[..room + 2 * GUARD].to_vec()
}

impl Outcome {
    pub fn number(&self) -> u32 {
        match &self.reply {
            Reply::Value(answer) => answer.number,
            Reply::Read(answer) => answer.number,
            Reply::Written(answer) => answer.number,
            Reply::Pressed(answer) => answer.number,
            Reply::Opened(answer) => answer.number,
            Reply::Fed(answer) => answer.number,
        }
    }

    pub fn place(&self) -> raw::Number {
        match &self.reply {
            Reply::Value(answer) => answer.place,
            Reply::Read(answer) => answer.place,
            Reply::Written(answer) => answer.place,
            Reply::Pressed(answer) => answer.place,
            Reply::Opened(_) => raw::Number::default(),
            Reply::Fed(answer) => answer.place,
        }
    }

    pub fn length(&self) -> usize {
        match &self.reply {
            Reply::Value(answer) => answer.length as usize,
            Reply::Read(answer) => answer.length as usize,
            Reply::Written(answer) => answer.length as usize,
            Reply::Pressed(answer) => answer.length as usize,
            Reply::Opened(_) => 0,
            Reply::Fed(answer) => answer.length as usize,
        }
    }

    /// The length of a press's undo list.
    pub fn undo_length(&self) -> usize {
        match &self.reply {
            Reply::Pressed(answer) => answer.undo_length as usize,
            _ => 0,
        }
    }

    /// The bytes written, as the reference says; a library's length may be any number.
    pub fn written(&self) -> &[u8] {
        &self.buffer[GUARD..GUARD + self.length()]
    }

    /// The undo list that a press wrote, as the reference says.
    pub fn undo_written(&self) -> &[u8] {
        &self.undo[GUARD..GUARD + self.undo_length()]
    }

    /// Whether the lent buffer begins with these bytes, and the pattern follows them.
    pub fn carries(&self, bytes: &[u8]) -> bool {
        let (front, rest) = self.buffer[GUARD..].split_at(bytes.len());
        front == bytes && rest == &PATTERN[GUARD + bytes.len()..self.buffer.len()]
    }
}

pub fn hex(bytes: &[u8]) -> String {
    bytes.iter().map(|byte| format!("{byte:02x}")).collect()
}

/// The bytes that hexadecimal digits stand for, gaps passed over.
pub fn unhex(digits: &str) -> Vec<u8> {
    let digits: Vec<_> = digits.chars().filter_map(|digit| digit.to_digit(16)).collect();
    digits.chunks(2).map(|pair| (pair[0] * 16 + pair[1]) as u8).collect()
}

impl fmt::Display for Change {
    fn fmt(&self, f: &mut fmt::Formatter<'_>) -> fmt::Result {
        let Change { tuple, list, base, room } = self;
        write!(f, "tuple {}\nlist {}\nindex base {base}\nroom {room}", hex(tuple), hex(list))
    }
}

impl fmt::Display for Feed {
    fn fmt(&self, f: &mut fmt::Formatter<'_>) -> fmt::Result {
        let Feed { session, begun, piece, room } = self;
        write!(f, "{session:?}\ncarry buffer of {room}, begins {}\npiece {}", hex(begun), hex(piece))
    }
}

impl fmt::Display for Case {
    fn fmt(&self, f: &mut fmt::Formatter<'_>) -> fmt::Result {
        writeln!(f, "{}", CALLS[self.call()])?;
        match self {
            Case::Value { bytes } | Case::Read { bytes } => write!(f, "bytes {}", hex(bytes)),
            Case::Write { frame, bytes, room } => write!(f, "{}\nbytes {}\nroom {room}", shown(*frame), hex(bytes)),
            Case::Update(change) | Case::Undo(change) => change.fmt(f),
            Case::Press { change, undo_room } => write!(f, "{change}\nroom for the undo list {undo_room}"),
            Case::Open { room } => write!(f, "room {room}"),
            Case::Feed(feed) => feed.fmt(f),
        }
    }
}

impl fmt::Display for Outcome {
    fn fmt(&self, f: &mut fmt::Formatter<'_>) -> fmt::Result {
        match &self.reply {
            Reply::Value(answer) => return write!(f, "{answer:?}"),
            Reply::Read(FrameAnswer { number, length, frame, place }) => {
                return write!(f, "number {number}, length {length}, {}, place {place:?}", shown(*frame))
            }
            Reply::Opened(answer) => return write!(f, "{answer:?}"),
            Reply::Fed(answer) => return write!(f, "{}\ncarry buffer {}", fed(answer), carried(&self.buffer)),
            Reply::Written(answer) => write!(f, "{answer:?}")?,
            Reply::Pressed(answer) => write!(f, "{answer:?}\nundo list{}\ntuple", left_in(&self.undo, self.undo_length()))?,
        }
        write!(f, "{}", left_in(&self.buffer, self.length()))
    }
}

/// The bytes of this length at a lent buffer's start, and the first byte outside them that was changed.
fn left_in(buffer: &[u8], length: usize) -> String {
    let end = GUARD.saturating_add(length);
    let bytes = hex(buffer.get(GUARD..end).unwrap_or_default());
    let outside = |at: &usize| !(GUARD..end).contains(at) && buffer[*at] != PATTERN[*at];
    match (0..buffer.len()).find(outside) {
        Some(at) => format!(" {bytes}, and byte {} of the buffer changed", at as i64 - GUARD as i64),
        None => format!(" {bytes}"),
    }
}

/// A record's code and what it has, by key.
fn shown(mut frame: raw::Frame) -> String {
    let mut words = format!("code {:#x}", frame.code);
    for (key, number) in numbers(&mut frame).into_iter().filter(|(_, number)| number.present) {
        words += &format!(", {key:#04x}: {}", number.value);
    }
    for (key, place) in places(&mut frame).into_iter().filter(|(_, place)| place.present) {
        words += &format!(", {key:#04x}: {} bytes from {}", place.length, place.start);
    }
    words
}

/// A feed's answer in words.
pub fn fed(answer: &SessionAnswer) -> String {
    let SessionAnswer { number, in_carry, taken, offset, length, frame, session, place } = answer;
    let from = if *in_carry { "carry buffer" } else { "piece" };
    let frame = shown(*frame);
    format!("number {number}, {taken} taken, {length} bytes at {offset} in the {from}, {frame}, place {place:?}; left {session:?}")
}

/// A carry buffer with its guards: what stands before the last byte that is not the pattern's.
pub fn carried(buffer: &[u8]) -> String {
    let end = (0..buffer.len()).rev().find(|at| buffer[*at] != PATTERN[*at]).map_or(0, |at| at + 1);
    hex(&buffer[GUARD.min(end)..end])
}

/// Makes the case smaller for as long as it still fails: arrays lose items, then bytes are cut out, halves first.
pub fn shrink(case: &Case, fails: impl Fn(&Case) -> bool) -> Case {
    let mut best = case.clone();
    for part in 0..best.parts().len() {
        while let Some(smaller) = fewer(&mut best, part).into_iter().find(&fails) {
            best = smaller;
        }
    }
    for part in 0..best.parts().len() {
        let mut step = best.parts()[part].len().div_ceil(2);
        while step > 0 {
            let mut at = 0;
            while at + step <= best.parts()[part].len() {
                let mut smaller = best.clone();
                smaller.parts()[part].drain(at..at + step);
                if fails(&smaller) {
                    best = smaller;
                } else {
                    at += step;
                }
            }
            step /= 2;
        }
    }
    best
}

/// The case with one item less in the array that a part is, for each of its items.
fn fewer(case: &mut Case, part: usize) -> Vec<Case> {
    let bytes = case.parts()[part].clone();
    let Some(Meaning::Array(items)) = values::whole(&bytes, 16).map(|value| value.meaning) else { return Vec::new() };
    let items: Vec<_> = items.iter().map(|item| item.bytes).collect();
    let without = |at| values::array(&[&items[..at], &items[at + 1..]].concat());
    (0..items.len())
        .map(|at| {
            let mut smaller = case.clone();
            *smaller.parts()[part] = without(at);
            smaller
        })
        .collect()
}
