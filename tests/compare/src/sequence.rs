//! Whole sequences of updates, presses and takings back: the tuple and the pile of undo lists as each step leaves them.

use crate::cases::{Case, Change, Outcome};
use crate::comparison::{Comparison, Difference};
use crate::generate::{changes, damage, room};
use crate::random::Random;
use crate::reference::updates;
use std::fmt;

/// What happened in the sequences of a run.
#[derive(Default)]
pub struct Counts {
    sequences: u64,
    went_in: u64,
    stayed_out: u64,
    pressed: u64,
    taken_back: u64,
    refused_back: u64,
    highest_pile: usize,
}

impl fmt::Display for Counts {
    fn fmt(&self, f: &mut fmt::Formatter<'_>) -> fmt::Result {
        let Counts { sequences, went_in, stayed_out, pressed, taken_back, refused_back, highest_pile } = self;
        write!(
            f,
            "{sequences} sequences: {went_in} updates went in ({pressed} as a press), {stayed_out} did not; \
             {taken_back} were taken back, {refused_back} takings back had no room; highest pile {highest_pile}"
        )
    }
}

/// One undo list of the pile, and the plain form of the tuple that its update was given.
struct Laid {
    list: Vec<u8>,
    plain: Vec<u8>,
}

pub struct Sequence {
    tuple: Vec<u8>,
    pile: Vec<Laid>,
}

impl Sequence {
    /// A sequence's start: any tuple that 11 does not refuse, and an empty pile.
    pub fn from(tuple: &[u8], c: &mut Comparison) -> Option<Sequence> {
        updates::fields(tuple)?;
        c.sequences.sequences += 1;
        Some(Sequence { tuple: tuple.to_vec(), pile: Vec::new() })
    }

    /// An update of the sequence's tuple. It goes in where it answers 0 and its undo list is within the limits.
    pub fn update(&mut self, c: &mut Comparison, list: &[u8], base: u64, room: usize) -> Result<(), Difference> {
        let change = Change { tuple: self.tuple.clone(), list: list.to_vec(), base, room };
        let answer = c.same(&Case::Update(change.clone()))?;
        let (0, Ok(list)) = (answer.number(), updates::undo(&self.tuple, list, base)) else {
            c.sequences.stayed_out += 1;
            return Ok(());
        };
        // The claim on the undo call of an update that went in, with just enough room.
        let undone = c.same(&Case::Undo(Change { room: list.len(), ..change.clone() }))?;
        hold(undone.number() == 0 && undone.written() == list, "the undo call wrote another list", &change, &undone)?;
        self.go_in(c, list, answer.written());
        Ok(())
    }

    /// A press of the sequence's tuple: it goes in exactly where the answer is 0.
    pub fn press(
        &mut self,
        c: &mut Comparison,
        list: &[u8],
        base: u64,
        room: usize,
        undo_room: usize,
    ) -> Result<(), Difference> {
        let change = Change { tuple: self.tuple.clone(), list: list.to_vec(), base, room };
        let answer = c.same(&Case::Press { change, undo_room })?;
        if answer.number() != 0 {
            c.sequences.stayed_out += 1;
            return Ok(());
        }
        self.go_in(c, answer.undo_written().to_vec(), answer.written());
        c.sequences.pressed += 1;
        Ok(())
    }

    /// The new tuple is the sequence's, and the undo list lies on the pile.
    fn go_in(&mut self, c: &mut Comparison, list: Vec<u8>, tuple: &[u8]) {
        let fields = updates::fields(&self.tuple).expect("the sequence's tuple is one");
        self.pile.push(Laid { list, plain: updates::plain(&fields) });
        self.tuple = tuple.to_vec();
        c.sequences.went_in += 1;
        c.sequences.highest_pile = c.sequences.highest_pile.max(self.pile.len());
    }

    /// A taking back by the pile's top list, with a room chosen for the length of the plain form. With enough room it
    /// answers 0 and writes exactly that form.
    pub fn take_back(&mut self, c: &mut Comparison, room: impl FnOnce(usize) -> usize) -> Result<(), Difference> {
        let Some(top) = self.pile.last() else { return Ok(()) };
        let room = room(top.plain.len());
        let change = Change { tuple: self.tuple.clone(), list: top.list.clone(), base: 0, room };
        let answer = c.same(&Case::Update(change.clone()))?;
        let is_back = answer.number() == 0 && answer.written() == top.plain;
        hold(is_back || room < top.plain.len(), "a taking back did not give the plain form", &change, &answer)?;
        if answer.number() != 0 {
            c.sequences.refused_back += 1;
            return Ok(());
        }
        self.tuple = answer.written().to_vec();
        self.pile.pop();
        c.sequences.taken_back += 1;
        Ok(())
    }
}

fn hold(claim: bool, words: &str, change: &Change, outcome: &Outcome) -> Result<(), Difference> {
    match claim {
        true => Ok(()),
        false => Err(Difference(format!("{words}\n{change}\n{outcome}"))),
    }
}

/// A random sequence: mostly updates, mostly takings back, or both in any order; then as many takings back as are left.
pub fn run(r: &mut Random, c: &mut Comparison) -> Result<(), Difference> {
    let Change { tuple, list, base, .. } = changes::change(r);
    let Some(mut sequence) = Sequence::from(&tuple, c) else { return Ok(()) };
    update(r, c, &mut sequence, &list, base)?;
    let takes_back = r.within(1..=9);
    for _ in 0..if r.one_in(20) { r.below(200) } else { r.below(24) } {
        if r.below(10) < takes_back {
            sequence.take_back(c, |length| room(r, length))?;
            continue;
        }
        let base = changes::base(r);
        let mut list = changes::list(r, &sequence.tuple, base);
        if r.one_in(20) {
            damage(r, &mut list);
        }
        update(r, c, &mut sequence, &list, base)?;
    }
    for _ in 0..sequence.pile.len() {
        sequence.take_back(c, |length| room(r, length))?;
    }
    Ok(())
}

/// An update by the update call and the undo call, or by a press.
fn update(r: &mut Random, c: &mut Comparison, s: &mut Sequence, list: &[u8], base: u64) -> Result<(), Difference> {
    if r.one_in(2) {
        let both = updates::press(&s.tuple, list, base).unwrap_or_default();
        let (tuple_room, undo_room) = (room(r, both.0.len()), room(r, both.1.len()));
        return s.press(c, list, base, tuple_room, undo_room);
    }
    let length = updates::update(&s.tuple, list, base).map_or(0, |bytes| bytes.len());
    s.update(c, list, base, room(r, length))
}
