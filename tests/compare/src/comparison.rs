//! The comparison: rounds of random cases, each made with the library, by both its interfaces, and with the reference.

use crate::calls::{self, Bindings, Calls, Interface, Reference};
use crate::cases::{shrink, Case, Change, Outcome, Reply, CALLS, MOST_ROOM};
use crate::generate::{changes, frames, room, sessions, values};
use crate::random::Random;
use crate::{sequence, stream};
use laksubinat::raw;
use std::fmt;

/// How often each call gave each number, 0 for accepted.
pub type Counts = [[u64; 20]; 8];

/// The numbers that each call can give.
const NUMBERS: [&[usize]; 8] = [
    &[0, 4],
    &[0, 1, 2, 3, 4, 5, 6, 7, 8, 9, 10],
    &[0, 3, 4, 8, 9, 10, 18],
    &[0, 11, 12, 13, 14, 15, 16, 18],
    &[0, 11, 12, 13, 14, 15, 16, 17, 18],
    &[0, 11, 12, 13, 14, 15, 16, 17, 18],
    &[0, 19],
    &[0, 1, 2, 3, 4, 5, 6, 7, 8, 9, 10, 19],
];

/// The numbers beside which each call gives a place; those that it gives without one too.
const PLACED: [(&[usize], &[usize]); 8] =
    [(&[4], &[]), (&[4], &[]), (&[], &[4]), CHANGES, CHANGES, CHANGES, (&[], &[]), (&[4], &[])];
const CHANGES: (&[usize], &[usize]) = (&[11, 12], &[11, 12]);

/// What a library did otherwise than it should.
pub struct Difference(pub String);

/// The libraries that are held to the reference, and what was counted.
pub struct Comparison<'a> {
    pub libraries: Vec<(&'a str, &'a dyn Calls)>,
    pub counts: Counts,
    /// Those of them that had a place.
    pub placed: Counts,
    pub sequences: sequence::Counts,
    pub streams: stream::Counts,
}

impl Comparison<'static> {
    /// The static library, through its C interface and through the crate's safe functions.
    pub fn of_library() -> Self {
        Comparison::of(vec![("C interface", &Interface), ("safe functions", &Bindings)])
    }
}

impl<'a> Comparison<'a> {
    pub fn of(libraries: Vec<(&'a str, &'a dyn Calls)>) -> Self {
        let (counts, placed) = Default::default();
        Comparison { libraries, counts, placed, sequences: Default::default(), streams: Default::default() }
    }

    /// One round: a few cases of one kind, chosen by seed and round alone.
    pub fn round(&mut self, seed: u64, round: u64) -> Result<(), Difference> {
        let r = &mut Random::of_round(seed, round);
        match r.below(13) {
            0 => self.same(&Case::Value { bytes: values::lent(r) }).map(drop),
            1..=3 => self.same(&Case::Read { bytes: frames::lent(r) }).map(drop),
            4 | 5 => self.write(r),
            6..=8 => {
                let change = changes::change(r);
                self.roomy(r, Case::Undo(change.clone()))?;
                self.roomy(r, Case::Update(change.clone()))?;
                self.roomy(r, Case::Press { change, undo_room: 0 }).map(drop)
            }
            9 => sequence::run(r, self),
            10 => self.same(&Case::Open { room: sessions::room(r) }).map(drop),
            11 => self.same(&Case::Feed(sessions::feed(r))).map(drop),
            _ => stream::run(r, self),
        }
    }

    /// Makes the call with every library; the answer and the whole buffer must be the reference's.
    pub fn same(&mut self, case: &Case) -> Result<Outcome, Difference> {
        let expected = case.run(&Reference);
        for (name, library) in &self.libraries {
            if case.run(*library) != expected {
                return Err(Difference::between(case, name, *library));
            }
        }
        self.count(case.call(), expected.number(), expected.place());
        Ok(expected)
    }

    /// A forged session may repeat any number; those that a call can give are counted.
    pub fn count(&mut self, call: usize, number: u32, place: raw::Number) {
        let number = number as usize;
        if let (Some(count), Some(placed)) = (self.counts[call].get_mut(number), self.placed[call].get_mut(number)) {
            *count += 1;
            *placed += u64::from(place.present);
        }
    }

    /// The same with a room near the length of what is to be written; of a press, for both that it writes.
    pub fn roomy(&mut self, r: &mut Random, mut case: Case) -> Result<Outcome, Difference> {
        let wide = with_room(&mut case, MOST_ROOM, MOST_ROOM).run(&Reference);
        let (tuple_room, undo_room) = (room(r, wide.length()), room(r, wide.undo_length()));
        self.same(with_room(&mut case, tuple_room, undo_room))
    }

    /// Writes a record; what was written is read as the same, and written again identically.
    fn write(&mut self, r: &mut Random) -> Result<(), Difference> {
        let case = frames::record(r);
        let outcome = self.roomy(r, case.clone())?;
        if outcome.number() != 0 {
            return Ok(());
        }
        let Case::Write { frame, bytes, .. } = case else { return Ok(()) };
        let written = outcome.written().to_vec();
        let Reply::Read(read) = self.same(&Case::Read { bytes: written.clone() })?.reply else { return Ok(()) };
        if read.number != 0 || Seen::of(read.frame, &written) != Seen::of(frame, &bytes) {
            return Err(Difference(format!("read back otherwise than written: {read:?}\nwritten from {frame:?}")));
        }
        let again = self.same(&Case::Write { frame: read.frame, bytes: written.clone(), room: written.len() })?;
        match again.written() == written {
            true => Ok(()),
            false => Err(Difference(format!("written again otherwise: {again}\nwritten from {frame:?}"))),
        }
    }

    /// The calls and numbers that can be given and were not; also with a place, and without one.
    pub fn missing(&self) -> Vec<String> {
        let mut missing = Vec::new();
        for (call, (given, (placed, bare))) in NUMBERS.iter().zip(PLACED).enumerate() {
            let (all, with) = (self.counts[call], self.placed[call]);
            let mut never = |numbers: &[usize], words: &str, count: &dyn Fn(usize) -> u64| {
                let none = numbers.iter().filter(|number| count(**number) == 0);
                missing.extend(none.map(|number| format!("{} never gave {number}{words}", CALLS[call])));
            };
            never(given, "", &|number| all[number]);
            never(placed, " with a place", &|number| with[number]);
            never(bare, " without a place", &|number| all[number] - with[number]);
        }
        missing
    }
}

/// What a record shows: its numbers, and the bytes of each view. Absent ones show nothing, whatever they hold.
#[derive(PartialEq)]
struct Seen {
    code: u64,
    numbers: Vec<Option<u64>>,
    views: Vec<Option<Vec<u8>>>,
}

impl Seen {
    fn of(mut frame: raw::Frame, bytes: &[u8]) -> Seen {
        let view = |place: raw::Place| bytes[place.start as usize..(place.start + place.length) as usize].to_vec();
        Seen {
            code: frame.code,
            numbers: calls::numbers(&mut frame).map(|(_, number)| (*number).into()).to_vec(),
            views: calls::places(&mut frame).map(|(_, place)| place.present.then(|| view(*place))).to_vec(),
        }
    }
}

fn with_room(case: &mut Case, wanted: usize, wanted_undo: usize) -> &Case {
    match case {
        Case::Value { .. } | Case::Read { .. } => {}
        Case::Open { .. } | Case::Feed(_) => {}
        Case::Write { room, .. } | Case::Update(Change { room, .. }) | Case::Undo(Change { room, .. }) => *room = wanted,
        Case::Press { change, undo_room } => (change.room, *undo_room) = (wanted, wanted_undo),
    }
    case
}

impl Difference {
    /// The smallest case found on which the two still differ and the reference still gives the same number.
    fn between(case: &Case, name: &str, library: &dyn Calls) -> Difference {
        let number = case.run(&Reference).number();
        let case = shrink(case, |case| {
            let expected = case.run(&Reference);
            expected.number() == number && case.run(library) != expected
        });
        Difference(format!("{case}\n{name}: {}\nreference: {}", case.run(library), case.run(&Reference)))
    }
}

impl fmt::Display for Comparison<'_> {
    fn fmt(&self, f: &mut fmt::Formatter<'_>) -> fmt::Result {
        write!(f, "{:12}", "number")?;
        CALLS.iter().try_for_each(|call| write!(f, "{call:>13}"))?;
        for number in 0..20 {
            write!(f, "\n{number:<12}")?;
            for (call, numbers) in NUMBERS.iter().enumerate() {
                match numbers.contains(&number) {
                    true => write!(f, "{:>13}", self.counts[call][number])?,
                    false => write!(f, "{:>13}", "")?,
                }
            }
        }
        for (call, (placed, _)) in PLACED.iter().enumerate() {
            for number in placed.iter() {
                let (with, all) = (self.placed[call][*number], self.counts[call][*number]);
                write!(f, "\n{}: {with} of {all} answers {number} had a place", CALLS[call])?;
            }
        }
        write!(f, "\n{}\n{}", self.sequences, self.streams)
    }
}
