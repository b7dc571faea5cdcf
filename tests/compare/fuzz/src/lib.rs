//! The comparison as a target for libFuzzer, which looks for inputs that reach new parts of the second implementation.
//! The input's first byte chooses the call, a sequence or a line; the rest is taken apart into what it is given.

use compare::calls::{numbers, places};
use compare::cases::{Case, Change, Feed};
use compare::comparison::{Comparison, Difference};
use compare::sequence::Sequence;
use compare::stream;
use laksubinat::raw;

/// The part of the input that has not been used; past its end there are zeros and empty parts.
struct Input<'a>(&'a [u8]);

impl<'a> Input<'a> {
    fn part(&mut self, length: usize) -> &'a [u8] {
        let (part, rest) = self.0.split_at(length.min(self.0.len()));
        self.0 = rest;
        part
    }

    fn byte(&mut self) -> u8 {
        self.part(1).first().copied().unwrap_or(0)
    }

    fn word(&mut self) -> usize {
        usize::from(self.byte()) << 8 | usize::from(self.byte())
    }

    /// A number of which the border values have short inputs.
    fn number(&mut self) -> u64 {
        match self.byte() {
            0xff => u64::MAX - self.byte() as u64,
            0xfe => (1 << 32) - 2 + self.byte() as u64,
            0xfd => 0x8000 + self.word() as u64 % 0x1001,
            small => small.into(),
        }
    }

    fn sized_part(&mut self) -> &'a [u8] {
        let length = self.word();
        self.part(length)
    }
}

fn record(input: &mut Input) -> Case {
    let mut frame = raw::Frame { code: input.number(), ..raw::Frame::default() };
    for (_, number) in numbers(&mut frame) {
        *number = raw::Number { present: input.byte() & 1 == 1, value: input.number() };
    }
    let mut start = 0;
    for (_, place) in places(&mut frame) {
        let length = input.number();
        *place = raw::Place { present: input.byte() & 1 == 1, start, length };
        start = start.wrapping_add(length);
    }
    let room = input.word();
    Case::Write { frame, bytes: input.0.to_vec(), room }
}

fn change(input: &mut Input) -> Change {
    let base = input.byte().into();
    let room = input.word();
    let tuple = input.sized_part().to_vec();
    Change { tuple, list: input.0.to_vec(), base, room }
}

fn sequence(input: &mut Input, comparison: &mut Comparison) -> Result<(), Difference> {
    let Some(mut sequence) = Sequence::from(input.sized_part(), comparison) else { return Ok(()) };
    while !input.0.is_empty() {
        match input.byte() {
            0x80.. => sequence.take_back(comparison, |length| length + usize::from(input.byte()))?,
            0x70.. => sequence.take_back(comparison, |_| input.word())?,
            base @ 0x60.. => {
                let (room, undo_room) = (input.word(), input.word());
                sequence.press(comparison, input.sized_part(), (base - 0x60).into(), room, undo_room)?
            }
            base => sequence.update(comparison, input.sized_part(), base.into(), 16_384)?,
        }
    }
    Ok(())
}

fn feed(input: &mut Input) -> Feed {
    let (offset, held, refused) = (input.number(), input.number(), input.byte().into());
    let place = raw::Number { present: input.byte() & 1 == 1, value: input.number() };
    let session = raw::Session { offset, held, refused, place };
    let room = 60_000 + usize::from(input.byte());
    let begun = input.sized_part().to_vec();
    Feed { session, begun, piece: input.0.to_vec(), room }
}

/// A line with the lengths of its pieces; the last of these is not 0, so that it ends.
fn line(input: &mut Input, comparison: &mut Comparison) -> Result<(), Difference> {
    let count = usize::from(input.byte() & 7);
    let mut lengths: Vec<usize> = (0..count).map(|_| input.byte().into()).collect();
    lengths.push(1 + input.word());
    stream::cut(comparison, input.0, &lengths)
}

fn compare(mut input: Input) -> Result<(), Difference> {
    let mut comparison = Comparison::of_library();
    let case = match input.byte() {
        0 => Case::Value { bytes: input.0.to_vec() },
        1 => Case::Read { bytes: input.0.to_vec() },
        2 => record(&mut input),
        3 => Case::Update(change(&mut input)),
        4 => Case::Undo(change(&mut input)),
        5 => Case::Feed(feed(&mut input)),
        6 => return line(&mut input, &mut comparison),
        7 => Case::Press { undo_room: input.word(), change: change(&mut input) },
        _ => return sequence(&mut input, &mut comparison),
    };
    comparison.same(&case).map(drop)
}

/// One input of libFuzzer; a difference ends the process, and libFuzzer keeps the input.
///
/// # Safety
/// `data` and `size` are those of a slice.
#[no_mangle]
pub unsafe extern "C" fn LLVMFuzzerTestOneInput(data: *const u8, size: usize) -> i32 {
    let input = if size == 0 { &[] } else { std::slice::from_raw_parts(data, size) };
    if let Err(difference) = compare(Input(input)) {
        eprintln!("{}", difference.0);
        std::process::abort();
    }
    0
}
