//! Whole lines: bytes cut into pieces and fed until all is taken or a frame refused, by the library, by the reference, and
//! by the crate's own session. However the bytes are cut, what is seen is what reading them uncut shows.

use crate::calls::{Calls, Reference};
use crate::cases::{carried, fed, hex, patterned, Case, GUARD};
use crate::comparison::{Comparison, Difference};
use crate::generate::sessions;
use crate::random::Random;
use crate::reference::sessions::LEAST_CARRY;
use laksubinat::raw::{self, SessionAnswer};
use std::fmt;

/// What happened on the lines of a run.
#[derive(Default)]
pub struct Counts {
    lines: u64,
    feeds: u64,
    in_piece: u64,
    in_carry: u64,
    refused: u64,
    unfinished: u64,
}

impl fmt::Display for Counts {
    fn fmt(&self, f: &mut fmt::Formatter<'_>) -> fmt::Result {
        let Counts { lines, feeds, in_piece, in_carry, refused, unfinished } = self;
        write!(
            f,
            "{lines} lines, {feeds} feeds: {in_piece} frames shown in the piece, {in_carry} in the carry buffer; {refused} \
             lines ended with a refusal, {unfinished} inside a frame"
        )
    }
}

/// A frame that was shown: where it begins, its bytes, its record.
#[derive(Clone, Debug, PartialEq)]
struct Shown {
    offset: u64,
    bytes: Vec<u8>,
    frame: raw::Frame,
}

/// What was seen of a line: its frames, and the refusal with its offset and place.
#[derive(Clone, Debug, Default, PartialEq)]
pub struct Seen {
    frames: Vec<Shown>,
    refusal: Option<(u32, u64, Option<u64>)>,
}

/// What is seen of the bytes uncut, counted from an offset: `frame_read` at the front, again and again.
pub fn uncut(mut bytes: &[u8], mut offset: u64) -> Seen {
    let mut seen = Seen::default();
    loop {
        let read = Reference.frame_read(bytes);
        match read.number {
            0 => {
                let (frame, rest) = bytes.split_at(read.length as usize);
                seen.frames.push(Shown { offset, bytes: frame.to_vec(), frame: read.frame });
                offset = offset.wrapping_add(read.length);
                bytes = rest;
            }
            1 => return seen,
            number => return Seen { refusal: Some((number, offset, read.place.into())), ..seen },
        }
    }
}

/// The line's end: a session, and the carry buffer of the reference and of each library, as the last feed left them.
pub struct End {
    session: raw::Session,
    carries: Vec<Vec<u8>>,
}

impl End {
    /// An opening, over buffers filled with the pattern.
    pub fn open(c: &mut Comparison, room: usize) -> Result<End, Difference> {
        c.same(&Case::Open { room })?;
        let session = Reference.session_open(&patterned(room)).session;
        Ok(End { session, carries: vec![patterned(room); 1 + c.libraries.len()] })
    }

    pub fn reset(&mut self, c: &Comparison) -> Result<(), Difference> {
        self.session = Reference.session_reset();
        match c.libraries.iter().find(|(_, library)| library.session_reset() != self.session) {
            Some((name, library)) => Err(Difference(format!("{name}: a reset gave {:?}", library.session_reset()))),
            None => Ok(()),
        }
    }

    /// A feed by all of them, with so much of the carry buffer: the same answer, and the same bytes in the whole of it.
    pub fn feed(&mut self, c: &mut Comparison, piece: &[u8], room: usize) -> Result<SessionAnswer, Difference> {
        let session = self.session;
        let made = |calls: &dyn Calls, carry: &mut [u8]| calls.session_feed(session, piece, &mut carry[GUARD..GUARD + room]);
        let (reference, others) = self.carries.split_first_mut().expect("the reference's");
        let expected = made(&Reference, reference);
        for ((name, library), carry) in c.libraries.iter().zip(others) {
            let answer = made(*library, carry);
            if answer != expected || carry != reference {
                let words = |answer, carry| format!("{}\ncarry buffer {}", fed(answer), carried(carry));
                let (theirs, ours) = (words(&answer, carry), words(&expected, reference));
                let given = format!("{session:?}\nroom {room}\npiece {}", hex(piece));
                return Err(Difference(format!("session_feed\n{given}\n{name}: {theirs}\nreference: {ours}")));
            }
        }
        c.count(7, expected.number, expected.place);
        c.streams.feeds += 1;
        self.session = expected.session;
        Ok(expected)
    }

    /// Feeds the line, cut so, until all is taken or a frame refused.
    pub fn line(&mut self, c: &mut Comparison, line: &[u8], lengths: &[usize]) -> Result<Seen, Difference> {
        let (mut seen, mut rest) = (Seen::default(), line);
        let room = self.carries[0].len() - 2 * GUARD;
        for length in lengths.iter().cycle() {
            let piece = &rest[..rest.len().min(*length)];
            let answer = self.feed(c, piece, room)?;
            rest = &rest[answer.taken as usize..];
            match answer.number {
                0 => {
                    let from = if answer.in_carry { &self.carries[0][GUARD..] } else { piece };
                    let bytes = from[..answer.length as usize].to_vec();
                    seen.frames.push(Shown { offset: answer.offset, bytes, frame: answer.frame });
                    *(if answer.in_carry { &mut c.streams.in_carry } else { &mut c.streams.in_piece }) += 1;
                }
                1 => {}
                number => {
                    seen.refusal = Some((number, answer.offset, answer.place.into()));
                    break;
                }
            }
            if rest.is_empty() {
                break;
            }
        }
        c.streams.lines += 1;
        c.streams.refused += u64::from(seen.refusal.is_some());
        c.streams.unfinished += u64::from(seen.refusal.is_none() && self.session.held > 0);
        Ok(seen)
    }
}

/// What the crate's own session shows of the line, cut so.
pub fn by_crate(session: &mut laksubinat::Session, line: &[u8], lengths: &[usize]) -> Seen {
    let (mut seen, mut rest) = (Seen::default(), line);
    for length in lengths.iter().cycle() {
        let (piece, after) = rest.split_at(rest.len().min(*length));
        let mut frames = session.feed(piece);
        loop {
            match frames.next() {
                Ok(Some(shown)) => {
                    let bytes = shown.bytes.to_vec();
                    seen.frames.push(Shown { offset: shown.offset, bytes, frame: shown.frame.into() });
                }
                Ok(None) => break,
                Err(error) => {
                    let place = error.place().map(|place| place as u64);
                    let refusal = error.offset().map(|offset| (error.number(), offset, place));
                    return Seen { refusal, ..seen };
                }
            }
        }
        rest = after;
        if rest.is_empty() {
            break;
        }
    }
    seen
}

/// What the crate's session keeps after a line: the begun frame; of a refused one nothing, or the bytes that it starts with.
fn keeps(session: &laksubinat::Session, line: &[u8], seen: &Seen) -> bool {
    let front: usize = seen.frames.iter().map(|shown| shown.bytes.len()).sum();
    let (begun, rest) = (session.begun(), &line[front..]);
    session.offset() == front as u64 && rest.starts_with(begun) && (seen.refusal.is_some() || begun == rest)
}

fn hold(claim: bool, words: &str, line: &[u8], lengths: &[usize]) -> Result<(), Difference> {
    match claim {
        true => Ok(()),
        false => Err(Difference(format!("{words}\nline {}\nlengths {lengths:?}", hex(line)))),
    }
}

/// One line cut so: what its end and the crate's session show is what the uncut bytes show.
pub fn cut(c: &mut Comparison, line: &[u8], lengths: &[usize]) -> Result<(), Difference> {
    let mut end = End::open(c, LEAST_CARRY)?;
    shows_the_same(c, &mut end, &mut laksubinat::Session::new(), line, lengths)
}

fn shows_the_same(
    c: &mut Comparison,
    end: &mut End,
    session: &mut laksubinat::Session,
    line: &[u8],
    lengths: &[usize],
) -> Result<(), Difference> {
    let seen = uncut(line, end.session.offset);
    hold(end.line(c, line, lengths)? == seen, "cut so, the line shows other frames", line, lengths)?;
    let seen = uncut(line, 0);
    hold(by_crate(session, line, lengths) == seen, "the crate's session shows other frames", line, lengths)?;
    hold(keeps(session, line, &seen), "the crate's session keeps other bytes", line, lengths)
}

/// A line in two cuttings, the second after a reset over the same carry buffers.
pub fn run(r: &mut Random, c: &mut Comparison) -> Result<(), Difference> {
    let line = sessions::line(r);
    let mut end = End::open(c, LEAST_CARRY + r.below(30))?;
    let mut session = laksubinat::Session::new();
    for _ in 0..2 {
        end.session.offset = sessions::offset(r);
        let lengths = sessions::cutting(r, line.len());
        shows_the_same(c, &mut end, &mut session, &line, &lengths)?;
        afterwards(r, c, &mut end, &line)?;
        end.reset(c)?;
        session.reset();
    }
    Ok(())
}

/// After a line: a buffer that is too short, and once more some of the line's bytes.
fn afterwards(r: &mut Random, c: &mut Comparison, end: &mut End, line: &[u8]) -> Result<(), Difference> {
    let (short, whole) = (LEAST_CARRY - 1, LEAST_CARRY);
    let piece = &line[..r.below(line.len() + 1).min(50)];
    end.feed(c, piece, short)?;
    end.feed(c, piece, whole)?;
    end.feed(c, piece, short)?;
    end.feed(c, &[], whole).map(drop)
}
