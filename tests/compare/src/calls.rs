//! The calls, as the C interface answers them; and the three that are held against each other.

use crate::reference::values::{self, Meaning, Value};
use crate::reference::{frames, sessions, updates, Refusal};
use laksubinat::raw::{self, Answer, FrameAnswer, PressAnswer, SessionAnswer, SessionOpening, ValueAnswer};
use laksubinat::{Error, Frame};

pub trait Calls {
    fn value_read(&self, bytes: &[u8]) -> ValueAnswer;
    fn frame_read(&self, bytes: &[u8]) -> FrameAnswer;
    fn frame_write(&self, frame: raw::Frame, bytes: &[u8], out: &mut [u8]) -> Answer;
    fn update(&self, tuple: &[u8], list: &[u8], base: u64, out: &mut [u8]) -> Answer;
    fn undo(&self, tuple: &[u8], list: &[u8], base: u64, out: &mut [u8]) -> Answer;
    fn press(&self, tuple: &[u8], list: &[u8], base: u64, out: &mut [u8], undo: &mut [u8]) -> PressAnswer;
    fn session_open(&self, carry: &[u8]) -> SessionOpening;
    fn session_reset(&self) -> raw::Session;
    fn session_feed(&self, session: raw::Session, piece: &[u8], carry: &mut [u8]) -> SessionAnswer;
}

/// The second implementation.
pub struct Reference;

/// The static library through its C interface.
pub struct Interface;

/// The static library through the crate's safe functions.
pub struct Bindings;

impl Calls for Reference {
    fn value_read(&self, bytes: &[u8]) -> ValueAnswer {
        match values::read(bytes, 16) {
            Err(place) => ValueAnswer { number: 4, place: placed(Some(place)), ..ValueAnswer::default() },
            Ok(value) => value_answer(&value),
        }
    }

    fn frame_read(&self, bytes: &[u8]) -> FrameAnswer {
        match frames::read(bytes) {
            Ok((record, length)) => {
                FrameAnswer { length: length as u64, frame: frame_of(&record), ..FrameAnswer::default() }
            }
            Err(Refusal { number, place, .. }) => FrameAnswer { number, place: placed(place), ..FrameAnswer::default() },
        }
    }

    fn frame_write(&self, frame: raw::Frame, bytes: &[u8], out: &mut [u8]) -> Answer {
        deliver(frames::write(&record_of(frame), bytes).map_err(Refusal::from), out)
    }

    fn update(&self, tuple: &[u8], list: &[u8], base: u64, out: &mut [u8]) -> Answer {
        deliver(updates::update(tuple, list, base), out)
    }

    fn undo(&self, tuple: &[u8], list: &[u8], base: u64, out: &mut [u8]) -> Answer {
        deliver(updates::undo(tuple, list, base), out)
    }

    fn press(&self, tuple: &[u8], list: &[u8], base: u64, out: &mut [u8], undo: &mut [u8]) -> PressAnswer {
        deliver_both(updates::press(tuple, list, base), out, undo)
    }

    fn session_open(&self, carry: &[u8]) -> SessionOpening {
        SessionOpening { number: sessions::open(carry), session: self.session_reset() }
    }

    fn session_reset(&self) -> raw::Session {
        left(sessions::Session::default())
    }

    fn session_feed(&self, session: raw::Session, piece: &[u8], carry: &mut [u8]) -> SessionAnswer {
        let raw::Session { offset, held, refused, place } = session;
        let place = (place.present, place.value);
        let fed = sessions::feed(sessions::Session { offset, held, refused, place }, piece, carry);
        let (frame, length) = fed.frame.map_or_else(Default::default, |(record, length)| (frame_of(&record), length));
        SessionAnswer {
            number: fed.number,
            in_carry: fed.in_carry,
            taken: fed.taken as u64,
            offset: fed.offset,
            length: length as u64,
            frame,
            session: left(fed.session),
            place: handed(fed.place),
        }
    }
}

fn left(session: sessions::Session) -> raw::Session {
    let sessions::Session { offset, held, refused, place } = session;
    raw::Session { offset, held, refused, place: handed(place) }
}

fn handed((present, value): sessions::Place) -> raw::Number {
    raw::Number { present, value }
}

fn placed(place: Option<usize>) -> raw::Number {
    place.map(|place| place as u64).into()
}

/// Writes the bytes into the lent buffer; 18 where it is too short.
fn deliver(result: Result<Vec<u8>, Refusal>, out: &mut [u8]) -> Answer {
    let refused = |Refusal { number, operation, place }| Answer { number, operation, length: 0, place: placed(place) };
    match result {
        Err(refusal) => refused(refusal),
        Ok(bytes) if bytes.len() > out.len() => refused(18.into()),
        Ok(bytes) => {
            out[..bytes.len()].copy_from_slice(&bytes);
            Answer { length: bytes.len() as u64, ..Answer::default() }
        }
    }
}

/// Writes both or neither; 18 where either buffer is too short.
fn deliver_both(result: Result<(Vec<u8>, Vec<u8>), Refusal>, out: &mut [u8], undo: &mut [u8]) -> PressAnswer {
    let refused = |Refusal { number, operation, place }| {
        let place = placed(place);
        PressAnswer { number, operation, place, ..PressAnswer::default() }
    };
    match result {
        Err(refusal) => refused(refusal),
        Ok((new, back)) if new.len() > out.len() || back.len() > undo.len() => refused(18.into()),
        Ok((new, back)) => {
            out[..new.len()].copy_from_slice(&new);
            undo[..back.len()].copy_from_slice(&back);
            PressAnswer { length: new.len() as u64, undo_length: back.len() as u64, ..PressAnswer::default() }
        }
    }
}

fn value_answer(value: &Value) -> ValueAnswer {
    let scalar = |kind, bits| ValueAnswer { kind, bits, ..ValueAnswer::default() };
    let part = |kind, part: &[u8]| ValueAnswer {
        kind,
        start: Value::start_of(part, value.bytes) as u64,
        size: part.len() as u64,
        ..ValueAnswer::default()
    };
    let answer = match value.meaning {
        Meaning::Nil => scalar(0, 0),
        Meaning::Boolean(truth) => scalar(1, truth.into()),
        Meaning::Integer(n) if n >= 0 => scalar(2, n as u64),
        Meaning::Integer(n) => scalar(3, n as u64),
        Meaning::Float32(bits) => scalar(4, bits.into()),
        Meaning::Float64(bits) => scalar(5, bits),
        Meaning::String(content) => part(6, content),
        Meaning::Bin(content) => part(7, content),
        Meaning::Ext(ext_type, content) => ValueAnswer { ext_type, ..part(8, content) },
        Meaning::Array(_) => part(9, value.bytes),
        Meaning::Map(_) => part(10, value.bytes),
    };
    ValueAnswer { length: value.bytes.len() as u64, ..answer }
}

/// A record's numbers by their keys in header and body.
pub fn numbers(frame: &mut raw::Frame) -> [(u8, &mut raw::Number); 8] {
    [
        (0x01, &mut frame.sync),
        (0x05, &mut frame.schema_version),
        (0x10, &mut frame.space),
        (0x11, &mut frame.index),
        (0x12, &mut frame.limit),
        (0x13, &mut frame.offset),
        (0x14, &mut frame.iterator),
        (0x15, &mut frame.index_base),
    ]
}

/// A record's places by their body keys.
pub fn places(frame: &mut raw::Frame) -> [(u8, &mut raw::Place); 8] {
    [
        (0x20, &mut frame.key),
        (0x21, &mut frame.tuple),
        (0x22, &mut frame.function),
        (0x23, &mut frame.user),
        (0x27, &mut frame.expression),
        (0x28, &mut frame.ops),
        (0x30, &mut frame.data),
        (0x31, &mut frame.error),
    ]
}

fn frame_of(record: &frames::Record) -> raw::Frame {
    let mut frame = raw::Frame { code: record.code, ..raw::Frame::default() };
    for (key, number) in numbers(&mut frame) {
        *number = record.numbers.get(&key).copied().into();
    }
    for (key, place) in places(&mut frame) {
        if let Some(&(start, length)) = record.places.get(&key) {
            *place = raw::Place { present: true, start, length };
        }
    }
    frame
}

fn record_of(mut frame: raw::Frame) -> frames::Record {
    let numbers = numbers(&mut frame).into_iter().filter(|(_, number)| number.present);
    let numbers = numbers.map(|(key, number)| (key, number.value)).collect();
    let places = places(&mut frame).into_iter().filter(|(_, place)| place.present);
    let places = places.map(|(key, place)| (key, (place.start, place.length))).collect();
    frames::Record { code: frame.code, numbers, places }
}

// SAFETY of all: each pointer and length are those of a slice, as the interface asks.
impl Calls for Interface {
    fn value_read(&self, bytes: &[u8]) -> ValueAnswer {
        unsafe { raw::lak_value_read(bytes.as_ptr(), bytes.len()) }
    }

    fn frame_read(&self, bytes: &[u8]) -> FrameAnswer {
        unsafe { raw::lak_frame_read(bytes.as_ptr(), bytes.len()) }
    }

    fn frame_write(&self, frame: raw::Frame, bytes: &[u8], out: &mut [u8]) -> Answer {
        unsafe { raw::lak_frame_write(frame, bytes.as_ptr(), bytes.len(), out.as_mut_ptr(), out.len()) }
    }

    fn update(&self, tuple: &[u8], list: &[u8], base: u64, out: &mut [u8]) -> Answer {
        let (n, m) = (tuple.len(), list.len());
        unsafe { raw::lak_update(tuple.as_ptr(), n, list.as_ptr(), m, base, out.as_mut_ptr(), out.len()) }
    }

    fn undo(&self, tuple: &[u8], list: &[u8], base: u64, out: &mut [u8]) -> Answer {
        let (n, m) = (tuple.len(), list.len());
        unsafe { raw::lak_undo(tuple.as_ptr(), n, list.as_ptr(), m, base, out.as_mut_ptr(), out.len()) }
    }

    fn press(&self, tuple: &[u8], list: &[u8], base: u64, out: &mut [u8], undo: &mut [u8]) -> PressAnswer {
        let (n, m, room, undo_room) = (tuple.len(), list.len(), out.len(), undo.len());
        let (out, undo) = (out.as_mut_ptr(), undo.as_mut_ptr());
        unsafe { raw::lak_press(tuple.as_ptr(), n, list.as_ptr(), m, base, out, room, undo, undo_room) }
    }

    fn session_open(&self, carry: &[u8]) -> SessionOpening {
        unsafe { raw::lak_session_open(carry.as_ptr(), carry.len()) }
    }

    fn session_reset(&self) -> raw::Session {
        unsafe { raw::lak_session_reset() }
    }

    fn session_feed(&self, session: raw::Session, piece: &[u8], carry: &mut [u8]) -> SessionAnswer {
        unsafe { raw::lak_session_feed(session, piece.as_ptr(), piece.len(), carry.as_mut_ptr(), carry.len()) }
    }
}

impl Calls for Bindings {
    fn value_read(&self, bytes: &[u8]) -> ValueAnswer {
        match laksubinat::read_value(bytes) {
            Ok((value, length)) => ValueAnswer { length: length as u64, ..bound_value(value, bytes) },
            Err(error) => ValueAnswer { number: error.number(), place: placed(error.place()), ..ValueAnswer::default() },
        }
    }

    fn frame_read(&self, bytes: &[u8]) -> FrameAnswer {
        match laksubinat::read_frame(bytes) {
            Ok((frame, length)) => FrameAnswer { length: length as u64, frame: frame.into(), ..FrameAnswer::default() },
            Err(error) => FrameAnswer { number: error.number(), place: placed(error.place()), ..FrameAnswer::default() },
        }
    }

    fn frame_write(&self, frame: raw::Frame, bytes: &[u8], out: &mut [u8]) -> Answer {
        bound(laksubinat::write_frame(&Frame::from(frame), bytes, out))
    }

    fn update(&self, tuple: &[u8], list: &[u8], base: u64, out: &mut [u8]) -> Answer {
        bound(laksubinat::update(tuple, list, base, out))
    }

    fn undo(&self, tuple: &[u8], list: &[u8], base: u64, out: &mut [u8]) -> Answer {
        bound(laksubinat::undo(tuple, list, base, out))
    }

    fn press(&self, tuple: &[u8], list: &[u8], base: u64, out: &mut [u8], undo: &mut [u8]) -> PressAnswer {
        let pressed = laksubinat::press(tuple, list, base, out, undo);
        let Answer { number, operation, length, place } = bound(pressed.map(|(length, _)| length));
        PressAnswer { number, operation, length, undo_length: pressed.map_or(0, |(_, length)| length as u64), place }
    }

    // The crate's session owns its carry buffer and takes no other: `stream` compares it, and here is the interface.
    fn session_open(&self, carry: &[u8]) -> SessionOpening {
        Interface.session_open(carry)
    }

    fn session_reset(&self) -> raw::Session {
        Interface.session_reset()
    }

    fn session_feed(&self, session: raw::Session, piece: &[u8], carry: &mut [u8]) -> SessionAnswer {
        Interface.session_feed(session, piece, carry)
    }
}

fn bound(result: Result<usize, Error>) -> Answer {
    match result {
        Ok(length) => Answer { length: length as u64, ..Answer::default() },
        Err(error) => {
            let operation = error.operation().unwrap_or(0) as u32;
            Answer { number: error.number(), operation, length: 0, place: placed(error.place()) }
        }
    }
}

fn bound_value(value: laksubinat::Value, bytes: &[u8]) -> ValueAnswer {
    use laksubinat::Value as V;
    let scalar = |kind, bits| ValueAnswer { kind, bits, ..ValueAnswer::default() };
    let part = |kind, part: &[u8]| ValueAnswer {
        start: Value::start_of(part, bytes) as u64,
        size: part.len() as u64,
        ..scalar(kind, 0)
    };
    match value {
        V::Nil => scalar(0, 0),
        V::Boolean(truth) => scalar(1, truth.into()),
        V::Unsigned(n) => scalar(2, n),
        V::Negative(n) => scalar(3, n as u64),
        V::Float32(float) => scalar(4, float.to_bits().into()),
        V::Float64(float) => scalar(5, float.to_bits()),
        V::String(content) => part(6, content),
        V::Bin(content) => part(7, content),
        V::Ext(kind, content) => ValueAnswer { ext_type: kind as u8, ..part(8, content) },
        V::Array(content) => part(9, content),
        V::Map(content) => part(10, content),
    }
}
