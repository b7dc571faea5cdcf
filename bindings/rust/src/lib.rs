//! Tarantool frames read and written, frames taken as a line delivers them, tuples updated, and the undo lists of those
//! updates: safe functions over the static library `liblaksubinat.a`, whose every call is proved to end and answer on
//! all input.
//!
//! Slices go in; enums, structs and lengths come out. A refusal is an [`Error`] with its number and, where a value broke,
//! its place, and leaves every byte of the lent buffers as it was. After an accepted call, bytes past the written length
//! are unchanged. The functions keep nothing between calls and allocate nothing, so any thread may call; the deepest,
//! [`undo`] and [`press`], take 121 KB of stack. A [`Session`] is fed bytes as they come, and keeps a frame that is begun
//! in a buffer of its own.
//!
//! A press arrives: `^` with 1 on field 0. [`press`] writes the new tuple and the list that takes it back, and an update
//! with that list gives the old bytes again:
//!
//! ```
//! # fn main() -> Result<(), laksubinat::Error> {
//! let tuple = [0x93, 0x05, 0xa2, b'a', b'b', 0xc3]; // [5, "ab", true]
//! let list = [0x91, 0x93, 0xa1, b'^', 0x00, 0x01]; // [["^", 0, 1]]
//!
//! let mut after = [0; laksubinat::TUPLE_ROOM];
//! let mut back = [0; laksubinat::UNDO_ROOM];
//! let (n, m) = laksubinat::press(&tuple, &list, 0, &mut after, &mut back)?;
//! assert_eq!(after[..n], [0x93, 0x04, 0xa2, b'a', b'b', 0xc3]);
//! assert_eq!(back[..m], [0x91, 0x93, 0xa1, b'=', 0x00, 0x05]);
//!
//! let mut again = [0; laksubinat::TUPLE_ROOM];
//! let n = laksubinat::update(&after[..n], &back[..m], 0, &mut again)?;
//! assert_eq!(again[..n], tuple);
//! # Ok(())
//! # }
//! ```

#![deny(missing_docs)]

mod error;
mod frame;
pub mod raw;
mod session;
mod value;

pub use error::Error;
pub use frame::{Frame, Kind, Place};
pub use session::{Frames, Session, Shown};
pub use value::Value;

/// The longest that [`write_frame`] writes: a buffer of this length is never refused with 18.
pub const FRAME_ROOM: usize = 60_005;
/// The longest tuple that [`update`] and [`press`] write.
pub const TUPLE_ROOM: usize = 16_384;
/// The longest list that [`undo`] and [`press`] write.
pub const UNDO_ROOM: usize = 32_768;
/// The longest frame that is read, nine bytes of size number and 60,000: a [`Session`]'s carry buffer has this length.
pub const CARRY_ROOM: usize = 60_009;

/// Reads the value at the start of the bytes: what it means, and how many bytes it has.
///
/// A value is held to depth 16, and nothing past its end is judged. Refused with 4, and [where](Error::place) it broke.
///
/// ```
/// use laksubinat::{read_value, Value};
///
/// assert_eq!(read_value(&[0xcd, 0x02, 0x00]), Ok((Value::Unsigned(512), 3)));
/// assert_eq!(read_value(&[0xa2, b'a', b'b', 0xff]), Ok((Value::String(b"ab"), 3)));
/// assert_eq!(read_value(&[0xd5, 0xff, 1, 2]), Ok((Value::Ext(-1, &[1, 2]), 4)));
///
/// let error = read_value(&[0x92, 0x05, 0xa3, b'a', b'b']).unwrap_err(); // a string of three bytes, cut
/// assert_eq!((error.number(), error.place()), (4, Some(5)));
/// ```
pub fn read_value(bytes: &[u8]) -> Result<(Value<'_>, usize), Error> {
    // SAFETY: pointer and length are those of a slice; the call reads within them.
    let answer = unsafe { raw::lak_value_read(bytes.as_ptr(), bytes.len()) };
    match answer.number {
        0 => Ok((Value::of(&answer, bytes), answer.length as usize)),
        number => Err(Error::new(number, 0, answer.place)),
    }
}

/// Reads the frame at the start of the bytes: its record, and how many bytes it has.
///
/// Nothing after the frame is judged. Refused with 2, 1, 3, 1 again for missing contents, then 4 to 10; a frame that is
/// not all there yet is 1.
///
/// ```
/// use laksubinat::{read_frame, Kind};
///
/// # fn main() -> Result<(), laksubinat::Error> {
/// let bytes = [0x08, 0x82, 0x00, 0x02, 0x01, 0x04, 0x82, 0x10, 0x07]; // an insert, cut short
/// assert_eq!(read_frame(&bytes[..5]).unwrap_err().number(), 1);
///
/// let bytes = [0x0b, 0x82, 0x00, 0x02, 0x01, 0x04, 0x82, 0x10, 0x07, 0x21, 0x91, 0x2a];
/// let (frame, length) = read_frame(&bytes)?;
/// assert_eq!(length, 12);
/// assert_eq!(frame.kind(), Some(Kind::Insert));
/// assert_eq!((frame.sync, frame.space, frame.limit), (Some(4), Some(7), None));
/// assert_eq!(frame.tuple.and_then(|place| place.view(&bytes)), Some(&[0x91, 0x2a][..]));
/// # Ok(())
/// # }
/// ```
pub fn read_frame(bytes: &[u8]) -> Result<(Frame, usize), Error> {
    // SAFETY: pointer and length are those of a slice; the call reads within them.
    let answer = unsafe { raw::lak_frame_read(bytes.as_ptr(), bytes.len()) };
    match answer.number {
        0 => Ok((answer.frame.into(), answer.length as usize)),
        number => Err(Error::new(number, 0, answer.place)),
    }
}

/// Writes a frame from its record and the bytes that its places refer to; answers how many bytes were written.
///
/// Refused with 8, 4 (a place that is outside the bytes, not one whole value, or deeper than 15), 9, 10, 3, 18.
///
/// ```
/// use laksubinat::{write_frame, Frame};
///
/// # fn main() -> Result<(), laksubinat::Error> {
/// let tuple = [0x91, 0x2a]; // [42]
/// let insert = Frame { code: 0x02, sync: Some(4), space: Some(512), tuple: Some((0..2).into()), ..Frame::default() };
/// let mut out = [0; 64];
/// let n = write_frame(&insert, &tuple, &mut out)?;
/// assert_eq!(
///     out[..n],
///     [0xce, 0, 0, 0, 13, 0x82, 0x00, 0x02, 0x01, 0x04, 0x82, 0x10, 0xcd, 0x02, 0x00, 0x21, 0x91, 0x2a]
/// );
/// assert_eq!(write_frame(&insert, &tuple, &mut out[..10]).unwrap_err().number(), 18);
/// # Ok(())
/// # }
/// ```
pub fn write_frame(frame: &Frame, bytes: &[u8], out: &mut [u8]) -> Result<usize, Error> {
    // SAFETY: each pointer and length are those of a slice; the call stays within them, and `out` is lent to it alone.
    written(unsafe { raw::lak_frame_write((*frame).into(), bytes.as_ptr(), bytes.len(), out.as_mut_ptr(), out.len()) })
}

/// Writes the tuple that the list makes of a tuple; answers how many bytes were written, at most [`TUPLE_ROOM`].
///
/// Field numbers and splice positions of the list count from the index base, 0 or 1. Refused with 11, 12, then for each
/// operation 13 to 16, then 18.
///
/// ```
/// # fn main() -> Result<(), laksubinat::Error> {
/// let tuple = [0x91, 0xa3, b'a', b'b', b'c']; // ["abc"]
/// let splice = [0x91, 0x95, 0xa1, b':', 0x00, 0x01, 0x01, 0xa2, b'X', b'Y']; // [[":", 0, 1, 1, "XY"]]
/// let mut out = [0; laksubinat::TUPLE_ROOM];
/// let n = laksubinat::update(&tuple, &splice, 0, &mut out)?;
/// assert_eq!(out[..n], [0x91, 0xa4, b'a', b'X', b'Y', b'c']);
///
/// let error = laksubinat::update(&[0x90], &splice, 0, &mut out).unwrap_err();
/// assert_eq!((error.number(), error.operation()), (13, Some(0)));
/// # Ok(())
/// # }
/// ```
pub fn update(tuple: &[u8], list: &[u8], index_base: u64, out: &mut [u8]) -> Result<usize, Error> {
    changed(raw::lak_update, tuple, list, index_base, out)
}

/// Writes the undo list of an update with the same tuple, list and index base; answers how many bytes were written, at
/// most [`UNDO_ROOM`].
///
/// An update of the new tuple with this list, index base 0, gives the old tuple back, with the shortest array header.
/// Refused like [`update`], and with 17 before 18.
///
/// ```
/// # fn main() -> Result<(), laksubinat::Error> {
/// let tuple = [0x93, 0x01, 0x02, 0x03]; // [1, 2, 3]
/// let cut = [0x91, 0x93, 0xa1, b'#', 0x01, 0x05]; // [["#", 1, 5]]
/// let mut out = [0; laksubinat::UNDO_ROOM];
/// let n = laksubinat::undo(&tuple, &cut, 0, &mut out)?;
/// // [["!", 1, 3], ["!", 1, 2]]
/// assert_eq!(out[..n], [0x92, 0x93, 0xa1, b'!', 0x01, 0x03, 0x93, 0xa1, b'!', 0x01, 0x02]);
/// # Ok(())
/// # }
/// ```
pub fn undo(tuple: &[u8], list: &[u8], index_base: u64, out: &mut [u8]) -> Result<usize, Error> {
    changed(raw::lak_undo, tuple, list, index_base, out)
}

/// Writes both in one run, for a box that keeps the undo list of each press: the tuple that [`update`] writes into `out`,
/// and the list that [`undo`] writes into `undo`; answers how many bytes each has.
///
/// A press goes in whole or not at all: refused, neither buffer is changed. Refused with 11, 12, then for each operation 13
/// to 16, then 17, then 18 where either buffer is too short.
///
/// ```
/// # fn main() -> Result<(), laksubinat::Error> {
/// let tuple = [0x92, 0x01, 0x02]; // [1, 2]
/// let list = [0x91, 0x93, 0xa1, b'#', 0x01, 0x01]; // [["#", 1, 1]]
/// let (mut out, mut undo) = ([0; laksubinat::TUPLE_ROOM], [0; laksubinat::UNDO_ROOM]);
/// let (n, m) = laksubinat::press(&tuple, &list, 0, &mut out, &mut undo)?;
/// assert_eq!(out[..n], [0x91, 0x01]);
/// assert_eq!(undo[..m], [0x91, 0x93, 0xa1, b'!', 0x01, 0x02]); // [["!", 1, 2]]
///
/// let mut short = [0; 5]; // one byte too few for the undo list
/// let mut kept = [7; laksubinat::TUPLE_ROOM];
/// let error = laksubinat::press(&tuple, &list, 0, &mut kept, &mut short).unwrap_err();
/// assert_eq!((error.number(), kept[0]), (18, 7));
/// # Ok(())
/// # }
/// ```
pub fn press(tuple: &[u8], list: &[u8], index_base: u64, out: &mut [u8], undo: &mut [u8]) -> Result<(usize, usize), Error> {
    let (n, m, room, undo_room) = (tuple.len(), list.len(), out.len(), undo.len());
    let (out, undo) = (out.as_mut_ptr(), undo.as_mut_ptr());
    // SAFETY: each pointer and length are those of a slice; the call stays within them, and both buffers are lent to it
    // alone, so they do not overlap.
    let answer = unsafe { raw::lak_press(tuple.as_ptr(), n, list.as_ptr(), m, index_base, out, room, undo, undo_room) };
    match answer.number {
        0 => Ok((answer.length as usize, answer.undo_length as usize)),
        number => Err(Error::new(number, answer.operation, answer.place)),
    }
}

type Change = unsafe extern "C" fn(*const u8, usize, *const u8, usize, u64, *mut u8, usize) -> raw::Answer;

fn changed(call: Change, tuple: &[u8], list: &[u8], index_base: u64, out: &mut [u8]) -> Result<usize, Error> {
    let (n, m) = (tuple.len(), list.len());
    // SAFETY: each pointer and length are those of a slice; the call stays within them, and `out` is lent to it alone.
    written(unsafe { call(tuple.as_ptr(), n, list.as_ptr(), m, index_base, out.as_mut_ptr(), out.len()) })
}

fn written(answer: raw::Answer) -> Result<usize, Error> {
    match answer.number {
        0 => Ok(answer.length as usize),
        number => Err(Error::new(number, answer.operation, answer.place)),
    }
}
