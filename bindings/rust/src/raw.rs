//! The C interface as it stands in `include/laksubinat.h`: the same structs by value, the same functions.
//!
//! The safe functions of the crate are built from these. Use them where an answer is wanted as the library gives it.

/// A number that may be absent; an absent one has value 0 in an answer.
#[repr(C)]
#[derive(Clone, Copy, Debug, Default, PartialEq, Eq)]
pub struct Number {
    /// Whether the number is there.
    pub present: bool,
    /// The number.
    pub value: u64,
}

/// The place of a value that may be absent; an absent one is all 0 in an answer.
#[repr(C)]
#[derive(Clone, Copy, Debug, Default, PartialEq, Eq)]
pub struct Place {
    /// Whether the value is there.
    pub present: bool,
    /// Where its first byte is.
    pub start: u64,
    /// How many bytes it has.
    pub length: u64,
}

/// The record of a frame.
#[repr(C)]
#[derive(Clone, Copy, Debug, Default, PartialEq, Eq)]
#[allow(missing_docs)] // the names are the fields' whole meaning; `crate::Frame` describes them
pub struct Frame {
    pub code: u64,
    pub sync: Number,
    pub schema_version: Number,
    pub space: Number,
    pub index: Number,
    pub limit: Number,
    pub offset: Number,
    pub iterator: Number,
    pub index_base: Number,
    pub key: Place,
    pub tuple: Place,
    pub function: Place,
    pub user: Place,
    pub expression: Place,
    pub ops: Place,
    pub data: Place,
    pub error: Place,
}

/// The answer of [`lak_frame_read`].
#[repr(C)]
#[derive(Clone, Copy, Debug, Default, PartialEq, Eq)]
pub struct FrameAnswer {
    /// The refusal's number, 0 where accepted.
    pub number: u32,
    /// The frame's length with its size number.
    pub length: u64,
    /// The record, empty where refused.
    pub frame: Frame,
    /// Of 4 where the header or body broke, counted from the frame's first byte; else absent.
    pub place: Number,
}

/// A session: what one feed leaves for the next. No call trusts it: any value is answered.
#[repr(C)]
#[derive(Clone, Copy, Debug, Default, PartialEq, Eq)]
pub struct Session {
    /// The length of all frames answered since the opening or reset, going round from 2^64-1 to 0.
    pub offset: u64,
    /// How many bytes of the frame at hand stand at the carry buffer's start.
    pub held: u64,
    /// The number of the refused frame, or 0.
    pub refused: u32,
    /// The place of the refused frame; not looked at where `refused` is 0.
    pub place: Number,
}

/// The answer of [`lak_session_open`].
#[repr(C)]
#[derive(Clone, Copy, Debug, Default, PartialEq, Eq)]
pub struct SessionOpening {
    /// The refusal's number, 0 where accepted.
    pub number: u32,
    /// A session begun anew.
    pub session: Session,
}

/// The answer of [`lak_session_feed`].
#[repr(C)]
#[derive(Clone, Copy, Debug, Default, PartialEq, Eq)]
pub struct SessionAnswer {
    /// 0 with a frame, 1 where the frame at hand is not settled yet, else the refusal's number.
    pub number: u32,
    /// The frame is shown from the carry buffer's start, else from the piece's; false where the number is not 0.
    pub in_carry: bool,
    /// How many bytes of the piece were taken.
    pub taken: u64,
    /// Where the frame at hand begins.
    pub offset: u64,
    /// The frame's length with its size number, 0 where the number is not 0.
    pub length: u64,
    /// The record, empty where the number is not 0; its places count from the shown frame's first byte.
    pub frame: Frame,
    /// The session for the next feed.
    pub session: Session,
    /// As [`lak_frame_read`] gives it, repeated with the refusal.
    pub place: Number,
}

/// The answer of the calls that write.
#[repr(C)]
#[derive(Clone, Copy, Debug, Default, PartialEq, Eq)]
pub struct Answer {
    /// The refusal's number, 0 where accepted.
    pub number: u32,
    /// For 13 to 16 the index of the refused operation, else 0.
    pub operation: u32,
    /// How many bytes were written, 0 where refused.
    pub length: u64,
    /// Of 11 where the tuple broke, of 12 where the list broke, counted from its first byte; else absent.
    pub place: Number,
}

/// The answer of [`lak_press`].
#[repr(C)]
#[derive(Clone, Copy, Debug, Default, PartialEq, Eq)]
pub struct PressAnswer {
    /// The refusal's number, 0 where accepted.
    pub number: u32,
    /// For 13 to 16 the index of the refused operation, else 0.
    pub operation: u32,
    /// How many bytes the new tuple has, 0 where refused.
    pub length: u64,
    /// How many bytes the undo list has, 0 where refused.
    pub undo_length: u64,
    /// Of 11 where the tuple broke, of 12 where the list broke, counted from its first byte; else absent.
    pub place: Number,
}

/// The answer of [`lak_value_read`].
#[repr(C)]
#[derive(Clone, Copy, Debug, Default, PartialEq, Eq)]
pub struct ValueAnswer {
    /// The refusal's number, 0 where accepted.
    pub number: u32,
    /// 0 nil, 1 boolean, 2 integer from 0 up, 3 integer below 0, 4 float 32, 5 float 64, 6 string, 7 bin, 8 ext,
    /// 9 array, 10 map.
    pub kind: u32,
    /// How many bytes the value has.
    pub length: u64,
    /// 0 or 1; the number; the number as 64-bit two's complement; the float's bits; else 0.
    pub bits: u64,
    /// Where the content of a string, bin or ext starts, or the encoding of an array or map; else 0.
    pub start: u64,
    /// How many bytes that is.
    pub size: u64,
    /// An ext's type; else 0.
    pub ext_type: u8,
    /// Of 4 where the value broke, counted from its first byte; else absent.
    pub place: Number,
}

// The sizes that a C compiler gives them on x86-64.
const _: () = assert!(size_of::<Frame>() == 328 && size_of::<FrameAnswer>() == 360);
const _: () = assert!(size_of::<Answer>() == 32 && size_of::<PressAnswer>() == 40 && size_of::<ValueAnswer>() == 64);
const _: () = assert!(size_of::<Session>() == 40 && size_of::<SessionOpening>() == 48 && size_of::<SessionAnswer>() == 416);

extern "C" {
    /// Reads the value at the start of the bytes.
    pub fn lak_value_read(bytes: *const u8, n: usize) -> ValueAnswer;
    /// Reads the frame at the start of the bytes.
    pub fn lak_frame_read(bytes: *const u8, n: usize) -> FrameAnswer;
    /// Writes a frame from its record and the bytes that its places refer to.
    pub fn lak_frame_write(frame: Frame, bytes: *const u8, n: usize, out: *mut u8, room: usize) -> Answer;
    /// Opens a session over a carry buffer.
    pub fn lak_session_open(carry: *const u8, room: usize) -> SessionOpening;
    /// A session begun anew.
    pub fn lak_session_reset() -> Session;
    /// Feeds a session a piece; answers the next frame, if the piece settles it.
    pub fn lak_session_feed(session: Session, piece: *const u8, n: usize, carry: *mut u8, room: usize) -> SessionAnswer;
    /// Writes the tuple that an update list makes of a tuple.
    pub fn lak_update(
        tuple: *const u8,
        n: usize,
        list: *const u8,
        m: usize,
        index_base: u64,
        out: *mut u8,
        room: usize,
    ) -> Answer;
    /// Writes the undo list of an update with these inputs.
    pub fn lak_undo(
        tuple: *const u8,
        n: usize,
        list: *const u8,
        m: usize,
        index_base: u64,
        out: *mut u8,
        room: usize,
    ) -> Answer;
    /// Writes both, the tuple and the undo list, or neither.
    pub fn lak_press(
        tuple: *const u8,
        n: usize,
        list: *const u8,
        m: usize,
        index_base: u64,
        out: *mut u8,
        room: usize,
        undo: *mut u8,
        undo_room: usize,
    ) -> PressAnswer;
}
