//! The crate says what the C header says.

use laksubinat::raw::{self, Answer, Frame, FrameAnswer, PressAnswer, Session, SessionAnswer, SessionOpening, ValueAnswer};
use laksubinat::{CARRY_ROOM, FRAME_ROOM, TUPLE_ROOM, UNDO_ROOM};
use std::mem::offset_of;

#[test]
fn rooms_are_the_headers() {
    let header = include_str!("../../../include/laksubinat.h");
    let rooms = [
        ("LAK_FRAME_ROOM", FRAME_ROOM),
        ("LAK_TUPLE_ROOM", TUPLE_ROOM),
        ("LAK_UNDO_ROOM", UNDO_ROOM),
        ("LAK_CARRY_ROOM", CARRY_ROOM),
    ];
    for (name, room) in rooms {
        assert!(header.contains(&format!("{name} = {room}")), "{name}");
    }
}

/// The offsets that `tests/c/sessions.c` holds the header to.
#[test]
fn sessions_are_laid_out_as_in_c() {
    assert_eq!([offset_of!(Session, offset), offset_of!(Session, held), offset_of!(Session, refused)], [0, 8, 16]);
    assert_eq!([offset_of!(Session, place), size_of::<Session>()], [24, 40]);
    assert_eq!(offset_of!(SessionOpening, session), 8);
    assert_eq!([offset_of!(SessionAnswer, number), offset_of!(SessionAnswer, in_carry)], [0, 4]);
    assert_eq!([offset_of!(SessionAnswer, taken), offset_of!(SessionAnswer, offset)], [8, 16]);
    assert_eq!([offset_of!(SessionAnswer, length), offset_of!(SessionAnswer, frame)], [24, 32]);
    assert_eq!(offset_of!(SessionAnswer, session), 32 + size_of::<Frame>());
    assert_eq!(offset_of!(SessionAnswer, place), 72 + size_of::<Frame>());
}

/// The offsets that `tests/c/check.c` holds the header to.
#[test]
fn places_are_laid_out_as_in_c() {
    assert_eq!([offset_of!(ValueAnswer, ext_type), offset_of!(ValueAnswer, place)], [40, 48]);
    assert_eq!([offset_of!(FrameAnswer, frame), offset_of!(FrameAnswer, place)], [16, 16 + size_of::<Frame>()]);
    assert_eq!([offset_of!(Answer, operation), offset_of!(Answer, length), offset_of!(Answer, place)], [4, 8, 16]);
    assert_eq!([offset_of!(raw::Number, present), offset_of!(raw::Number, value)], [0, 8]);
}

#[test]
fn presses_are_laid_out_as_in_c() {
    assert_eq!([offset_of!(PressAnswer, number), offset_of!(PressAnswer, operation)], [0, 4]);
    assert_eq!([offset_of!(PressAnswer, length), offset_of!(PressAnswer, undo_length)], [8, 16]);
    assert_eq!([offset_of!(PressAnswer, place), size_of::<PressAnswer>()], [24, 40]);
}

/// A press of `[5, "ab", true]` by `[["^", 0, 1]]` with so much room, and both buffers after it.
fn press(room: usize, undo_room: usize) -> (Result<(usize, usize), laksubinat::Error>, Vec<u8>, Vec<u8>) {
    let (tuple, list) = ([0x93, 0x05, 0xa2, b'a', b'b', 0xc3], [0x91, 0x93, 0xa1, b'^', 0x00, 0x01]);
    let (mut out, mut undo) = (vec![0x5a; room], vec![0x5a; undo_room]);
    let answer = laksubinat::press(&tuple, &list, 0, &mut out, &mut undo);
    (answer, out, undo)
}

#[test]
fn a_press_goes_in_whole_or_not_at_all() {
    let (after, back) = ([0x93, 0x04, 0xa2, b'a', b'b', 0xc3], [0x91, 0x93, 0xa1, b'=', 0x00, 0x05]);
    assert_eq!(press(6, 6), (Ok((6, 6)), after.to_vec(), back.to_vec()));
    let (answer, out, undo) = press(8, 9);
    assert_eq!((answer, &out[6..], &undo[6..]), (Ok((6, 6)), &[0x5a; 2][..], &[0x5a; 3][..]));
    for (room, undo_room) in [(5, 6), (6, 5), (0, 6), (6, 0), (0, 0)] {
        let (answer, out, undo) = press(room, undo_room);
        assert_eq!(answer.map_err(|error| (error.number(), error.operation(), error.place())), Err((18, None, None)));
        assert_eq!((out, undo), (vec![0x5a; room], vec![0x5a; undo_room]));
    }
}

#[test]
fn a_refused_press_says_why() {
    let refused = |tuple: &[u8], list: &[u8]| laksubinat::press(tuple, list, 0, &mut [], &mut []).unwrap_err();
    let error = refused(&[0x92, 0x01, 0xc1], &[0xc1]);
    assert_eq!((error.number(), error.place()), (11, Some(2)));
    let error = refused(&[0x90], &[0x90, 0xc1]);
    assert_eq!((error.number(), error.place()), (12, None));
    let error = refused(&[0x91, 0xc0], &[0x92, 0x93, 0xa1, b'=', 0, 0xa0, 0x93, 0xa1, b'+', 0, 1]);
    assert_eq!((error.number(), error.operation()), (14, Some(1)));
}

#[test]
fn errors_say_where_a_value_broke() {
    let change = |tuple: &[u8], list: &[u8]| laksubinat::update(tuple, list, 0, &mut []).unwrap_err();
    let error = change(&[0x92, 0x01, 0xc1], &[0xc1]);
    assert_eq!((error.number(), error.place(), error.operation()), (11, Some(2), None));
    assert_eq!(error.to_string(), format!("refused with 11: {}, at byte 2", error.words()));
    let error = change(&[0x90, 0xc1], &[0xc1]);
    assert_eq!((error.number(), error.place()), (11, None));
    assert_eq!(error.to_string(), format!("refused with 11: {}", error.words()));
    let error = change(&[0x90], &[]);
    assert_eq!((error.number(), error.place(), error.offset()), (12, Some(0), None));
    // A writer's 4 has no place.
    let frame = laksubinat::Frame { code: 0x40, data: Some((0..1).into()), ..Default::default() };
    let error = laksubinat::write_frame(&frame, &[0xc1], &mut []).unwrap_err();
    assert_eq!((error.number(), error.place()), (4, None));
}

#[test]
fn errors_say_number_words_and_operation() {
    let error = laksubinat::update(&[0x91, 0xc0], &[0x91, 0x93, 0xa1, b'+', 0, 1], 0, &mut []).unwrap_err();
    assert_eq!((error.number(), error.operation()), (14, Some(0)));
    assert_eq!(error.to_string(), format!("refused with 14: {} (operation 0)", error.words()));
}
