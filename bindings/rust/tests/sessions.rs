//! Where a session shows a frame, and what it keeps.

use laksubinat::{Error, Session};

/// A select of 18 bytes, whose key is the value `91 06`.
const SELECT: [u8; 18] =
    [0x11, 0x81, 0x00, 0x01, 0x86, 0x10, 0x01, 0x11, 0x02, 0x12, 0x03, 0x13, 0x04, 0x14, 0x05, 0x20, 0x91, 0x06];

#[test]
fn a_frame_whole_in_its_piece_is_shown_there() -> Result<(), Error> {
    let line = [SELECT, SELECT].concat();
    let mut session = Session::new();
    let mut frames = session.feed(&line);
    for start in [0, 18] {
        let shown = frames.next()?.expect("a select");
        assert_eq!((shown.bytes.as_ptr(), shown.bytes.len()), (line[start..].as_ptr(), 18));
        assert_eq!(shown.offset, start as u64);
        assert_eq!(shown.frame.key.and_then(|place| place.view(shown.bytes)), Some(&[0x91, 0x06][..]));
    }
    assert_eq!(frames.next(), Ok(None));
    assert_eq!((session.begun(), session.offset()), (&[][..], 36));
    Ok(())
}

#[test]
fn a_frame_in_every_two_pieces_is_put_together() -> Result<(), Error> {
    let mut session = Session::new();
    for cut in 1..18 {
        let (front, back) = SELECT.split_at(cut);
        let mut frames = session.feed(front);
        assert_eq!(frames.next(), Ok(None));
        assert_eq!(frames.rest(), []);
        assert_eq!((session.begun(), session.offset()), (front, 18 * (cut as u64 - 1)));
        assert_eq!(session.feed(&[]).next(), Ok(None));
        let mut frames = session.feed(back);
        let shown = frames.next()?.expect("a select");
        assert_eq!((shown.bytes, shown.offset), (&SELECT[..], 18 * (cut as u64 - 1)));
        assert_eq!(shown.frame.key.and_then(|place| place.view(shown.bytes)), Some(&[0x91, 0x06][..]));
        assert_eq!(frames.next(), Ok(None));
        assert_eq!(frames.rest(), []);
    }
    Ok(())
}

#[test]
fn a_refused_frame_is_kept_up_to_the_byte_that_settles_it() {
    let mut session = Session::new();
    assert!(session.feed(&SELECT).next().is_ok_and(|shown| shown.is_some()));
    assert_eq!(session.feed(&[0xce, 0x00]).next(), Ok(None));
    let mut frames = session.feed(&[0x00, 0xea, 0x61, 0x80]);
    let error = frames.next().unwrap_err();
    assert_eq!((error.number(), error.offset(), error.operation()), (3, Some(18), None));
    assert_eq!(frames.next(), Err(error));
    assert_eq!(frames.rest(), [0x80]);
    assert_eq!(session.begun(), [0xce, 0x00, 0x00, 0xea, 0x61]);
    assert_eq!(session.feed(&SELECT).next(), Err(error));

    session.reset();
    assert_eq!((session.begun(), session.offset()), (&[][..], 0));
    assert_eq!(session.feed(&SELECT).next().map(|shown| shown.map(|select| select.offset)), Ok(Some(0)));
}

#[test]
fn a_refusals_place_counts_from_the_frame_and_is_repeated() {
    let spoiled = [0x05, 0x82, 0x00, 0x40, 0x01, 0xc1];
    for cut in 0..6 {
        let mut session = Session::new();
        assert!(session.feed(&SELECT).next().is_ok_and(|shown| shown.is_some()));
        assert_eq!(session.feed(&spoiled[..cut]).next(), Ok(None));
        let error = session.feed(&spoiled[cut..]).next().unwrap_err();
        assert_eq!((error.number(), error.offset(), error.place()), (4, Some(18), Some(5)));
        assert_eq!(session.feed(&SELECT).next(), Err(error));
        session.reset();
        let error = session.feed(&[0x01, 0x90]).next().unwrap_err();
        assert_eq!((error.number(), error.offset(), error.place()), (6, Some(0), None));
    }
}

#[test]
fn a_reset_drops_the_begun_frame() {
    let mut session = Session::default();
    let whole = |session: &mut Session| session.feed(&SELECT).next().map(|shown| shown.map(|select| select.offset));
    assert_eq!(whole(&mut session), Ok(Some(0)));
    assert_eq!(session.feed(&SELECT[..9]).next(), Ok(None));
    session.reset();
    assert_eq!((session.begun(), session.offset()), (&[][..], 0));
    assert_eq!(whole(&mut session), Ok(Some(0)));
}
