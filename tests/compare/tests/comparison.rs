//! A short comparison with the library; and impostors, which the comparison must find out.

use compare::calls::{Calls, Reference};
use compare::comparison::Comparison;
use laksubinat::raw::{self, Answer, FrameAnswer, PressAnswer, SessionAnswer, SessionOpening, ValueAnswer};

#[test]
fn library_and_second_implementation_agree() {
    let mut comparison = Comparison::of_library();
    for round in 0..20_000 {
        if let Err(difference) = comparison.round(1, round) {
            panic!("seed 1, round {round}: {}", difference.0);
        }
    }
    println!("{comparison}");
    assert_eq!(comparison.missing(), Vec::<String>::new());
}

/// The reference with one call spoiled: what is given comes after the call was made.
struct Impostor {
    on_write: fn(Answer, &mut [u8]) -> Answer,
    on_list: fn(&[u8]) -> &[u8],
    on_press: fn(PressAnswer, &mut [u8], &mut [u8]) -> PressAnswer,
    on_feed: fn(SessionAnswer, &[u8], &mut [u8]) -> SessionAnswer,
    on_reset: fn(raw::Session) -> raw::Session,
}

const HONEST: Impostor = Impostor {
    on_write: |answer, _| answer,
    on_list: |list| list,
    on_press: |answer, _, _| answer,
    on_feed: |answer, _, _| answer,
    on_reset: |session| session,
};

impl Calls for Impostor {
    fn value_read(&self, bytes: &[u8]) -> ValueAnswer {
        Reference.value_read(bytes)
    }

    fn frame_read(&self, bytes: &[u8]) -> FrameAnswer {
        Reference.frame_read(bytes)
    }

    fn frame_write(&self, frame: raw::Frame, bytes: &[u8], out: &mut [u8]) -> Answer {
        (self.on_write)(Reference.frame_write(frame, bytes, out), out)
    }

    fn update(&self, tuple: &[u8], list: &[u8], base: u64, out: &mut [u8]) -> Answer {
        (self.on_write)(Reference.update(tuple, (self.on_list)(list), base, out), out)
    }

    fn undo(&self, tuple: &[u8], list: &[u8], base: u64, out: &mut [u8]) -> Answer {
        Reference.undo(tuple, list, base, out)
    }

    fn press(&self, tuple: &[u8], list: &[u8], base: u64, out: &mut [u8], undo: &mut [u8]) -> PressAnswer {
        (self.on_press)(Reference.press(tuple, list, base, out, undo), out, undo)
    }

    fn session_open(&self, carry: &[u8]) -> SessionOpening {
        Reference.session_open(carry)
    }

    fn session_reset(&self) -> raw::Session {
        (self.on_reset)(Reference.session_reset())
    }

    fn session_feed(&self, session: raw::Session, piece: &[u8], carry: &mut [u8]) -> SessionAnswer {
        (self.on_feed)(Reference.session_feed(session, piece, carry), piece, carry)
    }
}

fn is_found_out(impostor: Impostor) -> bool {
    let mut comparison = Comparison::of(vec![("impostor", &impostor)]);
    (0..2_000).any(|round| comparison.round(1, round).is_err())
}

#[test]
fn impostors_are_found_out() {
    assert!(!is_found_out(HONEST));
    assert!(is_found_out(Impostor { on_write: |_, _| Answer { number: 11, ..Answer::default() }, ..HONEST }));
    assert!(is_found_out(Impostor { on_list: |_| &[0x90], ..HONEST }));
    let longer = |answer: Answer, _: &mut [u8]| Answer { length: answer.length + u64::from(answer.number == 0), ..answer };
    assert!(is_found_out(Impostor { on_write: longer, ..HONEST }));
}

#[test]
fn a_place_too_many_or_too_few_is_seen() {
    let none = |answer: Answer, _: &mut [u8]| Answer { place: raw::Number::default(), ..answer };
    assert!(is_found_out(Impostor { on_write: none, ..HONEST }));
    let kept = |answer: Answer, _: &mut [u8]| Answer { place: raw::Number { present: false, ..answer.place }, ..answer };
    assert!(is_found_out(Impostor { on_write: kept, ..HONEST }));
    let more = |answer: Answer, _: &mut [u8]| match answer.number {
        4 | 18 => Answer { place: Some(0).into(), ..answer },
        _ => answer,
    };
    assert!(is_found_out(Impostor { on_write: more, ..HONEST }));
    let session = |answer: SessionAnswer, _: &[u8], _: &mut [u8]| SessionAnswer { place: raw::Number::default(), ..answer };
    assert!(is_found_out(Impostor { on_feed: session, ..HONEST }));
    let left = |mut answer: SessionAnswer, _: &[u8], _: &mut [u8]| {
        answer.session.place = raw::Number::default();
        answer
    };
    assert!(is_found_out(Impostor { on_feed: left, ..HONEST }));
}

#[test]
fn a_byte_past_the_length_or_under_a_refusal_is_seen() {
    let past = |answer: Answer, out: &mut [u8]| {
        if let Some(byte) = out.get_mut(answer.length as usize) {
            *byte ^= 1;
        }
        answer
    };
    assert!(is_found_out(Impostor { on_write: past, ..HONEST }));
    let refused = |answer: Answer, out: &mut [u8]| {
        if answer.number == 18 && !out.is_empty() {
            out[0] ^= 1;
        }
        answer
    };
    assert!(is_found_out(Impostor { on_write: refused, ..HONEST }));
}

#[test]
fn impostors_of_presses_are_found_out() {
    let longer = |answer: PressAnswer, _: &mut [u8], _: &mut [u8]| PressAnswer {
        undo_length: answer.undo_length + u64::from(answer.number == 0),
        ..answer
    };
    assert!(is_found_out(Impostor { on_press: longer, ..HONEST }));
    let past = |answer: PressAnswer, _: &mut [u8], undo: &mut [u8]| {
        if let Some(byte) = undo.get_mut(answer.undo_length as usize) {
            *byte ^= 1;
        }
        answer
    };
    assert!(is_found_out(Impostor { on_press: past, ..HONEST }));
    let half = |answer: PressAnswer, out: &mut [u8], _: &mut [u8]| {
        if answer.number == 18 && !out.is_empty() {
            out[0] ^= 1;
        }
        answer
    };
    assert!(is_found_out(Impostor { on_press: half, ..HONEST }));
}

#[test]
fn impostors_of_sessions_are_found_out() {
    let copied = |answer: SessionAnswer, piece: &[u8], carry: &mut [u8]| {
        if answer.number == 0 && !answer.in_carry {
            carry[..answer.length as usize].copy_from_slice(&piece[..answer.length as usize]);
        }
        answer
    };
    assert!(is_found_out(Impostor { on_feed: copied, ..HONEST }));
    let past = |answer: SessionAnswer, _: &[u8], carry: &mut [u8]| {
        if let Some(byte) = carry.get_mut(answer.session.held as usize) {
            *byte ^= 1;
        }
        answer
    };
    assert!(is_found_out(Impostor { on_feed: past, ..HONEST }));
    let counted = |answer: SessionAnswer, _: &[u8], _: &mut [u8]| SessionAnswer { offset: answer.session.offset, ..answer };
    assert!(is_found_out(Impostor { on_feed: counted, ..HONEST }));
    let shown = |answer: SessionAnswer, _: &[u8], _: &mut [u8]| SessionAnswer { in_carry: false, ..answer };
    assert!(is_found_out(Impostor { on_feed: shown, ..HONEST }));
    let kept = |session: raw::Session| raw::Session { offset: 1, ..session };
    assert!(is_found_out(Impostor { on_reset: kept, ..HONEST }));
}
