//! Sessions: recorded traffic in pieces, and each rule by hand, on the library and on the second implementation.

use compare::calls::{Calls, Interface, Reference};
use compare::cases::{unhex, Case, Feed, Outcome, Reply};
use compare::comparison::Comparison;
use compare::stream;
use laksubinat::raw::{Number, Session, SessionAnswer};

const BOTH: [&dyn Calls; 2] = [&Reference, &Interface];
const RECORDED: [&[u8]; 2] =
    [include_bytes!("../../model/data/requests.bin"), include_bytes!("../../model/data/responses.bin")];
const PUBLISHED: &str = include_str!("../../model/data/msgpack.tsv");

const PING: &str = "05 82 0040 0107";

#[test]
fn recorded_traffic_in_pieces() {
    let mut comparison = Comparison::of_library();
    for line in RECORDED {
        for length in [1, 2, 3, 7, 40, 1_500, usize::MAX] {
            stream::cut(&mut comparison, line, &[length]).unwrap_or_else(|difference| panic!("{}", difference.0));
            stream::cut(&mut comparison, line, &[0, length, 5]).unwrap_or_else(|difference| panic!("{}", difference.0));
        }
    }
}

/// Each published value as the data of a frame, twice behind a ping: accepted frames, and refused ones.
#[test]
fn published_vectors_in_pieces() {
    let mut comparison = Comparison::of_library();
    for line in PUBLISHED.lines().filter(|line| !line.starts_with('#')) {
        let value = unhex(line.split('\t').next().expect("the bytes"));
        let contents = [unhex("81 0000 81 30"), value].concat();
        let frame = [vec![0xcd], (contents.len() as u16).to_be_bytes().to_vec(), contents].concat();
        let line = [unhex(PING), frame.clone(), frame].concat();
        for length in [1, 7, 40] {
            stream::cut(&mut comparison, &line, &[length]).unwrap_or_else(|difference| panic!("{}", difference.0));
        }
    }
}

fn session(offset: u64, held: u64, refused: u32) -> Session {
    Session { offset, held, refused, place: Number::default() }
}

/// The same with a place: the answer that leaves or repeats it has it too.
fn spoiled(offset: u64, held: u64, refused: u32, place: u64) -> Session {
    Session { place: Some(place).into(), ..session(offset, held, refused) }
}

/// The answer of both to a feed of a carry buffer that begins so, and what it begins with afterwards.
fn feed(before: Session, begun: &str, piece: &str) -> (SessionAnswer, Outcome) {
    let case = Case::Feed(Feed { session: before, begun: unhex(begun), piece: unhex(piece), room: 60_009 });
    let [reference, library] = BOTH.map(|calls| case.run(calls));
    assert!(reference == library, "{case}\nreference: {reference}\nlibrary: {library}");
    match reference.reply {
        Reply::Fed(answer) => (answer, library),
        _ => unreachable!("a feed was made"),
    }
}

/// Not accepted: how many bytes are taken, the session that is left with its place, and what the carry buffer then begins with.
fn refuses(before: Session, begun: &str, piece: &str, number: u32, taken: u64, left: Session, carry: &str) {
    let (answer, outcome) = feed(before, begun, piece);
    let (offset, place) = (before.offset, left.place);
    let expected = SessionAnswer { number, taken, offset, session: left, place, ..SessionAnswer::default() };
    assert_eq!(answer, expected, "{begun} | {piece}");
    assert!(outcome.carries(&unhex(carry)), "{begun} | {piece}: {outcome}");
}

/// Accepted: where it is shown, how many bytes are taken, its length, and what the carry buffer then begins with.
fn shows(before: Session, begun: &str, piece: &str, in_carry: bool, taken: u64, length: u64, carry: &str) {
    let (answer, outcome) = feed(before, begun, piece);
    assert_eq!(
        (answer.number, answer.in_carry, answer.taken, answer.length),
        (0, in_carry, taken, length),
        "{begun} | {piece}"
    );
    let left = session(before.offset.wrapping_add(length), 0, 0);
    assert_eq!((answer.offset, answer.session), (before.offset, left), "{begun} | {piece}");
    assert!(outcome.carries(&unhex(carry)), "{begun} | {piece}: {outcome}");
}

#[test]
fn frames() {
    shows(session(0, 0, 0), "", PING, false, 6, 6, "");
    shows(session(0, 0, 0), "", "05 82 0040 0107 03 81 0000", false, 6, 6, "");
    shows(session(6, 3, 0), "05 82 00", "40 0107 03", true, 3, 6, PING);
    shows(session(6, 3, 0), "05 82 00 ff ff ff ff", "40 0107 03", true, 3, 6, "05 82 0040 0107 ff");
    shows(session(u64::MAX, 0, 0), "", PING, false, 6, 6, "");
    shows(session(7, 6, 0), PING, "", true, 0, 6, PING);
    shows(session(7, 60_010, 0), PING, PING, true, 0, 6, PING);
    shows(session(7, u64::MAX, 0), PING, PING, true, 0, 6, PING);
}

#[test]
fn not_settled() {
    refuses(session(0, 0, 0), "", "", 1, 0, session(0, 0, 0), "");
    refuses(session(9, 0, 0), "", "05 82", 1, 2, session(9, 2, 0), "05 82");
    refuses(session(9, 2, 0), "05 82", "", 1, 0, session(9, 2, 0), "05 82");
    refuses(session(9, 2, 0), "05 82", "00 40 01", 1, 3, session(9, 5, 0), "05 82 00 40 01");
    refuses(session(9, 1, 0), "cf", "00", 1, 1, session(9, 2, 0), "cf 00");
}

#[test]
fn refused() {
    refuses(session(9, 0, 0), "", "e0 05", 2, 1, session(9, 0, 2), "");
    refuses(session(9, 1, 0), "e0", "05", 2, 0, session(9, 1, 2), "e0");
    refuses(session(9, 0, 0), "", "ce 0000ea61 00", 3, 5, session(9, 0, 3), "");
    refuses(session(9, 2, 0), "ce 00", "00ea61 00", 3, 3, session(9, 5, 3), "ce 0000ea61");
    refuses(session(9, 0, 0), "", "02 81 c1 00", 4, 3, spoiled(9, 0, 4, 2), "");
    refuses(session(9, 1, 0), "02", "81 c1 00", 4, 2, spoiled(9, 3, 4, 2), "02 81 c1");
    refuses(session(9, 0, 0), "", "01 c1 00", 4, 2, spoiled(9, 0, 4, 1), "");
    refuses(session(9, 0, 0), "", "cd 0002 81 00 40", 4, 5, spoiled(9, 0, 4, 5), "");
    refuses(session(9, 4, 0), "cd 0002 81", "00 40", 4, 1, spoiled(9, 5, 4, 5), "cd 0002 81 00");
    refuses(session(9, 4, 0), "04 81 00 40", "c1 05", 4, 1, spoiled(9, 5, 4, 4), "04 81 00 40 c1");
    refuses(session(9, 1, 0), "03", "80 80 00 00", 5, 3, session(9, 4, 5), "03 80 80 00");
    refuses(session(9, 2, 0), "03 81", "00 01 00", 10, 2, session(9, 4, 10), "03 81 00 01");
}

#[test]
fn repeated() {
    for number in [1, 2, 10, 19, 77, u32::MAX] {
        refuses(session(9, 3, number), "05 82 00", "40 01 07", number, 0, session(9, 3, number), "05 82 00");
        refuses(session(9, u64::MAX, number), "", "", number, 0, session(9, u64::MAX, number), "");
    }
}

/// A place comes back as it is handed in where nothing changes, and is dropped where the frame at hand is judged.
#[test]
fn places_handed_in() {
    for place in [(true, 0), (true, 7), (true, u64::MAX), (false, 7)].map(|(present, value)| Number { present, value }) {
        let with = |session: Session| Session { place, ..session };
        for number in [1, 4, 10, 19, 77] {
            let before = with(session(9, 3, number));
            refuses(before, "05 82 00", "40 01 07", number, 0, before, "05 82 00");
        }
        refuses(with(session(9, 0, 0)), "", "05 82", 1, 2, session(9, 2, 0), "05 82");
        refuses(with(session(9, 1, 0)), "e0", "05", 2, 0, session(9, 1, 2), "e0");
        refuses(with(session(9, 1, 0)), "02", "81 c1 00", 4, 2, spoiled(9, 3, 4, 2), "02 81 c1");
        refuses(with(session(9, 1, 0)), "03", "80 80 00", 5, 3, session(9, 4, 5), "03 80 80 00");
        shows(with(session(6, 3, 0)), "05 82 00", "40 0107 03", true, 3, 6, PING);

        // 19 has no place, and the session comes back as it was.
        for refused in [0, 4] {
            let before = with(session(9, 2, refused));
            let case = Case::Feed(Feed { session: before, begun: unhex("05 82"), piece: unhex("00"), room: 60_008 });
            let expected = SessionAnswer { number: 19, offset: 9, session: before, ..SessionAnswer::default() };
            for calls in BOTH {
                assert_eq!(case.run(calls).reply, Reply::Fed(expected));
            }
        }
    }
    assert_eq!(BOTH.map(|calls| calls.session_reset()), [Session::default(); 2]);
}

#[test]
fn nineteen_is_first() {
    for (room, number) in [(0, 19), (60_008, 19), (60_009, 0), (60_010, 0)] {
        let numbers = BOTH.map(|calls| Case::Open { room }.run(calls).number());
        assert_eq!(numbers, [number; 2], "{room}");
        for (refused, otherwise) in [(0, 0), (4, 4), (77, 77)] {
            let before = session(9, 2, refused);
            let case = Case::Feed(Feed { session: before, begun: unhex("05 82"), piece: unhex("0040 0107"), room });
            let numbers = BOTH.map(|calls| case.run(calls).number());
            assert_eq!(numbers, [if number == 19 { 19 } else { otherwise }; 2], "{room}, {refused}");
        }
    }
}

#[test]
fn the_longest_frame_fills_the_carry_buffer() {
    let longest = [unhex("cf 000000000000ea60 810040 810a c5ea58"), vec![0x61; 59_992]].concat();
    assert_eq!(longest.len(), 60_009);
    let mut comparison = Comparison::of_library();
    for lengths in [&[60_008, 1][..], &[1, 60_008], &[1_500], &[40, 0, 7], &[usize::MAX]] {
        stream::cut(&mut comparison, &longest, lengths).unwrap_or_else(|difference| panic!("{}", difference.0));
    }
    assert_eq!(comparison.counts[6][0], 5);

    // All of it held, by a session that says more: nothing is taken of the piece.
    let case = Case::Feed(Feed { session: session(9, u64::MAX, 0), begun: longest, piece: unhex(PING), room: 60_009 });
    let [reference, library] = BOTH.map(|calls| case.run(calls));
    assert!(reference == library);
    assert!(matches!(reference.reply, Reply::Fed(SessionAnswer { number: 0, taken: 0, length: 60_009, .. })));
}
