//! Each limit from both sides, with the answers written down by hand: the library and the second implementation.

use compare::calls::{Bindings, Calls, Interface, Reference};
use compare::cases::{unhex, Case, Change};
use laksubinat::raw::{self, Frame, FrameAnswer, Number, Place};

const NO_PLACE: Option<u64> = None;

const ALL: [&dyn Calls; 3] = [&Reference, &Interface, &Bindings];

fn gives(case: &Case, number: u32, what: &str) {
    assert_eq!(ALL.map(|calls| case.run(calls).number()), [number; 3], "{what}");
}

/// The number, and where a value broke.
fn breaks(case: &Case, number: u32, place: Option<u64>, what: &str) {
    gives(case, number, what);
    assert_eq!(ALL.map(|calls| case.run(calls).place()), [place.into(); 3], "{what}, the place");
}

/// Arrays inside each other, exactly so deep.
fn deep(depth: usize) -> Vec<u8> {
    [vec![0x91; depth - 1], vec![0x90]].concat()
}

/// A bin of exactly so many bytes with its header, from 258 on.
fn bin(bytes: usize) -> Vec<u8> {
    [vec![0xc5], ((bytes - 3) as u16).to_be_bytes().to_vec(), vec![0x61; bytes - 3]].concat()
}

fn array(items: &[Vec<u8>]) -> Vec<u8> {
    [vec![0xdc], (items.len() as u16).to_be_bytes().to_vec(), items.concat()].concat()
}

fn frame(header: &str, body: &[u8]) -> Vec<u8> {
    let header = unhex(header);
    let size = (header.len() + body.len()) as u32;
    [vec![0xce], size.to_be_bytes().to_vec(), header, body.to_vec()].concat()
}

#[test]
fn values() {
    gives(&Case::Value { bytes: deep(16) }, 0, "depth 16");
    gives(&Case::Value { bytes: deep(17) }, 4, "depth 17");
    gives(&Case::Value { bytes: [vec![0x91; 16], vec![0x00]].concat() }, 0, "a number 16 arrays down");
    gives(&Case::Value { bytes: [vec![0x81, 0x00], deep(16)].concat() }, 4, "a map around 16");
}

#[test]
fn values_broken() {
    let value = |bytes: Vec<u8>, place, what: &str| breaks(&Case::Value { bytes }, 4, Some(place), what);
    value(vec![], 0, "no bytes");
    for (bytes, place) in [
        ("c1", 0),
        ("92 c1 c1", 1),
        ("92 90 c1", 2),
        ("92 c0", 2),
        ("81 c1", 1),
        ("81 a1 c1", 3),
        ("a2 c1", 2),
        ("d9", 1),
        ("d9 05 c1", 3),
        ("cf 00000000000000", 8),
        ("c7 00", 2),
        ("dd ffffffff", 5),
        ("df ffffffff 00 00 c1", 7),
    ] {
        value(unhex(bytes), place, bytes);
    }
    value(deep(17), 16, "depth 17");
    value(deep(18), 16, "depth 18: the first that goes too deep");
    value([vec![0x91; 16], vec![0xdc]].concat(), 16, "too deep, and its count is missing");
    value([vec![0x91; 16], vec![0xc1]].concat(), 16, "c1 at depth 16");
    value([vec![0x92, 0xc1], deep(16)].concat(), 1, "c1 before what is too deep");
    value([vec![0x92], deep(16), vec![0xc1]].concat(), 16, "c1 after what is too deep");
    value([vec![0x93], deep(16)].concat(), 16, "the end after what is too deep");
    breaks(&Case::Value { bytes: unhex("90 c1") }, 0, NO_PLACE, "c1 after the value");
    breaks(&Case::Value { bytes: unhex("a1 c1") }, 0, NO_PLACE, "c1 in a string");
}

#[test]
fn frames_broken() {
    // Sizes of each width, and bytes after the frame, which would make the last value whole.
    let sizes = [vec![], unhex("cc"), unhex("cd00"), unhex("ce000000"), unhex("cf00000000000000")];
    for (contents, number, place) in [
        (unhex("c1"), 4, Some(0)),
        (unhex("81 c1 40"), 4, Some(1)),
        (unhex("82 0040 01 c1"), 4, Some(4)),
        (unhex("82 0040"), 4, Some(3)),
        (unhex("81 00 cd80"), 4, Some(4)),
        (unhex("81 0040 c1"), 4, Some(3)),
        (unhex("81 0040 82 30c0 31c1"), 4, Some(7)),
        (unhex("81 0040 81 30a361"), 4, Some(7)),
        (unhex("c0 91"), 4, Some(2)),
        (unhex("c1 c1"), 4, Some(0)),
        ([unhex("82 0040 7e"), deep(16)].concat(), 4, Some(19)),
        ([unhex("81 0040 81 7e"), deep(16)].concat(), 4, Some(20)),
        (unhex("81 0040 80 c1"), 5, NO_PLACE),
        (unhex("90"), 6, NO_PLACE),
        (unhex("82 0040 0040"), 7, NO_PLACE),
        (unhex("81 0041"), 8, NO_PLACE),
        (unhex("82 0040 01c0"), 9, NO_PLACE),
        (unhex("81 0001"), 10, NO_PLACE),
        (unhex("81 0040"), 0, NO_PLACE),
    ] {
        for size in &sizes {
            let size = [&size[..], &[contents.len() as u8]].concat();
            let place = place.map(|place: u64| size.len() as u64 + place);
            for after in [vec![], vec![0x40; 20]] {
                let bytes = [size.clone(), contents.clone(), after].concat();
                breaks(&Case::Read { bytes: bytes.clone() }, number, place, &format!("{bytes:02x?}"));
            }
        }
    }
    for (bytes, number) in [("", 1), ("03 c1", 1), ("e0 c1", 2), ("00 c1", 3), ("cd ea61 c1", 3)] {
        breaks(&Case::Read { bytes: unhex(bytes) }, number, NO_PLACE, bytes);
    }
    let nils = |last| [unhex("cf 000000000000ea60 810040 8130dd0000ea56"), vec![0xc0; 59_989], vec![last]].concat();
    breaks(&Case::Read { bytes: nils(0xc1) }, 4, Some(60_008), "c1 for the last byte of the longest frame");
    breaks(&Case::Read { bytes: nils(0xa1) }, 4, Some(60_009), "the end of the longest frame");
    let data = Frame { code: 0x40, data: Place { present: true, start: 0, length: 1 }, ..Frame::default() };
    breaks(&Case::Write { frame: data, bytes: vec![0xc1], room: 100 }, 4, NO_PLACE, "the writer gives no place");
}

#[test]
fn frames_read() {
    let read = |bytes: Vec<u8>, number, what: &str| gives(&Case::Read { bytes }, number, what);
    read(frame("8200400a", &[deep(15), vec![0x80]].concat()), 0, "header 16 deep");
    read(frame("8200400a", &[deep(16), vec![0x80]].concat()), 4, "header 17 deep");
    read(frame("810040", &[vec![0x81, 0x0a], deep(15)].concat()), 0, "body 16 deep");
    read(frame("810040", &[vec![0x81, 0x0a], deep(16)].concat()), 4, "body 17 deep");
    read(frame("810040", &[vec![0x81, 0x0a], bin(59_995)].concat()), 0, "size 60,000");
    read(frame("810040", &[vec![0x81, 0x0a], bin(59_996)].concat()), 3, "size 60,001");
    for (header, body, number) in [
        ("810040", "817f00", 0),
        ("810040", "81cc8000", 6),
        ("810040", "81d00500", 6),
        ("810040", "8112ceffffffff", 0),
        ("810040", "8112cf0000000100000000", 9),
        ("810040", "81150180", 5),
        ("810040", "811501", 0),
        ("810040", "811502", 9),
        ("8100cd8000", "8131a0", 0),
        ("8100cd8fff", "8131a0", 0),
        ("8100cd7fff", "8131a0", 8),
        ("8100cd9000", "8131a0", 8),
        ("8100d040", "", 8),
        ("82004001cfffffffffffffffff", "", 0),
        ("82004001ff", "", 9),
        ("83004002000200", "", 7),
        ("8300400200cd000200", "", 7),
    ] {
        read(frame(header, &unhex(body)), number, &format!("{header} {body}"));
    }
}

#[test]
fn frames_written() {
    let answer =
        |data: &[u8]| Frame { data: Place { present: true, start: 0, length: data.len() as u64 }, ..Frame::default() };
    let write =
        |bytes: Vec<u8>, room, number, what| gives(&Case::Write { frame: answer(&bytes), bytes, room }, number, what);
    write(deep(15), 100, 0, "a value 15 deep");
    write(deep(16), 100, 4, "a value 16 deep");
    write(bin(59_995), 60_005, 0, "size 60,000, just enough room");
    write(bin(59_995), 60_004, 18, "one byte too little");
    write(bin(59_996), 60_006, 3, "size 60,001");
    write(bin(59_996), 0, 3, "size before room");

    let limit = |value| Frame { code: 0x40, limit: Number { present: true, value }, ..Frame::default() };
    gives(&Case::Write { frame: limit(4_294_967_295), bytes: vec![], room: 100 }, 0, "the greatest limit");
    gives(&Case::Write { frame: limit(4_294_967_296), bytes: vec![], room: 100 }, 9, "one more");

    let unused = Frame { code: 0x40, limit: Number { present: false, value: u64::MAX }, ..Frame::default() };
    gives(&Case::Write { frame: unused, bytes: vec![], room: 100 }, 0, "what an absent number holds is not looked at");
}

/// A frame that is accepted: its index, offset, iterator and index base are these, and the record is written as the same bytes.
fn keeps(header: &str, body: &str, numbers: [Option<u64>; 4]) {
    let bytes = frame(header, &unhex(body));
    for calls in ALL {
        let FrameAnswer { number, frame, .. } = calls.frame_read(&bytes);
        let read = [frame.index, frame.offset, frame.iterator, frame.index_base];
        assert_eq!((number, read), (0, numbers.map(Number::from)), "{header} {body}");
        let mut out = vec![0; bytes.len()];
        assert_eq!(calls.frame_write(frame, &bytes, &mut out).number, 0, "{header} {body}");
        assert_eq!(out, bytes, "{header} {body}");
    }
}

#[test]
fn index_offset_and_iterator() {
    let select = "810001";
    keeps(select, "86 1001 1100 1202 1300 1400 2090", [Some(0), Some(0), Some(0), None]);
    keeps(select, "85 1001 1202 1304 1405 2090", [None, Some(4), Some(5), None]);
    keeps(select, "85 1001 1103 1202 1405 2090", [Some(3), None, Some(5), None]);
    keeps(select, "85 1001 1103 1202 1304 2090", [Some(3), Some(4), None, None]);
    keeps(select, "84 1001 1202 1405 2090", [None, None, Some(5), None]);
    keeps(select, "84 1001 1202 1304 2090", [None, Some(4), None, None]);
    keeps(select, "84 1001 1103 1202 2090", [Some(3), None, None, None]);
    keeps(select, "83 1001 1202 2090", [None, None, None, None]);
    keeps("810004", "84 1001 1100 2090 2190", [Some(0), None, None, None]);
    keeps("810004", "83 1001 2090 2190", [None, None, None, None]);
    keeps("810004", "84 1001 1500 2090 2190", [None, None, None, Some(0)]);
    keeps("810004", "84 1001 1501 2090 2190", [None, None, None, Some(1)]);
    keeps("810005", "83 1001 1100 2090", [Some(0), None, None, None]);
    keeps("810005", "82 1001 2090", [None, None, None, None]);
    for (header, body, number) in [
        (select, "85 1001 1100 1300 1400 2090", 10),
        (select, "82 1001 2090", 10),
        (select, "82 1202 2090", 10),
        (select, "82 1001 1202", 10),
        ("810004", "82 2090 2190", 10),
        ("810004", "82 1001 2190", 10),
        ("810004", "82 1001 2090", 10),
        ("810005", "81 2090", 10),
        ("810005", "81 1001", 10),
        (select, "84 1001 11c0 1202 2090", 9),
        (select, "84 1001 1202 13cf0000000100000000 2090", 9),
        (select, "83 1001 14ff 2090", 9),
        ("810004", "84 1001 11d000 2090 2190", 9),
        ("810005", "83 1001 11a0 2090", 9),
    ] {
        gives(&Case::Read { bytes: frame(header, &unhex(body)) }, number, &format!("{header} {body}"));
    }
}

#[test]
fn index_offset_and_iterator_written() {
    let [absent, there, above] =
        [(false, 7), (true, 0), (true, 4_294_967_296)].map(|(present, value)| Number { present, value });
    let (array, none) = (Place { present: true, start: 0, length: 1 }, Place::default());
    let least = Frame { space: there, index: absent, offset: absent, iterator: absent, key: array, ..Frame::default() };
    let select = Frame { code: 0x01, limit: there, ..least };
    let update = Frame { code: 0x04, tuple: array, ..least };
    let delete = Frame { code: 0x05, ..least };
    for (record, header, body) in [
        (select, "810001", "83 1000 1200 2090"),
        (Frame { index: there, ..select }, "810001", "84 1000 1100 1200 2090"),
        (Frame { offset: there, ..select }, "810001", "84 1000 1200 1300 2090"),
        (Frame { iterator: there, ..select }, "810001", "84 1000 1200 1400 2090"),
        (update, "810004", "83 1000 2090 2190"),
        (Frame { index: there, ..update }, "810004", "84 1000 1100 2090 2190"),
        (delete, "810005", "82 1000 2090"),
        (Frame { index: there, ..delete }, "810005", "83 1000 1100 2090"),
    ] {
        let wanted = frame(header, &unhex(body));
        for calls in ALL {
            let mut out = vec![0; wanted.len()];
            assert_eq!(calls.frame_write(record, &[0x90], &mut out).number, 0, "{header} {body}");
            assert_eq!(out, wanted, "{header} {body}");
        }
    }
    for (record, number) in [
        (Frame { limit: absent, ..select }, 10),
        (Frame { space: absent, ..select }, 10),
        (Frame { key: none, ..select }, 10),
        (Frame { limit: absent, index: there, offset: there, iterator: there, ..select }, 10),
        (Frame { space: absent, ..update }, 10),
        (Frame { key: none, ..update }, 10),
        (Frame { tuple: none, ..update }, 10),
        (Frame { space: absent, ..delete }, 10),
        (Frame { key: none, ..delete }, 10),
        (Frame { index: above, ..select }, 9),
        (Frame { offset: above, ..select }, 9),
        (Frame { iterator: above, ..select }, 9),
        (Frame { index: above, limit: absent, ..select }, 9),
        (Frame { index: above, ..update }, 9),
        (Frame { index: above, ..delete }, 9),
    ] {
        gives(&Case::Write { frame: record, bytes: vec![0x90], room: 100 }, number, &format!("{record:?}"));
    }
}

fn update(tuple: &[u8], list: &[u8], base: u64, number: u32, what: &str) {
    let change = Change { tuple: tuple.to_vec(), list: list.to_vec(), base, room: 32_768 };
    gives(&Case::Update(change.clone()), number, what);
    gives(&Case::Undo(change.clone()), number, what);
    gives(&Case::Press { change, undo_room: 32_768 }, number, what);
}

fn operation(mark: u8, f: u8, argument: &[u8]) -> Vec<u8> {
    [&[0x93, 0xa1, mark, f], argument].concat()
}

#[test]
fn tuples_and_lists() {
    let (none, one) = (vec![0x90], vec![0x91, 0x01]);
    update(&array(&vec![vec![0x01]; 64]), &none, 0, 0, "64 fields");
    update(&array(&vec![vec![0x01]; 65]), &none, 0, 11, "65 fields");
    update(&[vec![0x91], bin(16_383)].concat(), &none, 0, 0, "a tuple of 16,384 bytes");
    update(&[vec![0x91], bin(16_384)].concat(), &none, 0, 11, "a tuple of 16,385 bytes");
    update(&[vec![0xdc, 0x00, 0x01], bin(16_382)].concat(), &none, 0, 11, "the same with a long header");
    update(&deep(13), &none, 0, 0, "a field 12 deep");
    update(&deep(14), &none, 0, 11, "a field 13 deep");

    let list = |count, argument: &[u8]| array(&vec![operation(b'=', 0, argument); count]);
    update(&one, &list(64, &[0x01]), 0, 0, "64 operations");
    update(&one, &list(65, &[0x01]), 0, 12, "65 operations");
    update(&one, &list(1, &deep(12)), 0, 0, "an argument 12 deep");
    update(&one, &list(1, &deep(13)), 0, 12, "an argument 13 deep");
    let thirds = |last| [10_900, 10_900, last].map(|bytes| operation(b'=', 0, &bin(bytes)));
    let last = 32_768 - 3 - 2 * (4 + 10_900) - 4;
    update(&one, &array(&thirds(last)), 0, 0, "a list of 32,768 bytes");
    update(&one, &array(&thirds(last + 1)), 0, 12, "a list of 32,769 bytes");
    update(&one, &none, 1, 0, "index base 1");
    update(&one, &none, 2, 12, "index base 2");
    update(&none[..0], &none, 2, 11, "a broken tuple comes first");
}

/// The three calls give the number, and where a value broke.
fn change(tuple: &[u8], list: &[u8], base: u64, number: u32, place: Option<u64>, what: &str) {
    let change = Change { tuple: tuple.to_vec(), list: list.to_vec(), base, room: 32_768 };
    breaks(&Case::Update(change.clone()), number, place, what);
    breaks(&Case::Undo(change.clone()), number, place, what);
    breaks(&Case::Press { change, undo_room: 32_768 }, number, place, what);
}

#[test]
fn tuples_broken() {
    let tuple = |tuple: &[u8], place, what: &str| {
        change(tuple, &[0x90], 0, 11, place, what);
        change(tuple, &[0x91, 0xc1], 7, 11, place, &format!("{what}, and a broken list"));
    };
    for (bytes, place) in [
        ("", Some(0)),
        ("c1", Some(0)),
        ("92 01 c1", Some(2)),
        ("92 01", Some(2)),
        ("92 01 91", Some(3)),
        ("81 00 c1", Some(2)),
        ("a2 61", Some(2)),
        ("dc 00", Some(2)),
        ("dd ffffffff 05", Some(6)),
        ("c0", None),
        ("81 00 01", None),
        ("a1 c1", None),
        ("90 c1", None),
        ("91 01 00", None),
    ] {
        tuple(&unhex(bytes), place, bytes);
    }
    tuple(&deep(14), Some(13), "a field 13 deep");
    tuple(&deep(15), Some(13), "a field 14 deep");
    tuple(&[&[0x92][..], &deep(12), &deep(13)].concat(), Some(25), "a field 12 deep, then one 13 deep");
    tuple(&[&[0x81, 0x00][..], &deep(12)].concat(), None, "a map 13 deep");
    tuple(&[&[0x81, 0x00][..], &deep(13)].concat(), Some(14), "a map 14 deep");
    let long = bin(16_384);
    tuple(&[&[0x91][..], &long].concat(), None, "too long");
    tuple(&[&[0x92][..], &long, &[0xc1]].concat(), Some(16_385), "too long, c1 last");
    tuple(&[&[0x92, 0xc1][..], &long].concat(), Some(1), "too long, c1 first");
    tuple(&[&[0x92][..], &long].concat(), Some(16_385), "too long, and a field is missing");
    tuple(&[&[0x91][..], &long[..16_000]].concat(), Some(16_001), "not too long: the field is cut");
    tuple(&[&[0x90][..], &long].concat(), None, "bytes left over, too long with them");
    let fields = |last: &[u8]| [&unhex("dc0041")[..], &[0x07; 64], last].concat();
    tuple(&fields(&[0x07]), None, "65 fields");
    tuple(&fields(&[0xc1]), Some(67), "65 fields, c1 last");
    tuple(&fields(&deep(13)), Some(79), "65 fields, the last 13 deep");
    tuple(&fields(&[]), Some(67), "65 fields, the last missing");
    tuple(&fields(&[0x07, 0xc1]), None, "65 fields, and c1 left over");
}

#[test]
fn lists_broken() {
    let one = vec![0x91, 0x01];
    let list = |list: &[u8], place, what: &str| {
        change(&one, list, 0, 12, place, what);
        change(&one, list, 7, 12, place, &format!("{what}, from 7"));
        change(&[0xc0], list, 0, 11, NO_PLACE, &format!("{what}, and a tuple outside the rules"));
    };
    for (bytes, place) in [
        ("", Some(0)),
        ("c1", Some(0)),
        ("91", Some(1)),
        ("91 93 a1 3d 00 c1", Some(5)),
        ("91 93 a1 3d 00", Some(5)),
        ("91 93 a1 3d c1 01", Some(4)),
        ("91 93 a1", Some(3)),
        ("91 93 c1 00 01", Some(2)),
        ("91 c1", Some(1)),
        ("92 93 a1 2a 00 01 c1", Some(6)),
        ("92 93 a1 3d 00 c1 93 a1 2a 00 01", Some(5)),
        ("92 93 a1 2a 00 01", Some(6)),
        ("91 94 a1 2b 00 01 c1", Some(6)),
        ("81 00 c1", Some(2)),
        ("c0", None),
        ("91 c0", None),
        ("91 93 a1 2a 00 01", None),
        ("91 93 a1 2b 00 a1 c1", None),
        ("91 93 a1 3d 00 01 c1", None),
        ("90 c1", None),
    ] {
        list(&unhex(bytes), place, bytes);
    }
    let with = |mark, argument: &[u8]| array(&[operation(mark, 0, argument)]);
    for mark in *b"=!+*" {
        list(&with(mark, &deep(13)), Some(19), "an argument 13 deep");
        list(&with(mark, &deep(14)), Some(19), "an argument 14 deep");
    }
    list(&with(b'+', &deep(12)), None, "an argument 12 deep for a sum");
    list(&deep(14), None, "arrays 14 deep");
    list(&deep(15), Some(14), "arrays 15 deep");
    change(&one, &with(b'=', &deep(12)), 7, 12, NO_PLACE, "index base 7");
    let long = operation(b'=', 0, &bin(32_768));
    list(&array(std::slice::from_ref(&long)), None, "too long");
    list(&array(&[long.clone(), operation(b'=', 0, &[0xc1])]), Some(3 + 32_772 + 4), "too long, c1 last");
    list(&array(&[operation(b'=', 0, &[0xc1]), long.clone()]), Some(7), "too long, c1 first");
    list(&array(&[long])[..32_769], Some(32_769), "too long, and cut");
    let many = |last: &[u8]| array(&[vec![operation(b'=', 0, &[0x01]); 64], vec![last.to_vec()]].concat());
    list(&many(&operation(b'=', 0, &[0x01])), None, "65 operations");
    list(&many(&operation(b'=', 0, &[0xc1])), Some(3 + 64 * 5 + 4), "65 operations, c1 last");
    list(&many(&[]), Some(3 + 64 * 5), "65 operations, the last missing");
    change(&one, &[0x91, 0x93, 0xa1, b'+', 0x05, 0x01], 0, 13, NO_PLACE, "13 has no place");
}

#[test]
fn after_an_operation() {
    let add = |argument: &[u8]| array(&[operation(b'!', 0, argument)]);
    update(&array(&vec![vec![0x01]; 63]), &add(&[0x01]), 0, 0, "64 fields afterwards");
    update(&array(&vec![vec![0x01]; 64]), &add(&[0x01]), 0, 16, "65 fields afterwards");
    update(&[0x90], &add(&bin(16_383)), 0, 0, "16,384 bytes afterwards");
    update(&[0x90], &add(&bin(16_384)), 0, 16, "16,385 bytes afterwards");
}

fn undo(tuple: &[u8], operations: &[Vec<u8>], number: u32, what: &str) {
    let change = Change { tuple: tuple.to_vec(), list: array(operations), base: 0, room: 32_768 };
    gives(&Case::Update(change.clone()), 0, what);
    gives(&Case::Undo(change.clone()), number, what);
    gives(&Case::Press { change: change.clone(), undo_room: 32_768 }, number, what);
    let short = Case::Press { change: Change { room: 0, ..change }, undo_room: 0 };
    gives(&short, if number == 0 { 18 } else { number }, what);
}

#[test]
fn undo_lists() {
    let cut = |more| [vec![operation(b'#', 0, &[0x40])], vec![operation(b'!', 0, &[0x01]); more]].concat();
    undo(&array(&vec![vec![0x01]; 60]), &cut(4), 0, "an undo list of 64 operations");
    undo(&array(&vec![vec![0x01]; 60]), &cut(5), 17, "an undo list of 65 operations");

    // Three splices that change nothing and an assignment: 1 byte, thrice 4 and the string's, 4 and the old field's.
    let text = [vec![0xda, 0x2a, 0x00], vec![0x61; 0x2a00]].concat();
    let still = unhex("95a13a000000a0");
    let list = [still.clone(), operation(b'=', 1, &[0xc0]), still.clone(), still];
    let old = 32_768 - 1 - 3 * (4 + text.len()) - 4;
    undo(&[vec![0x92], text.clone(), bin(old)].concat(), &list, 0, "an undo list of 32,768 bytes");
    undo(&[vec![0x92], text, bin(old + 1)].concat(), &list, 17, "an undo list of 32,769 bytes");
}

/// Either buffer may be too short by a byte, and then neither is changed.
#[test]
fn rooms_of_a_press() {
    let change = |room| Change { tuple: unhex("9305a26162c3"), list: unhex("9193a15e0001"), base: 0, room };
    for (room, undo_room, number) in [(6, 6, 0), (7, 7, 0), (5, 6, 18), (6, 5, 18), (5, 5, 18), (0, 6, 18), (6, 0, 18)] {
        let case = Case::Press { change: change(room), undo_room };
        gives(&case, number, &format!("rooms of {room} and {undo_room}"));
        let outcomes = ALL.map(|calls| case.run(calls));
        assert!(outcomes[0] == outcomes[1] && outcomes[0] == outcomes[2], "{case}\n{}", outcomes[1]);
    }
}

#[test]
fn no_bytes_need_no_address() {
    let (bytes, out) = (std::ptr::null(), std::ptr::null_mut());
    // SAFETY: with length 0 a pointer is not used.
    let numbers = unsafe {
        [
            raw::lak_value_read(bytes, 0).number,
            raw::lak_frame_read(bytes, 0).number,
            raw::lak_frame_write(Frame::default(), bytes, 0, out, 0).number,
            raw::lak_update(bytes, 0, bytes, 0, 0, out, 0).number,
            raw::lak_undo([0x90].as_ptr(), 1, [0x90].as_ptr(), 1, 0, out, 0).number,
            raw::lak_press([0x90].as_ptr(), 1, [0x90].as_ptr(), 1, 0, out, 0, out, 0).number,
            raw::lak_session_open(bytes, 0).number,
            raw::lak_session_feed(raw::lak_session_reset(), bytes, 0, out, 0).number,
            raw::lak_session_feed(raw::lak_session_reset(), bytes, 0, [0; 60_009].as_mut_ptr(), 60_009).number,
        ]
    };
    assert_eq!(numbers, [4, 1, 18, 11, 18, 18, 19, 19, 1]);
}
