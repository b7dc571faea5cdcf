//! Lists at the borders of the arrays that an update works in: computed numbers and spliced strings that just fill one,
//! long strings spliced again and again, a full table of fields, arguments as long as a tuple may be.

use super::changes::{header_length, operation, three, BEFORE};
use super::{about, values};
use crate::cases::Change;
use crate::random::Random;
use crate::reference::updates::{self, Fields, MOST_FIELDS, MOST_LIST_BYTES, MOST_OPERATIONS, MOST_TUPLE_BYTES};
use crate::reference::values as meant;

/// The lengths of the work arrays.
const ARRAYS: [usize; 4] = [256, 4_096, 16_384, 49_152];

/// The lengths that an integer's shortest form can have.
const WIDTHS: [usize; 5] = [1, 2, 3, 5, 9];

/// A tuple under work and the list that is made for it, each operation performed as it is added.
struct Work {
    tuple: Vec<u8>,
    fields: Fields,
    operations: Vec<Vec<u8>>,
    /// How many bytes were computed or spliced.
    made: usize,
}

impl Work {
    fn on(tuple: Vec<u8>) -> Work {
        let fields = updates::fields(&tuple).expect("a tuple was made");
        Work { tuple, fields, operations: Vec::new(), made: 0 }
    }

    /// Adds an operation, also one that is refused; whether it went in.
    fn add(&mut self, operation: Vec<u8>) -> bool {
        let mut fields = self.fields.clone();
        let alone = meant::array(&[&operation]);
        let performed = updates::operations(&alone, 0).map(|all| updates::perform(&mut fields, &all[0]));
        self.operations.push(operation);
        let went_in = matches!(performed, Some(Ok(_)));
        if went_in {
            self.fields = fields;
        }
        went_in
    }

    /// A field's string gets this content, as far as one splice can: it is cut or stretched somewhere.
    fn splice(&mut self, r: &mut Random, f: usize, wanted: usize) {
        let length = self.string_length(f);
        let cut = length.saturating_sub(wanted);
        let swapped = if r.one_in(2) { r.below(4).min(length - cut) } else { 0 };
        let p = r.below(length - cut - swapped + 1);
        let content = r.bytes(wanted.saturating_sub(length) + swapped);
        self.splice_at(f, p, cut + swapped, &content);
    }

    fn splice_at(&mut self, f: usize, p: usize, count: usize, content: &[u8]) {
        let number = |n: usize| meant::integer(n as i128);
        self.add(meant::array(&[vec![0xa1, b':'], number(f), number(p), number(count), meant::string(content)]));
        self.made += self.fields[f].len();
    }

    fn string_length(&self, f: usize) -> usize {
        let field = meant::whole(&self.fields[f], 1).expect("a field is one value");
        field.string().map_or(0, <[u8]>::len)
    }

    /// A field's number becomes one whose form has this many bytes.
    fn compute(&mut self, r: &mut Random, f: usize, width: usize) {
        let old = meant::whole(&self.fields[f], 1).and_then(|field| field.integer()).unwrap_or(0);
        let new = match width {
            1 => r.below(0x80) as i128,
            2 => r.within(0x80..=0xff) as i128,
            3 => r.within(0x100..=0xffff) as i128,
            5 => r.within(0x1_0000..=0xffff_ffff) as i128,
            _ => i128::from(r.word() | 1 << 63),
        };
        let (mark, argument) = match r.below(3) {
            0 => (b'^', old ^ new),
            _ if new < old => (b'-', old - new),
            _ => (b'+', new - old),
        };
        self.add(three(mark, f, &meant::integer(argument)));
        self.made += self.fields[f].len();
    }

    /// Up to so many operations of any kind, as many as the list has room for; now and then one that is refused.
    fn go_on(&mut self, r: &mut Random, most: usize) {
        for _ in 0..most.min(MOST_OPERATIONS.saturating_sub(self.operations.len())) {
            let operation = operation(r, &self.fields, 0);
            if !self.add(operation) && !r.one_in(4) {
                self.operations.pop();
            }
        }
    }

    fn change(self) -> Change {
        Change { tuple: self.tuple, list: meant::array(&self.operations), base: 0, room: 0 }
    }
}

/// The content of a string whose shortest form has this many bytes, as nearly as there is one.
fn content_length(bytes: usize) -> usize {
    match bytes {
        0..=32 => bytes.saturating_sub(1),
        33..=257 => bytes - 2,
        _ => bytes - 3,
    }
}

/// Numbers and strings are computed and spliced until they just fill a work array, or do not; then the list goes on.
pub fn filled_up(r: &mut Random) -> Change {
    let array = *r.pick(&ARRAYS);
    let wanted = array - 12 + r.below(25);
    let count = r.within(wanted.div_ceil(16_000).max(1)..=MOST_OPERATIONS - 2);
    let each = wanted / count;
    let strings = r.within(1..=(15_000 / (each + 3)).clamp(1, 4));
    let mut fields: Fields = (0..strings).map(|_| meant::string(&r.bytes(content_length(each)))).collect();
    fields.extend((0..r.within(1..=4)).map(|n| meant::integer(n as i128)));
    let mut work = Work::on(meant::array(&fields));
    for left in (1..=count).rev() {
        let rest = wanted.saturating_sub(work.made);
        let share = if left == 1 { rest } else { rest / left };
        let number = strings + r.below(fields.len() - strings);
        if share < 14 || left > 1 && r.one_in(6) {
            let width = WIDTHS.iter().rev().find(|width| **width <= share).unwrap_or(&1);
            let width = if r.one_in(4) { *r.pick(&WIDTHS) } else { *width };
            work.compute(r, number, width);
        } else {
            work.splice(r, left % strings, content_length(share));
        }
    }
    let more = r.below(6);
    work.go_on(r, more);
    work.change()
}

/// One long string, spliced as often as a list may.
pub fn spliced_again(r: &mut Random) -> Change {
    let length = match r.below(3) {
        0 => about(r, 16_370),
        1 => r.within(100..=16_300),
        _ => about(r, MOST_LIST_BYTES / MOST_OPERATIONS - BEFORE - 3),
    };
    let content = r.bytes(length);
    let mut work = Work::on(meant::array(&[meant::string(&content), vec![0x05]]));
    for _ in 0..about(r, MOST_OPERATIONS - 1) {
        if r.one_in(20) {
            let width = *r.pick(&WIDTHS);
            work.compute(r, 1, width);
            continue;
        }
        let length = work.string_length(0);
        let (p, cut, more) = (r.below(length + 2), r.below(4), r.below(4));
        let content = r.bytes(more);
        work.splice_at(0, p, cut, &content);
    }
    work.change()
}

/// Fields come and go at both ends of a table that is full or nearly so; seldom one field too many comes.
pub fn full_table(r: &mut Random) -> Change {
    let count = r.within(MOST_FIELDS - 3..=MOST_FIELDS);
    let mut work = Work::on(meant::array(&(0..count).map(|_| values::scalar(r, 4)).collect::<Vec<_>>()));
    let operations = if r.one_in(3) { about(r, MOST_OPERATIONS) } else { r.within(1..=MOST_OPERATIONS) };
    for _ in 0..operations {
        let n = work.fields.len();
        let comes = if n == MOST_FIELDS { r.one_in(100) } else { r.one_in(2) || n == 0 };
        let inside = r.below(n + 1);
        if comes {
            let f = *r.pick(&[0, 0, n, n, inside]);
            let new = values::scalar(r, 6);
            work.add(three(if f == n && r.one_in(2) { b'=' } else { b'!' }, f, &new));
        } else if r.one_in(8) {
            let new = values::scalar(r, 6);
            work.add(three(b'=', inside.min(n - 1), &new));
        } else {
            let f = *r.pick(&[0, 0, n - 1, n - 1, inside.min(n - 1)]);
            let gone = if r.one_in(40) { r.within(1..=n) } else { 1 };
            work.add(three(b'#', f, &meant::integer(gone as i128)));
        }
    }
    work.change()
}

/// An argument about as long as a tuple may be, or longer, for a field that is there, that may come, or that is not there.
pub fn long_argument(r: &mut Random) -> Change {
    let count = r.below(4);
    let mut fields: Fields = (0..count).map(|_| values::scalar(r, 6)).collect();
    fields.push(meant::string(b"ab"));
    let mut work = Work::on(meant::array(&fields));
    let before = r.below(4);
    work.go_on(r, before);
    let n = work.fields.len();
    let mark = *r.pick(b"=!:");
    let last = n.saturating_sub(1);
    let f = if mark == b':' { last } else { *r.pick(&[0, last, n, n + 1]) };
    let beside = meant::array(&work.fields).len();
    let long = *r.pick(&[16_384, 16_384, MOST_TUPLE_BYTES - beside, 20_480, 24_576, 32_700]);
    let bytes = about(r, long) - if long < 16_384 { r.below(4) } else { 0 };
    let argument = values::sized(r, bytes);
    match mark {
        b':' => {
            let text = [vec![0xda], argument[1..].to_vec()].concat();
            let (p, cut) = (vec![r.below(4) as u8], vec![r.below(4) as u8]);
            work.add(meant::array(&[vec![0xa1, b':'], meant::integer(f as i128), p, cut, text]));
        }
        mark => drop(work.add(three(mark, f, &argument))),
    }
    let after = r.below(4);
    work.go_on(r, after);
    work.change()
}

/// All fields are removed, others put in and removed: an undo list of about as many bytes as are allowed.
pub fn removed_twice(r: &mut Random) -> Change {
    let (first, second) = (r.within(1..=24), r.within(1..=12));
    let sized = |r: &mut Random, count: usize, bytes: usize| -> Fields {
        (0..count).map(|at| values::sized(r, bytes / count + if at == 0 { bytes % count } else { 0 })).collect()
    };
    let half = MOST_TUPLE_BYTES - 3 - r.below(40);
    let old = sized(r, first, half);
    let undone = first + 2 * second;
    // Each `!` of the undo list has its four bytes and the field, each `#` five.
    let rest = about(r, MOST_LIST_BYTES) - header_length(undone) - undone * BEFORE - second;
    let new = sized(r, second, rest.saturating_sub(half).min(MOST_TUPLE_BYTES - 3));
    let remove = |count: usize| three(b'#', 0, &meant::integer(count as i128));
    let put = |(f, field): (usize, &Vec<u8>)| three(if f % 2 == 0 { b'!' } else { b'=' }, f, field);
    let operations = [vec![remove(first)], new.iter().enumerate().map(put).collect(), vec![remove(second)]].concat();
    Change { tuple: meant::array(&old), list: meant::array(&operations), base: 0, room: 0 }
}

/// A string that grows to about the most that a tuple holds, stays so once, and grows a little: an undo list of about the
/// most bytes, while the work array has nearly all of its own.
pub fn kept_whole(r: &mut Random) -> Change {
    let long = 16_377 - 2 + r.below(5);
    let mut work = Work::on(vec![0x92, 0xa0, 0x05]);
    let content = r.bytes(content_length(long));
    work.splice_at(0, 0, 0, &content);
    let (second, last) = (32_754 - 3 + r.below(6) - long, about(r, 16_380));
    work.splice(r, 0, content_length(second));
    work.splice(r, 0, content_length(last));
    let more = r.below(3);
    work.go_on(r, more);
    work.change()
}
