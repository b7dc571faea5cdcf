use crate::raw;
use std::fmt;

/// A refusal: which rule the input broke, and where: at which byte, at which operation of a list, at which frame of a
/// session.
///
/// ```
/// let error = laksubinat::read_frame(&[0xe0]).unwrap_err();
/// assert_eq!(error.number(), 2);
/// assert_eq!((error.operation(), error.place()), (None, None));
/// assert_eq!(error.to_string(), "refused with 2: the first byte starts no size number");
///
/// let error = laksubinat::read_frame(&[0x03, 0x81, 0x00, 0xc1]).unwrap_err(); // c1 starts no value
/// assert_eq!((error.number(), error.place()), (4, Some(3)));
/// assert_eq!(
///     error.to_string(),
///     "refused with 4: a value is broken, runs past its bytes or is too deep, at byte 3"
/// );
/// ```
#[derive(Clone, Copy, Debug, PartialEq, Eq, Hash)]
pub struct Error {
    number: u32,
    operation: u32,
    offset: Option<u64>,
    place: Option<usize>,
}

/// The words of refusals 1 to 19, in order: those of `lak_words` in the C header.
const WORDS: [&str; 19] = [
    "the frame has not all come",
    "the first byte starts no size number",
    "the size is 0 or above 60,000",
    "a value is broken, runs past its bytes or is too deep",
    "bytes remain after the body",
    "header or body is not a map, or a key is not 0 to 127",
    "a key stands twice",
    "the code is absent, not unsigned or unknown",
    "a known key holds a wrong type or range",
    "a required key of the body is absent",
    "the tuple is outside the rules",
    "the list of operations is outside the rules",
    "there is no such field",
    "the field's type or sign does not suit the operation",
    "the sum or difference is out of range",
    "more than 64 fields or 16,384 bytes after an operation",
    "the undo list is above 64 operations or 32,768 bytes",
    "the lent buffer is too short",
    "the carry buffer is under 60,009 bytes",
];

impl Error {
    pub(crate) fn new(number: u32, operation: u32, place: raw::Number) -> Error {
        Error { number, operation, offset: None, place: place.present.then_some(place.value as usize) }
    }

    pub(crate) fn of_frame(number: u32, offset: u64, place: raw::Number) -> Error {
        Error { offset: Some(offset), ..Error::new(number, 0, place) }
    }

    /// The refusal's number, 1 to 19.
    pub fn number(&self) -> u32 {
        self.number
    }

    /// The index, from 0, of the operation that was refused; only refusals 13 to 16 have one.
    pub fn operation(&self) -> Option<usize> {
        (13..=16).contains(&self.number).then_some(self.operation as usize)
    }

    /// Where a value broke: the first byte that spoils it, which is an unused first byte (c1), the array or map that goes
    /// one too deep, or the end of the bytes where more were due, whichever is leftmost.
    ///
    /// Refusal 4 in reading always has one, counted from the value's first byte or from the frame's, whose bytes end where
    /// its size says. 11 has one where the tuple, read as one value at most 13 deep, is broken, and 12 where the list is,
    /// at most 14 deep: counted from its first byte, whatever else is wrong beside it.
    ///
    /// ```
    /// let list = [0x91, 0x93, 0xa1, b'=', 0x00, 0xa2, b'x']; // [["=", 0, a string of two bytes, cut
    /// let error = laksubinat::update(&[0x90], &list, 7, &mut []).unwrap_err();
    /// assert_eq!((error.number(), error.place()), (12, Some(7))); // though the index base is wrong too
    /// assert_eq!(error.to_string(), "refused with 12: the list of operations is outside the rules, at byte 7");
    ///
    /// let error = laksubinat::update(&[0x90], &[0x90], 7, &mut []).unwrap_err();
    /// assert_eq!((error.number(), error.place()), (12, None));
    /// ```
    pub fn place(&self) -> Option<usize> {
        self.place
    }

    /// Where the refused frame begins: the length of all frames that the session gave before it. Only a refusal by a
    /// [`Session`](crate::Session) has one.
    pub fn offset(&self) -> Option<u64> {
        self.offset
    }

    /// What the number says.
    pub fn words(&self) -> &'static str {
        (self.number as usize).checked_sub(1).and_then(|row| WORDS.get(row)).copied().unwrap_or("no such number")
    }
}

impl fmt::Display for Error {
    fn fmt(&self, f: &mut fmt::Formatter<'_>) -> fmt::Result {
        write!(f, "refused with {}: {}", self.number, self.words())?;
        match (self.operation(), self.place, self.offset) {
            (Some(index), ..) => write!(f, " (operation {index})"),
            (None, Some(place), Some(offset)) => write!(f, ", at byte {place} of the frame at {offset}"),
            (None, Some(place), None) => write!(f, ", at byte {place}"),
            (None, None, Some(offset)) => write!(f, " (the frame at {offset})"),
            (None, None, None) => Ok(()),
        }
    }
}

impl std::error::Error for Error {}

#[cfg(test)]
mod tests {
    use super::*;

    #[test]
    fn words_are_the_headers() {
        let header = include_str!("../../../include/laksubinat.h");
        let table = header.split("words[] = {").nth(1).and_then(|rest| rest.split('}').next()).expect("the table");
        let words: Vec<_> = table.split('"').skip(1).step_by(2).collect();
        let ours: Vec<_> = (1..=19).map(|number| Error::new(number, 0, raw::Number::default()).words()).collect();
        assert_eq!((words[0], &words[1..]), ("accepted", &ours[..]));
    }
}
