use crate::raw;
use std::ops::Range;

/// Where a value stands in the bytes that a frame was read from, or is to be written from.
#[derive(Clone, Copy, Debug, Default, PartialEq, Eq, Hash)]
pub struct Place {
    /// Where its first byte is, the header byte of the value.
    pub start: usize,
    /// How many bytes it has.
    pub length: usize,
}

impl Place {
    /// The value's view: the part of the bytes that holds exactly its encoding; none where the place is outside them.
    pub fn view<'a>(&self, bytes: &'a [u8]) -> Option<&'a [u8]> {
        bytes.get(self.start..)?.get(..self.length)
    }
}

impl From<Range<usize>> for Place {
    fn from(range: Range<usize>) -> Place {
        Place { start: range.start, length: range.len() }
    }
}

/// The record of a frame: its numbers, and the place of each value.
#[derive(Clone, Copy, Debug, Default, PartialEq, Eq, Hash)]
pub struct Frame {
    /// Header 0x00: what kind of frame it is, see [`Frame::kind`].
    pub code: u64,
    /// Header 0x01: the number that an answer shares with its request.
    pub sync: Option<u64>,
    /// Header 0x05: the schema version.
    pub schema_version: Option<u64>,
    /// Body 0x10: the space, at most 4,294,967,295 like the four numbers after it.
    pub space: Option<u64>,
    /// Body 0x11: the index; absent counts as 0, see [`Frame::index`].
    pub index: Option<u64>,
    /// Body 0x12: the limit of a select.
    pub limit: Option<u64>,
    /// Body 0x13: the offset of a select; absent counts as 0, see [`Frame::offset`].
    pub offset: Option<u64>,
    /// Body 0x14: the iterator of a select; absent counts as 0, see [`Frame::iterator`].
    pub iterator: Option<u64>,
    /// Body 0x15: what field numbers count from, 0 or 1; absent counts as 0, see [`Frame::index_base`].
    pub index_base: Option<u64>,
    /// Body 0x20: the key, an array.
    pub key: Option<Place>,
    /// Body 0x21: the tuple, an array; in an update the list of operations.
    pub tuple: Option<Place>,
    /// Body 0x22: the function's name, a string.
    pub function: Option<Place>,
    /// Body 0x23: the user's name, a string.
    pub user: Option<Place>,
    /// Body 0x27: the expression, a string.
    pub expression: Option<Place>,
    /// Body 0x28: the operations of an upsert, an array.
    pub ops: Option<Place>,
    /// Body 0x30: the data of an answer, one value.
    pub data: Option<Place>,
    /// Body 0x31: the error's message, a string.
    pub error: Option<Place>,
}

/// The kinds of frame, by their codes, with what the body requires (10).
#[derive(Clone, Copy, Debug, PartialEq, Eq, Hash)]
pub enum Kind {
    /// Code 0x01, which requires space, limit and key.
    Select,
    /// Code 0x02, which requires space and tuple.
    Insert,
    /// Code 0x03, which requires space and tuple.
    Replace,
    /// Code 0x04, which requires space, key and tuple.
    Update,
    /// Code 0x05, which requires space and key.
    Delete,
    /// Code 0x06, which requires function and tuple.
    Call16,
    /// Code 0x07, which requires user and tuple.
    Auth,
    /// Code 0x08, which requires expression and tuple.
    Eval,
    /// Code 0x09, which requires space, tuple and ops.
    Upsert,
    /// Code 0x0a, which requires function and tuple.
    Call,
    /// Code 0x40, which requires nothing.
    Ping,
    /// Code 0x00, which requires nothing.
    Ok,
    /// Codes 0x8000 to 0x8fff, which require error: an answer with the error's number, 0 to 0xfff.
    Error(u16),
}

impl Frame {
    /// The kind that the code names; none for a code that reading and writing refuse with 8.
    pub fn kind(&self) -> Option<Kind> {
        Some(match self.code {
            0x01 => Kind::Select,
            0x02 => Kind::Insert,
            0x03 => Kind::Replace,
            0x04 => Kind::Update,
            0x05 => Kind::Delete,
            0x06 => Kind::Call16,
            0x07 => Kind::Auth,
            0x08 => Kind::Eval,
            0x09 => Kind::Upsert,
            0x0a => Kind::Call,
            0x40 => Kind::Ping,
            0x00 => Kind::Ok,
            0x8000..=0x8fff => Kind::Error((self.code - 0x8000) as u16),
            _ => return None,
        })
    }

    /// What the index counts as, 0 where it is absent; the field of the same name tells whether it was there, and writing
    /// leaves an absent one out.
    ///
    /// ```
    /// use laksubinat::{read_frame, write_frame};
    ///
    /// # fn main() -> Result<(), laksubinat::Error> {
    /// // a select of space, limit and key
    /// let bytes = [0xce, 0, 0, 0, 11, 0x81, 0x00, 0x01, 0x83, 0x10, 0x07, 0x12, 0x01, 0x20, 0x91, 0x2a];
    /// let (frame, _) = read_frame(&bytes)?;
    /// assert_eq!((frame.index(), frame.offset(), frame.iterator()), (0, 0, 0));
    /// assert_eq!((frame.index, frame.offset, frame.iterator), (None, None, None));
    ///
    /// let mut out = [0; 64];
    /// let n = write_frame(&frame, &bytes, &mut out)?;
    /// assert_eq!(out[..n], bytes);
    /// # Ok(())
    /// # }
    /// ```
    pub fn index(&self) -> u64 {
        self.index.unwrap_or(0)
    }

    /// What the offset counts as, 0 where it is absent.
    pub fn offset(&self) -> u64 {
        self.offset.unwrap_or(0)
    }

    /// What the iterator counts as, 0 where it is absent.
    pub fn iterator(&self) -> u64 {
        self.iterator.unwrap_or(0)
    }

    /// What the index base counts as, 0 where it is absent.
    pub fn index_base(&self) -> u64 {
        self.index_base.unwrap_or(0)
    }
}

impl From<raw::Number> for Option<u64> {
    fn from(number: raw::Number) -> Option<u64> {
        number.present.then_some(number.value)
    }
}

impl From<Option<u64>> for raw::Number {
    fn from(number: Option<u64>) -> raw::Number {
        number.map_or(raw::Number::default(), |value| raw::Number { present: true, value })
    }
}

impl From<raw::Place> for Option<Place> {
    fn from(place: raw::Place) -> Option<Place> {
        place.present.then_some(Place { start: place.start as usize, length: place.length as usize })
    }
}

impl From<Option<Place>> for raw::Place {
    fn from(place: Option<Place>) -> raw::Place {
        place.map_or(raw::Place::default(), |Place { start, length }| raw::Place {
            present: true,
            start: start as u64,
            length: length as u64,
        })
    }
}

/// Both directions field by field, so that a field that one of the two structs lacks does not compile.
macro_rules! same_fields {
    ($from:ty => $to:ty) => {
        impl From<$from> for $to {
            fn from(frame: $from) -> $to {
                type To = $to;
                To {
                    code: frame.code,
                    sync: frame.sync.into(),
                    schema_version: frame.schema_version.into(),
                    space: frame.space.into(),
                    index: frame.index.into(),
                    limit: frame.limit.into(),
                    offset: frame.offset.into(),
                    iterator: frame.iterator.into(),
                    index_base: frame.index_base.into(),
                    key: frame.key.into(),
                    tuple: frame.tuple.into(),
                    function: frame.function.into(),
                    user: frame.user.into(),
                    expression: frame.expression.into(),
                    ops: frame.ops.into(),
                    data: frame.data.into(),
                    error: frame.error.into(),
                }
            }
        }
    };
}

same_fields!(raw::Frame => Frame);
same_fields!(Frame => raw::Frame);

#[cfg(test)]
mod tests {
    use super::*;

    #[test]
    fn absent_numbers_count_as_0() {
        let counted = |frame: Frame| [frame.index(), frame.offset(), frame.iterator(), frame.index_base()];
        let there = Frame { index: Some(2), offset: Some(3), iterator: Some(4), index_base: Some(1), ..Frame::default() };
        assert_eq!((counted(there), counted(Frame::default())), ([2, 3, 4, 1], [0; 4]));
    }
}
