use crate::raw;

/// What one MessagePack value means. Strings, bins, exts and containers are parts of the bytes that were read.
#[derive(Clone, Copy, Debug, PartialEq)]
pub enum Value<'a> {
    /// Nil.
    Nil,
    /// True or false.
    Boolean(bool),
    /// An integer from 0 up, in whatever form it was sent.
    Unsigned(u64),
    /// An integer below 0.
    Negative(i64),
    /// A float 32 with exactly the bits sent, also those of a NaN (see [`f32::to_bits`]).
    Float32(f32),
    /// A float 64 with exactly the bits sent, also those of a NaN (see [`f64::to_bits`]).
    Float64(f64),
    /// A string's content; it is not checked as UTF-8.
    String(&'a [u8]),
    /// A bin's content.
    Bin(&'a [u8]),
    /// An ext's type and its content.
    Ext(i8, &'a [u8]),
    /// An array's whole encoding, its header included.
    Array(&'a [u8]),
    /// A map's whole encoding, its header included.
    Map(&'a [u8]),
}

impl<'a> Value<'a> {
    pub(crate) fn of(answer: &raw::ValueAnswer, bytes: &'a [u8]) -> Value<'a> {
        let start = answer.start as usize;
        let content = &bytes[start..start + answer.size as usize];
        match answer.kind {
            0 => Value::Nil,
            1 => Value::Boolean(answer.bits != 0),
            2 => Value::Unsigned(answer.bits),
            3 => Value::Negative(answer.bits as i64),
            4 => Value::Float32(f32::from_bits(answer.bits as u32)),
            5 => Value::Float64(f64::from_bits(answer.bits)),
            6 => Value::String(content),
            7 => Value::Bin(content),
            8 => Value::Ext(answer.ext_type as i8, content),
            9 => Value::Array(content),
            10 => Value::Map(content),
            other => unreachable!("the library has no value kind {other}"),
        }
    }
}
