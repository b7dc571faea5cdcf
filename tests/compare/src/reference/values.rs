//! MessagePack values: reading one held to a depth, where it broke, and the shortest forms.

/// One value: exactly its bytes, and what they mean.
pub struct Value<'a> {
    pub bytes: &'a [u8],
    pub meaning: Meaning<'a>,
}

pub enum Meaning<'a> {
    Nil,
    Boolean(bool),
    Integer(i128),
    Float32(u32),
    Float64(u64),
    String(&'a [u8]),
    Bin(&'a [u8]),
    Ext(u8, &'a [u8]),
    Array(Vec<Value<'a>>),
    Map(Vec<(Value<'a>, Value<'a>)>),
}

impl<'a> Value<'a> {
    /// "Unsigned" is a matter of the form: `d0 05` is an integer and not unsigned.
    pub fn unsigned(&self) -> Option<u64> {
        match self.bytes[0] {
            0x00..=0x7f | 0xcc..=0xcf => self.integer().map(|n| n as u64),
            _ => None,
        }
    }

    pub fn integer(&self) -> Option<i128> {
        match self.meaning {
            Meaning::Integer(n) => Some(n),
            _ => None,
        }
    }

    pub fn string(&self) -> Option<&'a [u8]> {
        match self.meaning {
            Meaning::String(content) => Some(content),
            _ => None,
        }
    }

    pub fn array(&self) -> Option<&[Value<'a>]> {
        match &self.meaning {
            Meaning::Array(items) => Some(items),
            _ => None,
        }
    }

    /// Where a part of the value's bytes starts in the bytes that it was read from.
    pub fn start_of(part: &[u8], whole: &[u8]) -> usize {
        part.as_ptr() as usize - whole.as_ptr() as usize
    }
}

/// Why bytes are no value: more are due, or one of them is wrong whatever follows.
#[derive(PartialEq)]
enum Fault {
    Missing,
    Spoiled,
}

/// The value at the start of the bytes. Where it is broken, runs past them, or is deeper than `depth`: the place of the first
/// byte that spoils it.
pub fn read(bytes: &[u8], depth: usize) -> Result<Value<'_>, usize> {
    front(bytes, depth).map_err(|_| spoiled_at(bytes, depth))
}

/// The value that is all of the bytes.
pub fn whole(bytes: &[u8], depth: usize) -> Option<Value<'_>> {
    front(bytes, depth).ok().filter(|value| value.bytes.len() == bytes.len())
}

/// The last of the fewest bytes that nothing after them makes a value; where there are none such, the end, where more were due.
fn spoiled_at(bytes: &[u8], depth: usize) -> usize {
    let spoiled = |n: usize| front(&bytes[..n], depth).is_err_and(|fault| fault == Fault::Spoiled);
    if !spoiled(bytes.len()) {
        return bytes.len();
    }
    // Bytes that follow mend nothing: the least number is found by halving.
    let (mut fine, mut bad) = (0, bytes.len());
    while fine + 1 < bad {
        let half = (fine + bad) / 2;
        match spoiled(half) {
            true => bad = half,
            false => fine = half,
        }
    }
    bad - 1
}

fn front(bytes: &[u8], depth: usize) -> Result<Value<'_>, Fault> {
    let mut rest = Rest(bytes);
    let meaning = meaning(&mut rest, depth)?;
    Ok(Value { bytes: &bytes[..bytes.len() - rest.0.len()], meaning })
}

/// The bytes that have not been read yet.
struct Rest<'a>(&'a [u8]);

impl<'a> Rest<'a> {
    fn take(&mut self, length: u64) -> Result<&'a [u8], Fault> {
        let cut = usize::try_from(length).ok().and_then(|length| self.0.split_at_checked(length));
        let (taken, rest) = cut.ok_or(Fault::Missing)?;
        self.0 = rest;
        Ok(taken)
    }

    fn unsigned(&mut self, width: u64) -> Result<u64, Fault> {
        Ok(self.take(width)?.iter().fold(0, |number, byte| number << 8 | u64::from(*byte)))
    }

    fn signed(&mut self, width: u64) -> Result<i128, Fault> {
        let number = i128::from(self.unsigned(width)?);
        let half = 1 << (8 * width - 1);
        Ok(if number < half { number } else { number - 2 * half })
    }

    fn value(&mut self, depth: usize) -> Result<Value<'a>, Fault> {
        let value = front(self.0, depth)?;
        self.take(value.bytes.len() as u64)?;
        Ok(value)
    }

    fn ext(&mut self, length: u64) -> Result<Meaning<'a>, Fault> {
        let kind = self.unsigned(1)? as u8;
        Ok(Meaning::Ext(kind, self.take(length)?))
    }

    fn array(&mut self, count: u64, inside: usize) -> Result<Meaning<'a>, Fault> {
        (0..count).map(|_| self.value(inside)).collect::<Result<_, _>>().map(Meaning::Array)
    }

    fn map(&mut self, count: u64, inside: usize) -> Result<Meaning<'a>, Fault> {
        (0..count).map(|_| Ok((self.value(inside)?, self.value(inside)?))).collect::<Result<_, _>>().map(Meaning::Map)
    }
}

fn meaning<'a>(rest: &mut Rest<'a>, depth: usize) -> Result<Meaning<'a>, Fault> {
    let first = rest.unsigned(1)?;
    // A container has depth 1 and that of the deepest value inside, so what is inside may go one less deep. One that goes too
    // deep is wrong by its first byte.
    let inside = depth.checked_sub(1).ok_or(Fault::Spoiled);
    Ok(match first {
        0x00..=0x7f => Meaning::Integer(first.into()),
        0x80..=0x8f => rest.map(first - 0x80, inside?)?,
        0x90..=0x9f => rest.array(first - 0x90, inside?)?,
        0xa0..=0xbf => Meaning::String(rest.take(first - 0xa0)?),
        0xc0 => Meaning::Nil,
        0xc2 => Meaning::Boolean(false),
        0xc3 => Meaning::Boolean(true),
        0xc4..=0xc6 => {
            let length = rest.unsigned(1 << (first - 0xc4))?;
            Meaning::Bin(rest.take(length)?)
        }
        0xc7..=0xc9 => {
            let length = rest.unsigned(1 << (first - 0xc7))?;
            rest.ext(length)?
        }
        0xca => Meaning::Float32(rest.unsigned(4)? as u32),
        0xcb => Meaning::Float64(rest.unsigned(8)?),
        0xcc..=0xcf => Meaning::Integer(rest.unsigned(1 << (first - 0xcc))?.into()),
        0xd0..=0xd3 => Meaning::Integer(rest.signed(1 << (first - 0xd0))?),
        0xd4..=0xd8 => rest.ext(1 << (first - 0xd4))?,
        0xd9..=0xdb => {
            let length = rest.unsigned(1 << (first - 0xd9))?;
            Meaning::String(rest.take(length)?)
        }
        0xdc..=0xdd => {
            let (inside, count) = (inside?, rest.unsigned(2 << (first - 0xdc))?);
            rest.array(count, inside)?
        }
        0xde..=0xdf => {
            let (inside, count) = (inside?, rest.unsigned(2 << (first - 0xde))?);
            rest.map(count, inside)?
        }
        0xe0..=0xff => Meaning::Integer(i128::from(first) - 0x100),
        _ => return Err(Fault::Spoiled), // c1
    })
}

/// A form's first byte, then the last `width` bytes of a number.
pub fn tagged(first: u8, number: i128, width: usize) -> Vec<u8> {
    let mut bytes = vec![first];
    bytes.extend_from_slice(&number.to_be_bytes()[16 - width..]);
    bytes
}

/// The shortest form of an integer: unsigned forms from 0 up, signed forms below 0.
pub fn integer(n: i128) -> Vec<u8> {
    match n {
        -0x20..=0x7f => vec![n as u8],
        0x80..=0xff => tagged(0xcc, n, 1),
        0x100..=0xffff => tagged(0xcd, n, 2),
        0x1_0000..=0xffff_ffff => tagged(0xce, n, 4),
        0x1_0000_0000.. => tagged(0xcf, n, 8),
        -0x80..=-0x21 => tagged(0xd0, n, 1),
        -0x8000..=-0x81 => tagged(0xd1, n, 2),
        -0x8000_0000..=-0x8001 => tagged(0xd2, n, 4),
        _ => tagged(0xd3, n, 8),
    }
}

pub fn string(content: &[u8]) -> Vec<u8> {
    let n = content.len() as i128;
    let header = match n {
        0..=31 => vec![0xa0 + n as u8],
        32..=0xff => tagged(0xd9, n, 1),
        0x100..=0xffff => tagged(0xda, n, 2),
        _ => tagged(0xdb, n, 4),
    };
    [&header, content].concat()
}

/// The shortest array header, then the items' bytes.
pub fn array<Item: AsRef<[u8]>>(items: &[Item]) -> Vec<u8> {
    let n = items.len() as i128;
    let mut bytes = match n {
        0..=15 => vec![0x90 + n as u8],
        16..=0xffff => tagged(0xdc, n, 2),
        _ => tagged(0xdd, n, 4),
    };
    for item in items {
        bytes.extend_from_slice(item.as_ref());
    }
    bytes
}
