//! The second implementation: the library's rules in their clearest form, written from the papers and from nothing else.
//! Numbers are `i128`, bytes are vectors, containers are trees, and nothing is quick.

pub mod frames;
pub mod sessions;
pub mod updates;
pub mod values;

/// A refusal's number, the operation's index for 13 to 16, and the place where a value broke.
#[derive(Clone, Copy, Debug, PartialEq, Eq)]
pub struct Refusal {
    pub number: u32,
    pub operation: u32,
    pub place: Option<usize>,
}

impl From<u32> for Refusal {
    fn from(number: u32) -> Refusal {
        Refusal { number, operation: 0, place: None }
    }
}
