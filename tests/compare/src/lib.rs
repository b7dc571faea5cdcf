//! Independent tests: a second implementation of the library's rules, and its comparison with the library.

pub mod calls;
pub mod cases;
pub mod comparison;
pub mod generate;
pub mod random;
pub mod reference;
pub mod sequence;
pub mod stream;
