//! Document 01, and P1 to P3 and P5 to P7 of document 02, once more, by other means than the library's, and with Vec,
//! String and HashMap at will:
//! - words are read and written as strings of digits; what has ones in front is read to its rows, and these are packed;
//! - characters come from permutation characters, made orthogonal: no hook, no sign rule and no beta-number;
//! - what a strike leaves comes from the rules of 1954 on lists of rows;
//! - a session is a Vec of lines, a strip is read as lines, and a text by splitting;
//! - like lines are gathered by a map from shape and class to the sum of what they bring.
//!
//! A call that is refused is an `Err` with the refusal number.

pub mod characters;
pub mod gathered;
pub mod partitions;
pub mod sessions;
pub mod texts;
pub mod words;

/// The largest degree.
pub const DEGREE_LIMIT: u32 = 16;

/// The longest list of shapes.
pub const LIST_LIMIT: usize = 4096;

/// The parts of a partition, longest first.
pub type Parts = Vec<u8>;

/// What a call gives, or its refusal number.
pub type Answer<T> = Result<T, u32>;
