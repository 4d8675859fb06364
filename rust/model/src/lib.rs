//! The paper read a second time, plainly, to be held against the proved library.
//!
//! Nothing here is taken from the library. There are three readings, each for itself:
//!
//! - [`book`]: the meaning. A list of labels, a mark on each, K, and the desks with row numbers.
//! - [`mod@line`]: the steps done in place on the lent memory, with [`check`] before each.
//! - [`rules`]: the rules of a sound line, sentence by sentence, with no thought of speed.
//!
//! [`told`] joins the first two: it writes down the whole memory that a line must have, from the book alone.
#![forbid(unsafe_code)]

pub mod book;
pub mod check;
pub mod line;
pub mod records;
pub mod rules;
pub mod told;
pub mod words;
