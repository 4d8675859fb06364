//! A line of labels that idle presses may take from.
//!
//! The press that owns a [`Line`] puts labels in and gets them out, first in, first out. When another press runs dry,
//! its *desk* takes labels too: it looks at a block, claims the next label there, fetches it, and says when it is
//! finished. Every call is one step with one answer, and a step that cannot be done is refused with a word that says
//! why ([`Refusal`]). The steps themselves are the proved library's; this crate only lends it memory and names its
//! answers, and is no part of the proof.
//!
//! ```
//! use lbq::{Line, Refusal, Sizes};
//!
//! let mut line = Line::open(Sizes { blocks: 2, entries: 64, desks: 1 })?;
//! line.order(1, 100)?;
//!
//! // The desk takes from the lowest block that it can.
//! let block = line.survey()?.lowest.expect("block 1 has labels 65 to 100");
//! line.look(0, block)?;
//! line.claim(0)?;
//! assert_eq!(line.fetch(0)?, 65);
//! line.finish(0)?;
//!
//! // The owner gets the rest, in order.
//! assert_eq!(line.get()?, 1);
//! for _ in 1..99 {
//!     line.get()?;
//! }
//! assert_eq!(line.get(), Err(Refusal::Empty));
//! # Ok::<(), Box<dyn std::error::Error>>(())
//! ```
//!
//! A [`Line`] owns its memory, or works on memory that was lent to it ([`LineMut`]). Lent memory may be of any length
//! and hold any numbers: what is not a sound line is refused, and stays as it was found.
//!
//! ```
//! use lbq::{Block, Head, LineMut, Refusal, Sizes};
//!
//! let (mut head, mut table, mut entries) = (Head::default(), [Block::default(); 4], [0; 4 * 8]);
//! let mut line = LineMut::over(&mut head, &mut table, &mut entries);
//! assert_eq!(line.put(5), Err(Refusal::Unfit));
//! line.reopen(Sizes { blocks: 4, entries: 8, desks: 16 })?;
//! line.put(5)?;
//!
//! head.k = 1; // somebody else wrote the head
//! let mut line = LineMut::over(&mut head, &mut table, &mut entries);
//! assert_eq!(line.get(), Err(Refusal::Damaged));
//! let fault = line.check().unwrap_err();
//! assert_eq!(fault.to_string(), "DAMAGED: the head breaks rule 1, of the put turn and the get turn");
//! # Ok::<(), Box<dyn std::error::Error>>(())
//! ```
//!
//! A [`Schedule`] is a run of steps in bytes, as the player reads it; `examples/play.rs` plays one.

mod answer;
mod fault;
mod line;
pub mod raw;
mod records;
mod refusal;
mod schedule;
mod sizes;
mod step;
mod survey;
mod version;

pub use answer::Answer;
pub use fault::{Fault, Place, Rule};
pub use line::{Line, LineMut};
pub use records::{Block, Desk, Head, Stage};
pub use refusal::{Refusal, Stopped};
pub use schedule::{Cut, Schedule, ScheduleError, Steps};
pub use sizes::{Sizes, LAST_LABEL, LAST_ROUND};
pub use step::Step;
pub use survey::Survey;
pub use version::VERSION;

/// The number of the library that is linked; it has to be [`VERSION`].
#[must_use]
pub fn library_version() -> u32 {
    // SAFETY: the call takes nothing and gives a number.
    unsafe { raw::lbq_version() }
}

/// The README's example runs as printed.
#[cfg(doctest)]
#[doc = include_str!("../../../README.md")]
struct Readme;
