//! The answer to a step, in the paper's words.

use crate::raw;
use crate::refusal::Refusal;
use crate::step::Step;
use std::fmt;

/// The answer to a step, whatever its code. It prints as the player does: the word, then the value.
///
/// ```
/// use lbq::{Answer, Line, Sizes, Step};
///
/// let mut line = Line::open(Sizes { blocks: 2, entries: 2, desks: 2 })?;
/// assert_eq!(line.step(Step::put(5)), Answer::Put(5));
/// assert_eq!(line.step(Step::order(6, 9)).to_string(), "FULL 3");
/// # Ok::<(), lbq::Refusal>(())
/// ```
#[derive(Clone, Copy, Debug, PartialEq, Eq, Hash)]
#[non_exhaustive]
pub enum Answer {
    /// PUT: this label was placed.
    Put(u32),
    /// GOT: this label was handed over to the owner.
    Got(u32),
    /// WHOLE: an order of so many labels was placed.
    Whole(u32),
    /// SEEN: the desk looked and saw this place.
    Seen(u32),
    /// CLAIMED: the desk has won this place.
    Claimed(u32),
    /// TOOK: this label was handed over to the desk.
    Took(u32),
    /// DONE: the desk has finished.
    Done,
    /// The step was refused, with the value 0, or for an order the number of labels placed.
    Refused(Refusal, u32),
}

impl Answer {
    /// Names the library's answer to a step of this code.
    pub(crate) fn of(code: u8, answer: raw::Answer) -> Self {
        let raw::Answer { number, value } = answer;
        if let Err(refusal) = Refusal::of(number) {
            return Self::Refused(refusal, value);
        }
        match code {
            Step::PUT => Self::Put(value),
            Step::GET => Self::Got(value),
            Step::ORDER => Self::Whole(value),
            _ => match code - code % Step::DESKS {
                Step::CLAIM => Self::Claimed(value),
                Step::FETCH => Self::Took(value),
                Step::FINISH => Self::Done,
                Step::LOOK => Self::Seen(value),
                _ => panic!("the library takes a step of code {code}, which is none"),
            },
        }
    }

    /// 0 for a step that was taken, else the refusal's number.
    #[must_use]
    pub const fn number(self) -> u32 {
        match self {
            Self::Refused(refusal, _) => refusal.number(),
            _ => 0,
        }
    }

    /// The label, place or count.
    #[must_use]
    pub const fn value(self) -> u32 {
        match self {
            Self::Done => 0,
            Self::Put(value)
            | Self::Got(value)
            | Self::Whole(value)
            | Self::Seen(value)
            | Self::Claimed(value)
            | Self::Took(value)
            | Self::Refused(_, value) => value,
        }
    }

    /// The paper's word.
    #[must_use]
    pub const fn word(self) -> &'static str {
        match self {
            Self::Put(_) => "PUT",
            Self::Got(_) => "GOT",
            Self::Whole(_) => "WHOLE",
            Self::Seen(_) => "SEEN",
            Self::Claimed(_) => "CLAIMED",
            Self::Took(_) => "TOOK",
            Self::Done => "DONE",
            Self::Refused(refusal, _) => refusal.word(),
        }
    }
}

impl fmt::Display for Answer {
    fn fmt(&self, f: &mut fmt::Formatter<'_>) -> fmt::Result {
        write!(f, "{} {}", self.word(), self.value())
    }
}
