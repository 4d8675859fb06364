//! The refusals.

use crate::version::VERSION;
use std::error::Error;
use std::fmt;

/// Why a step was not done. It prints as a sentence that begins with the paper's word; [`word`](Self::word) is that
/// word.
///
/// Where more than one of these fifteen could be given it is the first: the paper makes its tests in the order of its
/// numbers. Refusals that come later have larger numbers and may be tested earlier.
///
/// ```
/// use lbq::Refusal;
///
/// assert_eq!(Refusal::Stage.word(), "STAGE");
/// assert_eq!(Refusal::Stage.to_string(), "STAGE: the desk's stage does not take this step");
/// ```
#[derive(Clone, Copy, Debug, PartialEq, Eq, PartialOrd, Ord, Hash)]
#[non_exhaustive]
#[repr(u8)]
pub enum Refusal {
    /// UNFIT: NB, NE or T is outside its limits, or the lent lengths are not NB and NB × NE.
    Unfit = 1,
    /// DAMAGED: the lent memory breaks a rule of a sound line; [`Line::check`](crate::Line::check) says which.
    Damaged = 2,
    /// BADSTEP: no step has this code.
    BadStep = 3,
    /// NODESK: the desk number is T or more.
    NoDesk = 4,
    /// NOBLOCK: a look at block NB or more.
    NoBlock = 5,
    /// STAGE: the desk's stage does not take this step.
    Stage = 6,
    /// OWNED: a look at a block that the owner reads or has read.
    Owned = 7,
    /// NOTHING: a look at a block with no label to take.
    Nothing = 8,
    /// LOST: what the desk saw is no longer so. The desk is idle now.
    Lost = 9,
    /// NOTLABEL: a put of a number above 999,999.
    NotLabel = 10,
    /// RANGE: an order from a larger number to a smaller, or beyond 999,999.
    Range = 11,
    /// WORN: the block to start has had all its 65,536 rounds.
    Worn = 12,
    /// FULL: the block to start is one that the owner has not left.
    Full = 13,
    /// BUSY: the block to start has a desk that claimed there and has not finished.
    Busy = 14,
    /// EMPTY: nothing is left for the owner to get.
    Empty = 15,
}

impl Refusal {
    /// All refusals.
    pub const ALL: &'static [Self] = &[
        Self::Unfit,
        Self::Damaged,
        Self::BadStep,
        Self::NoDesk,
        Self::NoBlock,
        Self::Stage,
        Self::Owned,
        Self::Nothing,
        Self::Lost,
        Self::NotLabel,
        Self::Range,
        Self::Worn,
        Self::Full,
        Self::Busy,
        Self::Empty,
    ];

    /// The refusal of this number.
    #[must_use]
    pub fn from_number(number: u32) -> Option<Self> {
        Self::ALL.iter().copied().find(|refusal| refusal.number() == number)
    }

    /// Its number in the paper's table.
    #[must_use]
    pub const fn number(self) -> u32 {
        self as u32
    }

    /// Its word.
    #[must_use]
    pub const fn word(self) -> &'static str {
        self.said().0
    }

    /// Its word, and what it says.
    const fn said(self) -> (&'static str, &'static str) {
        match self {
            Self::Unfit => {
                ("UNFIT", "a size is outside its limits, or the memory has other lengths than the sizes ask for")
            }
            Self::Damaged => ("DAMAGED", "the memory breaks a rule of a sound line"),
            Self::BadStep => ("BADSTEP", "no step has this code"),
            Self::NoDesk => ("NODESK", "the line has no desk of this number"),
            Self::NoBlock => ("NOBLOCK", "the line has no block of this number"),
            Self::Stage => ("STAGE", "the desk's stage does not take this step"),
            Self::Owned => ("OWNED", "the owner reads this block or has read it"),
            Self::Nothing => ("NOTHING", "the block has no label to take"),
            Self::Lost => ("LOST", "what the desk saw is no longer so, and the desk is idle"),
            Self::NotLabel => ("NOTLABEL", "the number is above 999,999 and no label"),
            Self::Range => ("RANGE", "the order's first label is above its last, or its last above 999,999"),
            Self::Worn => ("WORN", "the block to start has had all its rounds"),
            Self::Full => ("FULL", "the owner has not left the block to start"),
            Self::Busy => ("BUSY", "a desk in the block to start has not finished"),
            Self::Empty => ("EMPTY", "there is nothing for the owner to get"),
        }
    }

    /// `Ok` for number 0, else the refusal.
    pub(crate) fn of(number: u32) -> Result<(), Self> {
        match (number, Self::from_number(number)) {
            (0, _) => Ok(()),
            (_, Some(refusal)) => Err(refusal),
            (_, None) => panic!("the library answers {number}, which is no refusal of version {VERSION}"),
        }
    }
}

impl fmt::Display for Refusal {
    fn fmt(&self, f: &mut fmt::Formatter<'_>) -> fmt::Result {
        let (word, what) = self.said();
        write!(f, "{word}: {what}")
    }
}

impl Error for Refusal {}

/// An order that was not placed whole: why it stopped, and how many labels it had placed.
#[derive(Clone, Copy, Debug, PartialEq, Eq, Hash)]
pub struct Stopped {
    /// Why the next label was refused, or the whole order.
    pub refusal: Refusal,
    /// How many labels were placed; they stay.
    pub placed: u32,
}

impl fmt::Display for Stopped {
    fn fmt(&self, f: &mut fmt::Formatter<'_>) -> fmt::Result {
        write!(f, "{}; labels placed before: {}", self.refusal, self.placed)
    }
}

impl Error for Stopped {}
