//! What the check finds wrong: the place and the rule.

use crate::raw;
use crate::refusal::Refusal;
use crate::version::VERSION;
use std::error::Error;
use std::fmt;

/// What the check finds wrong.
#[derive(Clone, Copy, Debug, PartialEq, Eq, Hash)]
pub enum Fault {
    /// UNFIT: NB, NE or T is outside its limits, or the lent lengths are not NB and NB × NE.
    Unfit,
    /// DAMAGED: a rule of a sound line is broken.
    Damaged {
        /// The head, or else the lowest block that breaks a rule.
        place: Place,
        /// The first rule broken there.
        rule: Rule,
    },
}

impl Fault {
    pub(crate) fn of(checked: raw::Checked) -> Result<(), Self> {
        let raw::Checked { number, place, rule } = checked;
        match Refusal::of(number) {
            Ok(()) => Ok(()),
            Err(Refusal::Unfit) => Err(Self::Unfit),
            Err(_) => match Rule::from_number(rule) {
                Some(rule) => Err(Self::Damaged { place: Place::of(place), rule }),
                None => panic!("the library names rule {rule}, which is none of version {VERSION}"),
            },
        }
    }

    /// The refusal that every step on this memory gets.
    #[must_use]
    pub const fn refusal(self) -> Refusal {
        match self {
            Self::Unfit => Refusal::Unfit,
            Self::Damaged { .. } => Refusal::Damaged,
        }
    }
}

impl fmt::Display for Fault {
    fn fmt(&self, f: &mut fmt::Formatter<'_>) -> fmt::Result {
        match self {
            Self::Unfit => Refusal::Unfit.fmt(f),
            Self::Damaged { place, rule } => write!(f, "DAMAGED: {place} breaks {rule}"),
        }
    }
}

impl Error for Fault {}

/// Where a rule is broken. It prints as `the head` or `block 3`.
#[derive(Clone, Copy, Debug, PartialEq, Eq, Hash)]
pub enum Place {
    /// The head: rules 1 to 3.
    Head,
    /// A block: rules 4 to 7.
    Block(u32),
}

impl Place {
    /// The number that stands for the head. Blocks have smaller ones.
    pub const HEAD: u32 = 64;

    const fn of(number: u32) -> Self {
        match number {
            Self::HEAD => Self::Head,
            block => Self::Block(block),
        }
    }

    /// The paper's number: 64, or the block's.
    #[must_use]
    pub const fn number(self) -> u32 {
        match self {
            Self::Head => Self::HEAD,
            Self::Block(block) => block,
        }
    }
}

impl fmt::Display for Place {
    fn fmt(&self, f: &mut fmt::Formatter<'_>) -> fmt::Result {
        match self {
            Self::Head => f.write_str("the head"),
            Self::Block(block) => write!(f, "block {block}"),
        }
    }
}

/// A rule of a sound line, by what it speaks of. It prints with its number: `rule 2, of the reading place`.
#[derive(Clone, Copy, Debug, PartialEq, Eq, PartialOrd, Ord, Hash)]
#[non_exhaustive]
#[repr(u8)]
pub enum Rule {
    /// Rule 1: K ≤ P, P − K ≤ NB − 1, P below 65,536 × NB.
    Turns = 1,
    /// Rule 2: the reading place is from claimed to written of turn K's block.
    Reading = 2,
    /// Rule 3: every desk is where its stage can be, and no two hold one place.
    Desks = 3,
    /// Rule 4: the round is the current turn's; an unused block has zeros throughout.
    Round = 4,
    /// Rule 5: written is NE below turn P, and from 1 to NE at turn P, or 0 in turn 0.
    Written = 5,
    /// Rule 6: claimed ≤ written, and 0 in turn 0.
    Claimed = 6,
    /// Rule 7: claimed − finished is the number of desks that hold a place in the block's turn.
    Finished = 7,
}

impl Rule {
    /// All rules.
    pub const ALL: &'static [Self] =
        &[Self::Turns, Self::Reading, Self::Desks, Self::Round, Self::Written, Self::Claimed, Self::Finished];

    /// The rule of this number.
    #[must_use]
    pub fn from_number(number: u32) -> Option<Self> {
        Self::ALL.iter().copied().find(|rule| rule.number() == number)
    }

    /// Its number in the paper.
    #[must_use]
    pub const fn number(self) -> u32 {
        self as u32
    }
}

impl fmt::Display for Rule {
    fn fmt(&self, f: &mut fmt::Formatter<'_>) -> fmt::Result {
        let of = match self {
            Self::Turns => "the put turn and the get turn",
            Self::Reading => "the reading place",
            Self::Desks => "the desks",
            Self::Round => "the round",
            Self::Written => "written",
            Self::Claimed => "claimed",
            Self::Finished => "finished",
        };
        write!(f, "rule {}, of {of}", self.number())
    }
}
