//! The lent records, laid out as C lays them out, and the answers.

/// The largest number of blocks.
pub const MOST_BLOCKS: usize = 64;
/// The largest number of entries in a block.
pub const MOST_ENTRIES: usize = 64;
/// The largest number of desks, and how many the head has room for.
pub const MOST_DESKS: usize = 16;
/// The largest label.
pub const LAST_LABEL: u32 = 999_999;
/// How many rounds a block can have: 0 to 65,535.
pub const ROUNDS: u32 = 65_536;

/// Stage of a desk that holds nothing. Its turn and place are not read.
pub const IDLE: u16 = 0;
/// Stage of a desk that has seen a place.
pub const LOOKED: u16 = 1;
/// Stage of a desk that has won a place and not fetched its label.
pub const CLAIMED: u16 = 2;
/// Stage of a desk that has fetched the label and not finished.
pub const FETCHED: u16 = 3;

/// One desk: its stage, and the turn and place that it carries unless it is idle.
#[derive(Clone, Copy, Debug, Default, PartialEq, Eq)]
#[repr(C)]
pub struct Desk {
    /// 0 idle, 1 looked, 2 claimed, 3 fetched.
    pub stage: u16,
    /// The place in the block.
    pub place: u16,
    /// The turn.
    pub turn: u32,
}

/// One record of the block table.
#[derive(Clone, Copy, Debug, Default, PartialEq, Eq)]
#[repr(C)]
pub struct Block {
    /// The round of the block's current turn.
    pub round: u16,
    /// How many labels were put in this turn.
    pub written: u16,
    /// How many places desks have claimed in this turn.
    pub claimed: u16,
    /// How many of these are finished.
    pub finished: u16,
}

/// The head.
#[derive(Clone, Copy, Debug, Default, PartialEq, Eq)]
#[repr(C)]
pub struct Head {
    /// NB.
    pub nb: u16,
    /// NE.
    pub ne: u16,
    /// T.
    pub t: u16,
    /// The reading place.
    pub reading: u16,
    /// P, the put turn.
    pub p: u32,
    /// K, the get turn.
    pub k: u32,
    /// The desks.
    pub desks: [Desk; MOST_DESKS],
}

/// The answer to a step: number 0 where it was taken, else the refusal's, and the value.
#[derive(Clone, Copy, Debug, PartialEq, Eq)]
pub struct Answer {
    /// 0, or the refusal's number.
    pub number: u32,
    /// The label, count or place of the answer; 0 in a refusal, except an order's count.
    pub value: u32,
}

impl Answer {
    /// The answer of a step that was taken.
    #[must_use]
    pub const fn taken(value: u32) -> Self {
        Self { number: 0, value }
    }

    /// A refusal with the value 0.
    #[must_use]
    pub const fn refused(number: u32) -> Self {
        Self { number, value: 0 }
    }
}

/// The check's answer: sound (0, 0, 0), UNFIT (1, 0, 0), or DAMAGED (2) with place and rule.
#[derive(Clone, Copy, Debug, PartialEq, Eq)]
pub struct Checked {
    /// 0 sound, 1 UNFIT, 2 DAMAGED.
    pub number: u32,
    /// 64 for the head, else the block.
    pub place: u32,
    /// The rule, 1 to 7.
    pub rule: u32,
}

/// The survey's answer.
#[derive(Clone, Copy, Debug, PartialEq, Eq)]
pub struct Findings {
    /// Bit b: an idle desk's look at block b would be SEEN.
    pub mask: u64,
    /// 0, 1 UNFIT or 2 DAMAGED.
    pub number: u32,
    /// How many blocks an idle desk could take from.
    pub count: u32,
    /// The lowest of them, or 64.
    pub lowest: u32,
}

/// The refusals' numbers.
pub mod refusal {
    /// NB, NE or T outside its limits, or lent lengths not NB and NB × NE.
    pub const UNFIT: u32 = 1;
    /// A rule of a sound line is broken.
    pub const DAMAGED: u32 = 2;
    /// A code that is not listed.
    pub const BADSTEP: u32 = 3;
    /// A desk number of T or more.
    pub const NODESK: u32 = 4;
    /// A look at block NB or more.
    pub const NOBLOCK: u32 = 5;
    /// The grid says no.
    pub const STAGE: u32 = 6;
    /// A look at an owned block.
    pub const OWNED: u32 = 7;
    /// A look at an unused block, or where claimed = written.
    pub const NOTHING: u32 = 8;
    /// A claim that came too late.
    pub const LOST: u32 = 9;
    /// A put of a number above 999,999.
    pub const NOTLABEL: u32 = 10;
    /// An order with A > B or B > 999,999.
    pub const RANGE: u32 = 11;
    /// A put that would start round 65,536.
    pub const WORN: u32 = 12;
    /// A put with no block to start.
    pub const FULL: u32 = 13;
    /// A put whose block has claims that are not finished.
    pub const BUSY: u32 = 14;
    /// A get with nothing to hand over.
    pub const EMPTY: u32 = 15;
}
