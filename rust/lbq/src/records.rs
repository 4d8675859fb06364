//! The memory that is lent to the library, laid out as C lays it out.

/// What a desk has done, and so which step it can do next: an idle desk looks; a looked one looks again or claims; a
/// claimed one fetches; a fetched one finishes.
#[derive(Clone, Copy, Debug, PartialEq, Eq, Hash)]
#[repr(u16)]
pub enum Stage {
    /// It has nothing.
    Idle = 0,
    /// It has seen a turn and a place.
    Looked = 1,
    /// It has won the place.
    Claimed = 2,
    /// It has the label.
    Fetched = 3,
}

impl Stage {
    /// All stages.
    pub const ALL: &'static [Self] = &[Self::Idle, Self::Looked, Self::Claimed, Self::Fetched];

    /// The stage of a record's number, if it is one.
    #[must_use]
    pub fn from_number(number: u16) -> Option<Self> {
        Self::ALL.iter().copied().find(|stage| stage.number() == number)
    }

    /// Its number in a record.
    #[must_use]
    pub const fn number(self) -> u16 {
        self as u16
    }
}

/// One desk. Unless it is idle it carries a turn and a place; an idle desk's are not read.
#[derive(Clone, Copy, Debug, Default, PartialEq, Eq, Hash)]
#[repr(C)]
pub struct Desk {
    /// The number of a [`Stage`]; any other breaks rule 3.
    pub stage: u16,
    /// The place in the turn's block.
    pub place: u16,
    /// The turn.
    pub turn: u32,
}

/// One record of the block table.
#[derive(Clone, Copy, Debug, Default, PartialEq, Eq, Hash)]
#[repr(C)]
pub struct Block {
    /// The round of the block's current turn.
    pub round: u16,
    /// How many labels were put in this turn.
    pub written: u16,
    /// How many places desks have claimed in this turn.
    pub claimed: u16,
    /// How many of these desks have finished.
    pub finished: u16,
}

/// The head of a line.
#[derive(Clone, Copy, Debug, Default, PartialEq, Eq, Hash)]
#[repr(C)]
pub struct Head {
    /// NB: blocks, 2 to 64.
    pub nb: u16,
    /// NE: entries a block, 1 to 64.
    pub ne: u16,
    /// T: desks, 1 to 16.
    pub t: u16,
    /// The reading place: the owner's next place in turn K's block.
    pub reading: u16,
    /// P: the put turn.
    pub p: u32,
    /// K: the get turn.
    pub k: u32,
    /// The desks; those from T on are idle.
    pub desks: [Desk; 16],
}

const _: () = assert!(size_of::<Desk>() == 8 && size_of::<Block>() == 8 && size_of::<Head>() == 144);
