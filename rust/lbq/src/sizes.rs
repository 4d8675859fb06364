//! The sizes of a line, and the limits.

/// The sizes of a line. Any numbers may be asked for; opening refuses those outside the limits.
///
/// ```
/// use lbq::{Line, Refusal, Sizes};
///
/// assert!(Line::open(Sizes { blocks: 2, entries: 64, desks: 1 }).is_ok());
/// let too_many = Sizes { desks: Sizes::MOST.desks + 1, ..Sizes::MOST };
/// assert_eq!(Line::open(too_many).err(), Some(Refusal::Unfit));
/// ```
#[derive(Clone, Copy, Debug, PartialEq, Eq, Hash)]
pub struct Sizes {
    /// NB: blocks, 2 to 64.
    pub blocks: u32,
    /// NE: entries a block, 1 to 64.
    pub entries: u32,
    /// T: desks, 1 to 16.
    pub desks: u32,
}

impl Sizes {
    /// The least of each.
    pub const LEAST: Self = Self { blocks: 2, entries: 1, desks: 1 };

    /// The most of each.
    pub const MOST: Self = Self { blocks: 64, entries: 64, desks: 16 };
}

/// The largest label.
pub const LAST_LABEL: u32 = 999_999;

/// The last round of a block. The first is 0.
pub const LAST_ROUND: u16 = 65_535;
