//! Steps, as messages carry them.

use crate::sizes::Sizes;

/// A step: a code and two numbers, nine bytes in a schedule.
///
/// Any code and any numbers make a step; the line's answer says whether it was one that can be done.
#[derive(Clone, Copy, Debug, PartialEq, Eq, Hash)]
pub struct Step {
    /// The code.
    pub code: u8,
    /// The first number; ignored where the code does not name it.
    pub a: u32,
    /// The second number; likewise.
    pub b: u32,
}

impl Step {
    /// How many bytes a step has.
    pub const BYTES: usize = 9;

    /// The code of a put.
    pub const PUT: u8 = 0;
    /// The code of a get.
    pub const GET: u8 = 1;
    /// The code of an order.
    pub const ORDER: u8 = 2;
    /// The code of a claim by desk 0. Other desks have the codes after it, and so below.
    pub const CLAIM: u8 = 16;
    /// The code of a fetch by desk 0.
    pub const FETCH: u8 = 32;
    /// The code of a finish by desk 0.
    pub const FINISH: u8 = 48;
    /// The code of a look by desk 0.
    pub const LOOK: u8 = 64;

    /// How many desks have a code.
    pub(crate) const DESKS: u8 = Sizes::MOST.desks as u8;

    /// Put this label.
    #[must_use]
    pub const fn put(label: u32) -> Self {
        Self { code: Self::PUT, a: label, b: 0 }
    }

    /// Get the next label.
    #[must_use]
    pub const fn get() -> Self {
        Self { code: Self::GET, a: 0, b: 0 }
    }

    /// Put the labels from first to last, both included.
    #[must_use]
    pub const fn order(first: u32, last: u32) -> Self {
        Self { code: Self::ORDER, a: first, b: last }
    }

    /// Look at this block, by this desk. No code names a desk above 15.
    #[must_use]
    pub const fn look(desk: u32, block: u32) -> Option<Self> {
        Self::by_desk(Self::LOOK, desk, block)
    }

    /// Claim the place seen, by this desk.
    #[must_use]
    pub const fn claim(desk: u32) -> Option<Self> {
        Self::by_desk(Self::CLAIM, desk, 0)
    }

    /// Fetch the label claimed, by this desk.
    #[must_use]
    pub const fn fetch(desk: u32) -> Option<Self> {
        Self::by_desk(Self::FETCH, desk, 0)
    }

    /// Finish, by this desk.
    #[must_use]
    pub const fn finish(desk: u32) -> Option<Self> {
        Self::by_desk(Self::FINISH, desk, 0)
    }

    const fn by_desk(first_code: u8, desk: u32, a: u32) -> Option<Self> {
        if desk < Self::DESKS as u32 {
            Some(Self { code: first_code + desk as u8, a, b: 0 })
        } else {
            None
        }
    }

    /// Reads a step: the code, then A and B in four bytes each, high byte first.
    ///
    /// ```
    /// use lbq::Step;
    /// assert_eq!(Step::from_bytes([2, 0, 0, 0, 1, 0, 0, 0, 100]), Step::order(1, 100));
    /// ```
    #[must_use]
    pub const fn from_bytes(bytes: [u8; Self::BYTES]) -> Self {
        let [code, a3, a2, a1, a0, b3, b2, b1, b0] = bytes;
        Self { code, a: u32::from_be_bytes([a3, a2, a1, a0]), b: u32::from_be_bytes([b3, b2, b1, b0]) }
    }

    /// Writes a step, as [`from_bytes`](Self::from_bytes) reads it.
    #[must_use]
    pub const fn to_bytes(self) -> [u8; Self::BYTES] {
        let ([a3, a2, a1, a0], [b3, b2, b1, b0]) = (self.a.to_be_bytes(), self.b.to_be_bytes());
        [self.code, a3, a2, a1, a0, b3, b2, b1, b0]
    }
}
