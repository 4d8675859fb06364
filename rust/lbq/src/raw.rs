//! The library's calls as C sees them (`include/lbq.h`), for code that lends memory by pointer.
//!
//! All pointers are aligned and not null, also where the length is 0; the three parts do not overlap; each length is
//! that of the memory lent; and nobody else touches that memory during the call. The lengths and the numbers in the
//! memory may be any: what does not fit is refused.

use crate::records::{Block, Head};

/// The answer to opening, a step or an order.
#[derive(Clone, Copy, Debug, PartialEq, Eq)]
#[repr(C)]
pub struct Answer {
    /// 0 taken, else the refusal's number.
    pub number: u32,
    /// The label, place or count; 0 in a refusal, except an order's count.
    pub value: u32,
}

/// The check's answer.
#[derive(Clone, Copy, Debug, PartialEq, Eq)]
#[repr(C)]
pub struct Checked {
    /// 0 sound, 1 UNFIT, 2 DAMAGED.
    pub number: u32,
    /// Where DAMAGED: 64 for the head, else the block. Otherwise 0.
    pub place: u32,
    /// Where DAMAGED: the first rule broken there, 1 to 7. Otherwise 0.
    pub rule: u32,
}

/// The survey's answer. A refused survey has mask 0, count 0 and lowest 64.
#[derive(Clone, Copy, Debug, PartialEq, Eq)]
#[repr(C)]
pub struct Findings {
    /// Bit b: an idle desk's look at block b would be SEEN.
    pub mask: u64,
    /// 0, 1 UNFIT, 2 DAMAGED.
    pub number: u32,
    /// How many blocks an idle desk could take from.
    pub count: u32,
    /// The lowest of them, or 64 where there is none.
    pub lowest: u32,
}

const _: () = assert!(size_of::<Answer>() == 8 && size_of::<Checked>() == 12 && size_of::<Findings>() == 24);

extern "C" {
    /// The number of the library's interface.
    pub fn lbq_version() -> u32;

    /// Opens a line of NB blocks, NE entries a block and T desks on this memory.
    pub fn lbq_open(
        head: *mut Head,
        table: *mut Block,
        table_len: usize,
        entries: *mut u32,
        entries_len: usize,
        nb: u32,
        ne: u32,
        t: u32,
    ) -> Answer;

    /// One step: a code and two numbers.
    pub fn lbq_step(
        head: *mut Head,
        table: *mut Block,
        table_len: usize,
        entries: *mut u32,
        entries_len: usize,
        code: u32,
        a: u32,
        b: u32,
    ) -> Answer;

    /// Puts the labels from first to last, both included, until one is refused.
    pub fn lbq_order(
        head: *mut Head,
        table: *mut Block,
        table_len: usize,
        entries: *mut u32,
        entries_len: usize,
        first: u32,
        last: u32,
    ) -> Answer;

    /// Whether this memory is a sound line, and if not, where it breaks which rule.
    pub fn lbq_check(
        head: *const Head,
        table: *const Block,
        table_len: usize,
        entries: *const u32,
        entries_len: usize,
    ) -> Checked;

    /// Which blocks an idle desk could take from.
    pub fn lbq_survey(
        head: *const Head,
        table: *const Block,
        table_len: usize,
        entries: *const u32,
        entries_len: usize,
    ) -> Findings;
}
