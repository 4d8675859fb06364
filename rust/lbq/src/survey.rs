//! Where an idle desk could take from.

use crate::raw;
use crate::refusal::Refusal;

/// Which blocks an idle desk could take from.
#[derive(Clone, Copy, Debug, PartialEq, Eq, Hash)]
pub struct Survey {
    /// Bit b: an idle desk's look at block b would be SEEN.
    pub mask: u64,
    /// How many such blocks there are.
    pub count: u32,
    /// The lowest of them.
    pub lowest: Option<u32>,
}

impl Survey {
    pub(crate) fn of(findings: raw::Findings) -> Result<Self, Refusal> {
        Refusal::of(findings.number)?;
        let lowest = (findings.lowest < u64::BITS).then_some(findings.lowest);
        Ok(Self { mask: findings.mask, count: findings.count, lowest })
    }
}
