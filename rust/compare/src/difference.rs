//! What is said of a difference.

use crate::run_kind::RunKind;
use std::fmt;

/// The first difference of a run, with all that is needed to see it again.
#[derive(Clone, Debug)]
pub struct Difference {
    /// The run's seed.
    pub seed: u64,
    /// The run's kind.
    pub kind: RunKind,
    /// The call's number in the run, from 1.
    pub step: u64,
    /// The call.
    pub call: String,
    /// Who was asked, and what they said.
    pub said: Vec<(&'static str, String)>,
    /// What differs in memory, by name, in the order of `said`.
    pub memory: Vec<String>,
    /// The calls before, the last one last, with their answers.
    pub before: Vec<String>,
}

impl fmt::Display for Difference {
    fn fmt(&self, f: &mut fmt::Formatter<'_>) -> fmt::Result {
        writeln!(f, "difference: seed {} ({:?}), step {}: {}", self.seed, self.kind, self.step, self.call)?;
        for (who, said) in &self.said {
            writeln!(f, "  {who}: {said}")?;
        }
        for line in &self.memory {
            writeln!(f, "  {line}")?;
        }
        writeln!(f, "before it:")?;
        for line in &self.before {
            writeln!(f, "  {line}")?;
        }
        write!(f, "again: make soak SEED={}", self.seed)
    }
}

impl std::error::Error for Difference {}
