//! What was met, kind by kind: how often each call was made and what was said to it.

use crate::call::{Call, Said};
use crate::run_kind::RunKind;
use model::words::word;
use std::collections::BTreeMap;
use std::fmt;

/// Counts of runs, calls and answers.
#[derive(Clone, Debug, Default)]
pub struct Tally {
    /// How many calls were compared.
    pub steps: u64,
    /// How many of them the book answered too.
    pub booked: u64,
    /// How often the whole memory was compared with the one that the book tells.
    pub told: u64,
    kinds: BTreeMap<RunKind, Met>,
}

#[derive(Clone, Debug, Default)]
struct Met {
    runs: u64,
    calls: u64,
    said: BTreeMap<(Asked, &'static str), u64>,
}

/// What was asked for.
#[derive(Clone, Copy, Debug, PartialEq, Eq, PartialOrd, Ord)]
enum Asked {
    Put,
    Get,
    Order,
    Look,
    Claim,
    Fetch,
    Finish,
    Unlisted,
    Opening,
    Check,
    Survey,
}

/// What can be said to each call.
const CAN_BE_SAID: [(Asked, &[&str]); 11] = [
    (Asked::Put, &["PUT", "UNFIT", "DAMAGED", "NOTLABEL", "WORN", "FULL", "BUSY"]),
    (Asked::Get, &["GOT", "UNFIT", "DAMAGED", "EMPTY"]),
    (Asked::Order, &["WHOLE", "UNFIT", "DAMAGED", "RANGE", "WORN", "FULL", "BUSY"]),
    (Asked::Look, &["SEEN", "UNFIT", "DAMAGED", "NODESK", "NOBLOCK", "STAGE", "OWNED", "NOTHING"]),
    (Asked::Claim, &["CLAIMED", "UNFIT", "DAMAGED", "NODESK", "STAGE", "LOST"]),
    (Asked::Fetch, &["TOOK", "UNFIT", "DAMAGED", "NODESK", "STAGE"]),
    (Asked::Finish, &["DONE", "UNFIT", "DAMAGED", "NODESK", "STAGE"]),
    (Asked::Unlisted, &["UNFIT", "DAMAGED", "BADSTEP"]),
    (Asked::Opening, &["OPEN", "UNFIT"]),
    (Asked::Check, &["sound", "UNFIT", "rule 1", "rule 2", "rule 3", "rule 4", "rule 5", "rule 6", "rule 7"]),
    (Asked::Survey, &["SURVEY", "UNFIT", "DAMAGED"]),
];

impl Asked {
    fn of(call: Call) -> Self {
        match call {
            Call::Step(0, ..) => Self::Put,
            Call::Step(1, ..) => Self::Get,
            Call::Step(2, ..) | Call::Order(..) => Self::Order,
            Call::Step(16..=31, ..) => Self::Claim,
            Call::Step(32..=47, ..) => Self::Fetch,
            Call::Step(48..=63, ..) => Self::Finish,
            Call::Step(64..=79, ..) => Self::Look,
            Call::Step(..) => Self::Unlisted,
            Call::Open(..) => Self::Opening,
            Call::Check => Self::Check,
            Call::Survey => Self::Survey,
        }
    }

    /// The row of the table for this word, and where it stands: the good words of steps, their refusals by number, and
    /// the other calls. All steps share the rows of their words.
    fn row(self, said: &str) -> (u32, String) {
        match self {
            Self::Opening | Self::Check | Self::Survey => {
                (u32::MAX, format!("{} {said}", format!("{self:?}").to_lowercase()))
            }
            _ => ((1..=u8::MAX.into()).find(|&number| word(0, number) == said).unwrap_or(0), said.to_owned()),
        }
    }
}

/// What was said, in a word.
fn in_a_word(call: Call, said: Said) -> &'static str {
    let good = match (call, said) {
        (Call::Step(code, ..), _) => word(code, 0),
        (Call::Order(..), _) => word(2, 0),
        (Call::Open(..), _) => "OPEN",
        (Call::Survey, _) => "SURVEY",
        (Call::Check, Said::Checked(checked)) => match checked.rule {
            1 => "rule 1",
            2 => "rule 2",
            3 => "rule 3",
            4 => "rule 4",
            5 => "rule 5",
            6 => "rule 6",
            7 => "rule 7",
            _ => "sound",
        },
        (Call::Check, _) => "no word",
    };
    match (call, said.number()) {
        (_, 0) | (Call::Check, 2) => good,
        (_, number) => word(0, number),
    }
}

impl Tally {
    pub(crate) fn run(&mut self, kind: RunKind) {
        self.kinds.entry(kind).or_default().runs += 1;
    }

    pub(crate) fn add(&mut self, kind: RunKind, call: Call, said: Said) {
        self.steps += 1;
        let met = self.kinds.entry(kind).or_default();
        met.calls += 1;
        *met.said.entry((Asked::of(call), in_a_word(call, said))).or_default() += 1;
    }

    /// What was never met of all that can be said.
    #[must_use]
    pub fn missing(&self) -> Vec<String> {
        let all = CAN_BE_SAID.iter().flat_map(|&(asked, words)| words.iter().map(move |&word| (asked, word)));
        let met = |key| self.kinds.values().any(|met| met.said.contains_key(&key));
        all.filter(|&key| !met(key)).map(|(asked, word)| format!("{asked:?}: {word}")).collect()
    }

    /// The rows of the table: all that can be said, and whatever else was said.
    fn rows(&self) -> Vec<(u32, String)> {
        let expected = CAN_BE_SAID.iter().flat_map(|(asked, words)| words.iter().map(|word| asked.row(word)));
        let said = self.kinds.values().flat_map(|met| met.said.keys().map(|(asked, word)| asked.row(word)));
        let mut rows = Vec::new();
        for row in expected.chain(said) {
            if !rows.contains(&row) {
                rows.push(row);
            }
        }
        rows.sort_by_key(|&(at, _)| at);
        rows
    }
}

impl Met {
    fn of_row(&self, row: &(u32, String)) -> u64 {
        self.said.iter().filter(|((asked, word), _)| asked.row(word) == *row).map(|(_, count)| count).sum()
    }
}

/// A table: a column for each kind and one for all, then the runs, the calls, and a row for each word.
impl fmt::Display for Tally {
    fn fmt(&self, f: &mut fmt::Formatter<'_>) -> fmt::Result {
        let line = |f: &mut fmt::Formatter<'_>, name: &str, count: &dyn Fn(&Met) -> u64| {
            write!(f, "{name:<16}")?;
            let counts: Vec<u64> = self.kinds.values().map(count).collect();
            for count in &counts {
                write!(f, " {count:>9}")?;
            }
            writeln!(f, " {:>10}", counts.iter().sum::<u64>())
        };
        write!(f, "{:<16}", "")?;
        for kind in self.kinds.keys() {
            write!(f, " {:>9}", format!("{kind:?}"))?;
        }
        writeln!(f, " {:>10}", "all")?;
        line(f, "runs", &|met| met.runs)?;
        line(f, "calls", &|met| met.calls)?;
        for row in self.rows() {
            line(f, &row.1, &|met| met.of_row(&row))?;
        }
        writeln!(f, "{} calls were answered by the book too, {} memories told by it", self.booked, self.told)
    }
}
