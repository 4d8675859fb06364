//! One run: the library's memory, the model's, and where it began at opening the book.

use crate::call::{Call, Said, Way};
use crate::difference::Difference;
use crate::memory::Memory;
use crate::random::Random;
use crate::run_kind::RunKind;
use crate::tally::Tally;
use model::book::Book;
use model::records::{Answer, Block, Head};
use model::rules;
use model::told::Told;
use std::collections::VecDeque;

/// How many calls are kept to be shown before a difference.
const KEPT: usize = 12;

/// A run under way.
pub struct Run<'t> {
    seed: u64,
    kind: RunKind,
    step: u64,
    library: Memory,
    model: Memory,
    told: Option<Told>,
    /// For which of the whole memories the book is asked.
    sample: Random,
    recent: VecDeque<(Call, Said)>,
    tally: &'t mut Tally,
}

type Outcome<T> = Result<T, Box<Difference>>;

impl<'t> Run<'t> {
    /// A run on this memory. There is no book before the first opening.
    pub fn new(seed: u64, kind: RunKind, memory: Memory, tally: &'t mut Tally) -> Self {
        let model = memory.clone();
        let (told, sample, recent) = (None, Random::new(seed), VecDeque::with_capacity(KEPT));
        Self { seed, kind, step: 0, library: memory, model, told, sample, recent, tally }
    }

    /// Makes one call on all, and compares.
    ///
    /// # Errors
    ///
    /// The difference.
    pub fn call(&mut self, call: Call) -> Outcome<Said> {
        self.step += 1;
        let way = [Way::Raw, Way::Raw, Way::Step, Way::Method][(self.step % 4) as usize];
        let of_library = call.of_library(&mut self.library, way);
        let said = call.of_model(&mut self.model);
        if of_library != said || !self.library.same(&self.model) {
            let answers = [("library", of_library), ("model", said)];
            return Err(self.difference(call, &answers, self.library.differences(&self.model)));
        }
        self.by_rules(call, said)?;
        self.by_book(call, said)?;
        self.tally.add(self.kind, call, said);
        if self.recent.len() == KEPT {
            self.recent.pop_front();
        }
        self.recent.push_back((call, said));
        Ok(said)
    }

    /// Head and table, by the model.
    #[must_use]
    pub fn records(&self) -> (&Head, &[Block]) {
        self.model.records()
    }

    /// Writes into both memories from outside, after which there is no book.
    pub fn write(&mut self, mut change: impl FnMut(&mut Head, &mut [Block], &mut [u32])) {
        for memory in [&mut self.library, &mut self.model] {
            let (head, table, entries) = memory.parts();
            change(head, table, entries);
        }
        self.told = None;
    }

    /// The memory and the book as they are, to come back to.
    #[must_use]
    pub fn keep(&self) -> (Memory, Option<Told>) {
        (self.model.clone(), self.told.clone())
    }

    /// Back to what was kept.
    pub fn restore(&mut self, kept: (Memory, Option<Told>)) {
        self.library = kept.0.clone();
        (self.model, self.told) = kept;
    }

    /// Makes a call that has to leave the memory as it is.
    ///
    /// # Errors
    ///
    /// A difference, or a change.
    pub fn call_unchanged(&mut self, call: Call) -> Outcome<Said> {
        let before = self.model.clone();
        let said = self.call(call)?;
        if !self.model.same(&before) {
            let memory = before.differences(&self.model);
            return Err(self.difference(call, &[("a refusal that changed the memory", said)], memory));
        }
        Ok(said)
    }

    /// The check and the survey asked of the rules as they stand in the paper.
    fn by_rules(&self, call: Call, said: Said) -> Outcome<()> {
        if !matches!(call, Call::Check | Call::Survey) || said.number() == 1 {
            return Ok(());
        }
        let (head, table) = self.model.records();
        let broken = rules::first_broken(head, table);
        let agree = match said {
            Said::Checked(checked) => broken == (checked.number == 2).then_some((checked.place, checked.rule)),
            _ => broken.is_some() == (said.number() == 2),
        };
        if agree {
            return Ok(());
        }
        Err(self.difference(call, &[("library and model", said)], vec![format!("by the rules: {broken:?}")]))
    }

    fn by_book(&mut self, call: Call, said: Said) -> Outcome<()> {
        if let Call::Open(nb, ne, t) = call {
            if said.number() == 0 {
                self.told = Some(Told::open(nb as usize, ne as usize, t as usize));
            }
        }
        let Some(told) = &mut self.told else {
            return Ok(());
        };
        let of_book = match call {
            Call::Open(..) => said,
            Call::Step(code, a, b) => Said::Answer(told.step(code, a, b)),
            Call::Order(first, last) => Said::Answer(told.step(2, first, last)),
            Call::Survey => Said::Findings(told.book.survey()),
            Call::Check => Said::Checked(model::records::Checked { number: 0, place: 0, rule: 0 }),
        };
        self.tally.booked += 1;
        // A large memory is not told after every step.
        let size = (told.book.nb * told.book.ne) as u32;
        let memory = if self.sample.below(size) < 48 {
            self.tally.told += 1;
            telling_differs(told, &mut self.model)
        } else {
            Vec::new()
        };
        if of_book == said && memory.is_empty() {
            return Ok(());
        }
        Err(self.difference(call, &[("book", of_book), ("library and model", said)], memory))
    }

    fn difference(&self, call: Call, said: &[(&'static str, Said)], memory: Vec<String>) -> Box<Difference> {
        Box::new(Difference {
            seed: self.seed,
            kind: self.kind,
            step: self.step,
            call: call.to_string(),
            said: said.iter().map(|(who, said)| (*who, said.to_string())).collect(),
            memory,
            before: self.recent.iter().map(|(call, said)| format!("{call}: {said}")).collect(),
        })
    }

    /// The book of this run, if there is one.
    #[must_use]
    pub fn book(&self) -> Option<&Book> {
        self.told.as_ref().map(|told| &told.book)
    }

    /// Makes a step and gives its answer.
    ///
    /// # Errors
    ///
    /// The difference.
    pub fn step(&mut self, code: u32, a: u32, b: u32) -> Outcome<Answer> {
        match self.call(Call::Step(code, a, b))? {
            Said::Answer(answer) => Ok(answer),
            said => unreachable!("a step was answered by {said:?}"),
        }
    }
}

/// Where the memory is not the one that the book tells.
fn telling_differs(told: &Told, memory: &mut Memory) -> Vec<String> {
    let mut expected = memory.clone();
    let (head, table, entries) = expected.parts();
    *head = told.head();
    for (block, (record, labels)) in table.iter_mut().zip(entries.chunks_mut(told.book.ne)).enumerate() {
        *record = told.record(block);
        for (entry, label) in labels.iter_mut().zip(told.entries(block)) {
            *entry = label;
        }
    }
    if expected.same(memory) {
        Vec::new()
    } else {
        expected.differences(memory)
    }
}
