//! A line over its own memory or over lent memory.

use crate::answer::Answer;
use crate::fault::Fault;
use crate::raw;
use crate::records::{Block, Head, Stage};
use crate::refusal::{Refusal, Stopped};
use crate::sizes::Sizes;
use crate::step::Step;
use crate::survey::Survey;
use std::borrow::BorrowMut;

/// A line: a head, a block table and entries, with the steps on them.
///
/// [`Line::open`] makes a line that owns its memory. [`Line::over`] takes memory from elsewhere, by reference or by
/// value: anything that borrows as a [`Head`], as `[Block]` and as `[u32]`.
///
/// Every step checks the memory first. On a refusal it stays as it was, except for what the paper names: the blocks
/// that an `EMPTY` get left behind, the idle desk of `LOST`, and the labels that an order had placed.
#[derive(Clone, Debug)]
pub struct Line<H = Head, B = Vec<Block>, E = Vec<u32>> {
    head: H,
    table: B,
    entries: E,
}

/// A line over lent memory.
pub type LineMut<'m> = Line<&'m mut Head, &'m mut [Block], &'m mut [u32]>;

impl Line {
    /// Opens a line of these sizes in memory of its own.
    ///
    /// # Errors
    ///
    /// [`Refusal::Unfit`] for a size outside its limits.
    pub fn open(sizes: Sizes) -> Result<Self, Refusal> {
        // Memory is made for sizes that could be right only; the library decides which are.
        let (records, labels) = match (u8::try_from(sizes.blocks), u8::try_from(sizes.entries)) {
            (Ok(blocks), Ok(entries)) => (usize::from(blocks), usize::from(blocks) * usize::from(entries)),
            _ => (0, 0),
        };
        let mut line = Self::over(Head::default(), vec![Block::default(); records], vec![0; labels]);
        line.reopen(sizes)?;
        Ok(line)
    }
}

impl<H, B, E> Line<H, B, E> {
    /// A line over this memory as it is found. Any lengths and any numbers may be lent.
    pub fn over(head: H, table: B, entries: E) -> Self {
        Self { head, table, entries }
    }

    /// Hands the memory back.
    pub fn into_parts(self) -> (H, B, E) {
        (self.head, self.table, self.entries)
    }
}

impl<H, B, E> Line<H, B, E>
where
    H: BorrowMut<Head>,
    B: BorrowMut<[Block]>,
    E: BorrowMut<[u32]>,
{
    /// The head.
    pub fn head(&self) -> &Head {
        self.head.borrow()
    }

    /// The block table.
    pub fn table(&self) -> &[Block] {
        self.table.borrow()
    }

    /// The entries, block 0 first.
    pub fn entries(&self) -> &[u32] {
        self.entries.borrow()
    }

    /// The stage of a desk. There is none for a desk that the head has no room for, and in memory that breaks rule 3
    /// perhaps none for one that it has.
    pub fn stage(&self, desk: u32) -> Option<Stage> {
        let desk = self.head().desks.get(usize::try_from(desk).ok()?)?;
        Stage::from_number(desk.stage)
    }

    /// Opens a line on this memory, whatever stands there: everything becomes 0 and all desks idle.
    ///
    /// # Errors
    ///
    /// [`Refusal::Unfit`] for a size outside its limits, or memory of other lengths than NB and NB × NE. Everything
    /// stays as it was.
    pub fn reopen(&mut self, sizes: Sizes) -> Result<(), Refusal> {
        let Sizes { blocks: nb, entries: ne, desks: t } = sizes;
        let (head, table, entries) = self.lend();
        let (records, labels) = (table.len(), entries.len());
        // SAFETY: the three parts are borrowed for this call alone, so they are valid, aligned and apart.
        let answer =
            unsafe { raw::lbq_open(head, table.as_mut_ptr(), records, entries.as_mut_ptr(), labels, nb, ne, t) };
        Refusal::of(answer.number)
    }

    /// Does any step.
    pub fn step(&mut self, step: Step) -> Answer {
        Answer::of(step.code, self.ask(step))
    }

    /// Puts a label.
    ///
    /// # Errors
    ///
    /// [`Refusal::NotLabel`], [`Refusal::Worn`], [`Refusal::Full`] or [`Refusal::Busy`]. As for every step,
    /// [`Refusal::Unfit`] or [`Refusal::Damaged`] if the memory is no sound line.
    pub fn put(&mut self, label: u32) -> Result<(), Refusal> {
        self.asked(Step::put(label)).map(drop)
    }

    /// Gets the next label.
    ///
    /// # Errors
    ///
    /// [`Refusal::Empty`].
    pub fn get(&mut self) -> Result<u32, Refusal> {
        self.asked(Step::get())
    }

    /// Puts the labels from first to last, both included, until one is refused. Gives how many there were.
    ///
    /// # Errors
    ///
    /// [`Refusal::Range`], or what refused a put; with the number of labels placed, which stay.
    pub fn order(&mut self, first: u32, last: u32) -> Result<u32, Stopped> {
        let (head, table, entries) = self.lend();
        let (records, labels) = (table.len(), entries.len());
        // SAFETY: the three parts are borrowed for this call alone, so they are valid, aligned and apart.
        let answer =
            unsafe { raw::lbq_order(head, table.as_mut_ptr(), records, entries.as_mut_ptr(), labels, first, last) };
        match Refusal::of(answer.number) {
            Ok(()) => Ok(answer.value),
            Err(refusal) => Err(Stopped { refusal, placed: answer.value }),
        }
    }

    /// Lets a desk look at a block. Gives the place seen.
    ///
    /// # Errors
    ///
    /// [`Refusal::NoDesk`], [`Refusal::NoBlock`], [`Refusal::Stage`], [`Refusal::Owned`] or [`Refusal::Nothing`].
    pub fn look(&mut self, desk: u32, block: u32) -> Result<u32, Refusal> {
        self.by_desk(Step::look(desk, block))
    }

    /// Lets a desk claim the place seen. Gives that place.
    ///
    /// # Errors
    ///
    /// [`Refusal::NoDesk`], [`Refusal::Stage`] or [`Refusal::Lost`].
    pub fn claim(&mut self, desk: u32) -> Result<u32, Refusal> {
        self.by_desk(Step::claim(desk))
    }

    /// Lets a desk fetch the label claimed.
    ///
    /// # Errors
    ///
    /// [`Refusal::NoDesk`] or [`Refusal::Stage`].
    pub fn fetch(&mut self, desk: u32) -> Result<u32, Refusal> {
        self.by_desk(Step::fetch(desk))
    }

    /// Lets a desk finish.
    ///
    /// # Errors
    ///
    /// [`Refusal::NoDesk`] or [`Refusal::Stage`].
    pub fn finish(&mut self, desk: u32) -> Result<(), Refusal> {
        self.by_desk(Step::finish(desk)).map(drop)
    }

    /// Whether this is a sound line.
    ///
    /// # Errors
    ///
    /// What is wrong, and where.
    pub fn check(&self) -> Result<(), Fault> {
        let (head, table, entries) = (self.head(), self.table(), self.entries());
        // SAFETY: the three parts are borrowed for this call, and it only reads them.
        Fault::of(unsafe { raw::lbq_check(head, table.as_ptr(), table.len(), entries.as_ptr(), entries.len()) })
    }

    /// Which blocks an idle desk could take from.
    ///
    /// # Errors
    ///
    /// [`Refusal::Unfit`] or [`Refusal::Damaged`].
    pub fn survey(&self) -> Result<Survey, Refusal> {
        let (head, table, entries) = (self.head(), self.table(), self.entries());
        // SAFETY: the three parts are borrowed for this call, and it only reads them.
        Survey::of(unsafe { raw::lbq_survey(head, table.as_ptr(), table.len(), entries.as_ptr(), entries.len()) })
    }

    fn lend(&mut self) -> (&mut Head, &mut [Block], &mut [u32]) {
        (self.head.borrow_mut(), self.table.borrow_mut(), self.entries.borrow_mut())
    }

    fn ask(&mut self, step: Step) -> raw::Answer {
        let (head, table, entries) = self.lend();
        let (records, labels) = (table.len(), entries.len());
        let (code, a, b) = (step.code.into(), step.a, step.b);
        // SAFETY: the three parts are borrowed for this call alone, so they are valid, aligned and apart.
        unsafe { raw::lbq_step(head, table.as_mut_ptr(), records, entries.as_mut_ptr(), labels, code, a, b) }
    }

    fn asked(&mut self, step: Step) -> Result<u32, Refusal> {
        let answer = self.ask(step);
        Refusal::of(answer.number)?;
        Ok(answer.value)
    }

    /// No code names a desk above 15, and no line has one: that is NODESK, after UNFIT and DAMAGED.
    fn by_desk(&mut self, step: Option<Step>) -> Result<u32, Refusal> {
        match step {
            Some(step) => self.asked(step),
            None => Err(self.check().err().map_or(Refusal::NoDesk, Fault::refusal)),
        }
    }
}
