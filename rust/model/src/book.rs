//! The book, which is the meaning of a line: "a list of labels in the order placed, row n belonging to turn n div NE, a
//! mark on each row (waiting or gone), K, and the desks with row numbers. Rows are never reused."

use crate::records::{refusal, Answer, Findings, LAST_LABEL, ROUNDS};
use std::ops::Range;

/// One row: a label, and whether it is gone.
#[derive(Clone, Copy, Debug)]
pub struct Row {
    /// The label placed.
    pub label: u32,
    /// The mark: gone, or else waiting.
    pub gone: bool,
}

/// A desk: idle, or at a row.
#[derive(Clone, Copy, Debug, PartialEq, Eq)]
pub enum Desk {
    /// It holds nothing.
    Idle,
    /// It has seen this row.
    Looked(usize),
    /// It has won this row.
    Claimed(usize),
    /// It has fetched this row's label and not finished.
    Fetched(usize),
}

/// The book of a line with NB blocks of NE entries.
#[derive(Clone, Debug)]
pub struct Book {
    /// NB.
    pub nb: usize,
    /// NE.
    pub ne: usize,
    /// The rows, in the order placed.
    pub rows: Vec<Row>,
    /// K, the get turn.
    pub k: usize,
    /// The T desks.
    pub desks: Vec<Desk>,
}

impl Book {
    /// The book of a line just opened, with sizes within their limits.
    #[must_use]
    pub fn open(nb: usize, ne: usize, t: usize) -> Self {
        Self { nb, ne, rows: Vec::new(), k: 0, desks: vec![Desk::Idle; t] }
    }

    /// The put turn: "P is (length − 1) div NE, or 0 while the list is empty."
    #[must_use]
    pub fn p(&self) -> usize {
        if self.rows.is_empty() {
            0
        } else {
            (self.rows.len() - 1) / self.ne
        }
    }

    /// The turn of a row.
    #[must_use]
    pub fn turn(&self, row: usize) -> usize {
        row / self.ne
    }

    /// The place of a row in its turn.
    #[must_use]
    pub fn place(&self, row: usize) -> u32 {
        (row % self.ne) as u32
    }

    /// The rows of a turn, as far as they are placed.
    #[must_use]
    pub fn rows_of(&self, turn: usize) -> Range<usize> {
        let end = self.rows.len();
        (turn * self.ne).min(end)..((turn + 1) * self.ne).min(end)
    }

    /// The largest turn up to P that stands in the block, if there is one.
    #[must_use]
    pub fn current_turn(&self, block: usize) -> Option<usize> {
        let p = self.p();
        (p.saturating_sub(self.nb - 1)..=p).rev().find(|turn| turn % self.nb == block)
    }

    /// The first waiting row of a turn, if there is one.
    #[must_use]
    pub fn first_waiting(&self, turn: usize) -> Option<usize> {
        self.rows_of(turn).find(|&row| !self.rows[row].gone)
    }

    /// A step of this code with these numbers.
    pub fn step(&mut self, code: u32, a: u32, b: u32) -> Answer {
        let answer = match code {
            0 => self.put(a),
            1 => self.get(),
            2 => return self.order(a, b),
            16..=31 => self.claim(code as usize - 16),
            32..=47 => self.fetch(code as usize - 32),
            48..=63 => self.finish(code as usize - 48),
            64..=79 => self.look(code as usize - 64, a as usize),
            _ => Err(refusal::BADSTEP),
        };
        match answer {
            Ok(value) => Answer::taken(value),
            Err(number) => Answer::refused(number),
        }
    }

    fn put(&mut self, label: u32) -> Result<u32, u32> {
        if label > LAST_LABEL {
            return Err(refusal::NOTLABEL);
        }
        self.append(label)?;
        Ok(label)
    }

    fn order(&mut self, first: u32, last: u32) -> Answer {
        if first > last || last > LAST_LABEL {
            return Answer::refused(refusal::RANGE);
        }
        let mut placed = 0;
        for label in first..=last {
            match self.append(label) {
                Ok(()) => placed += 1,
                Err(number) => return Answer { number, value: placed },
            }
        }
        Answer::taken(placed)
    }

    /// Puts one label at the end, or says why not.
    fn append(&mut self, label: u32) -> Result<(), u32> {
        if self.rows_of(self.p()).len() == self.ne {
            let start = self.p() + 1;
            if start / self.nb >= ROUNDS as usize {
                return Err(refusal::WORN);
            }
            if start >= self.nb {
                let q = start - self.nb;
                if self.k <= q {
                    return Err(refusal::FULL);
                }
                if self.holders(q) > 0 {
                    return Err(refusal::BUSY);
                }
            }
        }
        self.rows.push(Row { label, gone: false });
        Ok(())
    }

    /// How many desks have claimed or fetched a row of the turn and not finished.
    #[must_use]
    pub fn holders(&self, turn: usize) -> usize {
        let holds = |desk: &&Desk| match **desk {
            Desk::Claimed(row) | Desk::Fetched(row) => self.turn(row) == turn,
            Desk::Idle | Desk::Looked(_) => false,
        };
        self.desks.iter().filter(holds).count()
    }

    fn get(&mut self) -> Result<u32, u32> {
        loop {
            if let Some(row) = self.first_waiting(self.k) {
                self.rows[row].gone = true;
                return Ok(self.rows[row].label);
            }
            // None waits. The place is NE if the turn has all its rows.
            if self.rows_of(self.k).len() < self.ne || self.k >= self.p() {
                return Err(refusal::EMPTY);
            }
            self.k += 1;
        }
    }

    fn desk(&self, number: usize) -> Result<Desk, u32> {
        self.desks.get(number).copied().ok_or(refusal::NODESK)
    }

    fn look(&mut self, desk: usize, block: usize) -> Result<u32, u32> {
        let found = self.desk(desk)?;
        if block >= self.nb {
            return Err(refusal::NOBLOCK);
        }
        if !matches!(found, Desk::Idle | Desk::Looked(_)) {
            return Err(refusal::STAGE);
        }
        let row = self.view(block)?;
        self.desks[desk] = Desk::Looked(row);
        Ok(self.place(row))
    }

    /// The row that an idle desk's look at this block of the line would see, or the refusal's number.
    fn view(&self, block: usize) -> Result<usize, u32> {
        let turn = self.current_turn(block);
        if turn.is_some_and(|turn| turn <= self.k) {
            return Err(refusal::OWNED);
        }
        turn.and_then(|turn| self.first_waiting(turn)).ok_or(refusal::NOTHING)
    }

    /// The survey: which blocks an idle desk could take from.
    #[must_use]
    pub fn survey(&self) -> Findings {
        let seen: Vec<usize> = (0..self.nb).filter(|&block| self.view(block).is_ok()).collect();
        Findings {
            mask: seen.iter().map(|&block| 1_u64 << block).sum(),
            number: 0,
            count: seen.len() as u32,
            lowest: seen.first().map_or(64, |&block| block as u32),
        }
    }

    fn claim(&mut self, desk: usize) -> Result<u32, u32> {
        let Desk::Looked(row) = self.desk(desk)? else {
            return Err(refusal::STAGE);
        };
        if self.rows[row].gone || self.turn(row) <= self.k {
            self.desks[desk] = Desk::Idle;
            return Err(refusal::LOST);
        }
        self.rows[row].gone = true;
        self.desks[desk] = Desk::Claimed(row);
        Ok(self.place(row))
    }

    fn fetch(&mut self, desk: usize) -> Result<u32, u32> {
        let Desk::Claimed(row) = self.desk(desk)? else {
            return Err(refusal::STAGE);
        };
        self.desks[desk] = Desk::Fetched(row);
        Ok(self.rows[row].label)
    }

    fn finish(&mut self, desk: usize) -> Result<u32, u32> {
        let Desk::Fetched(_) = self.desk(desk)? else {
            return Err(refusal::STAGE);
        };
        self.desks[desk] = Desk::Idle;
        Ok(0)
    }
}
