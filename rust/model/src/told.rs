//! The whole memory that a line must have after a run from opening, told by its book.
//!
//! The book gives all of it but one thing: how many claims were won in a turn that the owner has taken over since.
//! "Claimed then keeps the threshold", and the book's marks do not say who a row went to. So that number is kept
//! beside it.

use crate::book::{Book, Desk};
use crate::records::{self, Answer, Block, Head, CLAIMED, FETCHED, IDLE, LOOKED, MOST_DESKS};

/// A book, and how many claims were won in each turn.
#[derive(Clone, Debug)]
pub struct Told {
    /// The book.
    pub book: Book,
    won: Vec<u16>,
}

impl Told {
    /// A line just opened.
    #[must_use]
    pub fn open(nb: usize, ne: usize, t: usize) -> Self {
        Self { book: Book::open(nb, ne, t), won: Vec::new() }
    }

    /// A step, answered by the book.
    pub fn step(&mut self, code: u32, a: u32, b: u32) -> Answer {
        let answer = self.book.step(code, a, b);
        if (16..=31).contains(&code) && answer.number == 0 {
            if let Desk::Claimed(row) = self.book.desks[code as usize - 16] {
                let turn = self.book.turn(row);
                if self.won.len() <= turn {
                    self.won.resize(turn + 1, 0);
                }
                self.won[turn] += 1;
            }
        }
        answer
    }

    /// The head.
    #[must_use]
    pub fn head(&self) -> Head {
        let book = &self.book;
        let mut desks = [records::Desk::default(); MOST_DESKS];
        for (desk, told) in desks.iter_mut().zip(&book.desks) {
            let (stage, row) = match *told {
                Desk::Idle => (IDLE, None),
                Desk::Looked(row) => (LOOKED, Some(row)),
                Desk::Claimed(row) => (CLAIMED, Some(row)),
                Desk::Fetched(row) => (FETCHED, Some(row)),
            };
            desk.stage = stage;
            if let Some(row) = row {
                desk.turn = book.turn(row) as u32;
                desk.place = book.place(row) as u16;
            }
        }
        Head {
            nb: book.nb as u16,
            ne: book.ne as u16,
            t: book.desks.len() as u16,
            // The rows gone in turn K are the first ones, so their number is the place of the next.
            reading: book.rows_of(book.k).filter(|&row| book.rows[row].gone).count() as u16,
            p: book.p() as u32,
            k: book.k as u32,
            desks,
        }
    }

    /// The record of a block.
    #[must_use]
    pub fn record(&self, block: usize) -> Block {
        let book = &self.book;
        let Some(turn) = book.current_turn(block) else {
            return Block::default();
        };
        let claimed = self.won.get(turn).copied().unwrap_or(0);
        Block {
            round: (turn / book.nb) as u16,
            written: book.rows_of(turn).len() as u16,
            claimed,
            finished: claimed - book.holders(turn) as u16,
        }
    }

    /// The entries of a block: at each place the last label put there, or 0 where none was.
    pub fn entries(&self, block: usize) -> impl Iterator<Item = u32> + '_ {
        let book = &self.book;
        let turn = book.current_turn(block);
        let before = turn.and_then(|turn| turn.checked_sub(book.nb));
        let label = |turn: Option<usize>, place: usize| Some(book.rows.get(turn? * book.ne + place)?.label);
        (0..book.ne).map(move |place| label(turn, place).or_else(|| label(before, place)).unwrap_or(0))
    }
}
