//! The rules of a sound line, each as its sentence stands in the paper. Slow and plain: a block's current turn is
//! looked for, and nothing is kept from one question to the next.

use crate::records::{Block, Head, CLAIMED, FETCHED, IDLE, LOOKED, ROUNDS};

/// The place that stands for the head.
pub const HEAD: u32 = 64;

/// The first rule broken, with its place: the head's rules first, then block by block. The sizes and lengths are fit.
#[must_use]
pub fn first_broken(head: &Head, table: &[Block]) -> Option<(u32, u32)> {
    let line = Line { head, table };
    let first = |holds: &[bool]| holds.iter().position(|&holds| !holds).map(|index| index as u32);
    // A rule is asked only once those before it hold: without rule 1 the others could not be read.
    if !line.rule_1() {
        return Some((HEAD, 1));
    }
    if let Some(index) = first(&[line.rule_2(), line.rule_3()]) {
        return Some((HEAD, 2 + index));
    }
    (0..line.nb()).find_map(|block| {
        let rules = [line.rule_4(block), line.rule_5(block), line.rule_6(block), line.rule_7(block)];
        first(&rules).map(|index| (block as u32, 4 + index))
    })
}

struct Line<'m> {
    head: &'m Head,
    table: &'m [Block],
}

impl Line<'_> {
    fn nb(&self) -> u64 {
        u64::from(self.head.nb)
    }

    fn p(&self) -> u64 {
        u64::from(self.head.p)
    }

    fn k(&self) -> u64 {
        u64::from(self.head.k)
    }

    /// "Turn t stands in block t mod NB."
    fn record_of(&self, turn: u64) -> &Block {
        &self.table[(turn % self.nb()) as usize]
    }

    /// "A block's current turn is the largest turn up to P that stands in it; a block with none is unused."
    fn current_turn(&self, block: u64) -> Option<u64> {
        let mut turn = self.p();
        loop {
            if turn % self.nb() == block {
                return Some(turn);
            }
            if turn == 0 {
                return None;
            }
            turn -= 1;
        }
    }

    fn is_current(&self, turn: u64) -> bool {
        self.current_turn(turn % self.nb()) == Some(turn)
    }

    fn desks_in(&self, turn: u64) -> usize {
        self.head.desks.iter().filter(|desk| holds(desk.stage) && u64::from(desk.turn) == turn).count()
    }

    /// "K ≤ P, P − K ≤ NB − 1, P below 65,536 × NB"
    fn rule_1(&self) -> bool {
        self.k() <= self.p() && self.p() - self.k() < self.nb() && self.p() < u64::from(ROUNDS) * self.nb()
    }

    /// "the reading place is from claimed to written of turn K's block"
    fn rule_2(&self) -> bool {
        let block = self.record_of(self.k());
        (block.claimed..=block.written).contains(&self.head.reading)
    }

    /// "desks T and above are idle; each claimed or fetched desk has a block's current turn and a place below claimed;
    /// each looked desk has a turn up to P and a place below NE, and below written if that turn is current; no two
    /// claimed or fetched desks have the same turn and place". A stage above 3 is no stage.
    fn rule_3(&self) -> bool {
        let desks = &self.head.desks;
        let each = desks.iter().enumerate().all(|(number, desk)| {
            let turn = u64::from(desk.turn);
            if desk.stage == IDLE {
                return true;
            }
            if number >= usize::from(self.head.t) {
                return false;
            }
            match desk.stage {
                LOOKED => {
                    turn <= self.p()
                        && desk.place < self.head.ne
                        && (!self.is_current(turn) || desk.place < self.record_of(turn).written)
                }
                CLAIMED | FETCHED => self.is_current(turn) && desk.place < self.record_of(turn).claimed,
                _ => false,
            }
        });
        let apart = (0..desks.len()).all(|one| {
            (0..one).all(|other| {
                !(holds(desks[one].stage)
                    && holds(desks[other].stage)
                    && desks[one].turn == desks[other].turn
                    && desks[one].place == desks[other].place)
            })
        });
        each && apart
    }

    /// "the round is the current turn's, and an unused block has zeros throughout"
    fn rule_4(&self, block: u64) -> bool {
        let record = self.table[block as usize];
        match self.current_turn(block) {
            Some(turn) => u64::from(record.round) == turn / self.nb(),
            None => record == Block::default(),
        }
    }

    /// "in a used block, written ≤ NE, equal to NE below turn P, and at least 1 at turn P unless P = 0"
    fn rule_5(&self, block: u64) -> bool {
        let record = self.table[block as usize];
        match self.current_turn(block) {
            Some(turn) if turn < self.p() => record.written == self.head.ne,
            Some(_) => record.written <= self.head.ne && (record.written >= 1 || self.p() == 0),
            None => true,
        }
    }

    /// "claimed ≤ written, and 0 in turn 0"
    fn rule_6(&self, block: u64) -> bool {
        let record = self.table[block as usize];
        record.claimed <= record.written && (self.current_turn(block) != Some(0) || record.claimed == 0)
    }

    /// "claimed − finished is the number of desks claimed or fetched in that turn"
    fn rule_7(&self, block: u64) -> bool {
        let record = self.table[block as usize];
        match self.current_turn(block) {
            Some(turn) => usize::from(record.claimed) == usize::from(record.finished) + self.desks_in(turn),
            None => true,
        }
    }
}

fn holds(stage: u16) -> bool {
    stage == CLAIMED || stage == FETCHED
}
