//! The check, in one pass over head and table. Whether a line is sound is decided here, with one division; which rule a
//! damaged line breaks is then asked of [`rules`].

use crate::records::{
    refusal, Block, Checked, Findings, Head, CLAIMED, FETCHED, IDLE, LOOKED, MOST_BLOCKS, MOST_DESKS, MOST_ENTRIES,
    ROUNDS,
};
use crate::rules;

/// Whether NB, NE and T are within their limits and the lent lengths are NB and NB × NE.
#[must_use]
pub fn fit(nb: u32, ne: u32, t: u32, table_len: usize, entries_len: usize) -> bool {
    (2..=MOST_BLOCKS as u32).contains(&nb)
        && (1..=MOST_ENTRIES as u32).contains(&ne)
        && (1..=MOST_DESKS as u32).contains(&t)
        && table_len == nb as usize
        && entries_len == (nb * ne) as usize
}

/// [`fit`] for the sizes that a head names.
#[must_use]
pub fn fits(head: &Head, table_len: usize, entries_len: usize) -> bool {
    fit(head.nb.into(), head.ne.into(), head.t.into(), table_len, entries_len)
}

/// The check. It reads no entry.
#[must_use]
pub fn check(head: &Head, table: &[Block], entries_len: usize) -> Checked {
    if !fits(head, table.len(), entries_len) {
        return Checked { number: refusal::UNFIT, place: 0, rule: 0 };
    }
    if sound(head, table) {
        return Checked { number: 0, place: 0, rule: 0 };
    }
    match rules::first_broken(head, table) {
        Some((place, rule)) => Checked { number: refusal::DAMAGED, place, rule },
        None => unreachable!("the quick check refuses a line that breaks no rule: {head:?} {table:?}"),
    }
}

/// The survey.
#[must_use]
pub fn survey(head: &Head, table: &[Block], entries_len: usize) -> Findings {
    let refused = |number| Findings { mask: 0, number, count: 0, lowest: 64 };
    if !fits(head, table.len(), entries_len) {
        return refused(refusal::UNFIT);
    }
    if !sound(head, table) {
        return refused(refusal::DAMAGED);
    }
    let standing = Standing::of(head);
    let mut mask = 0;
    for (block, record) in table.iter().enumerate() {
        let seen =
            standing.current_turn(block as u32).is_some_and(|turn| turn > head.k && record.claimed < record.written);
        mask |= u64::from(seen) << block;
    }
    Findings { mask, number: 0, count: mask.count_ones(), lowest: mask.trailing_zeros() }
}

/// Where turn P stands, from which every block's current turn follows without a division.
#[derive(Clone, Copy)]
pub struct Standing {
    nb: u32,
    p: u32,
    /// The block of turn P.
    pub block: u32,
    /// The round of turn P.
    pub round: u32,
}

impl Standing {
    /// The standing of a head whose NB is not 0.
    #[must_use]
    pub fn of(head: &Head) -> Self {
        let nb = u32::from(head.nb);
        Self { nb, p: head.p, block: head.p % nb, round: head.p / nb }
    }

    /// The block of a turn that is at most NB − 1 before P.
    #[must_use]
    pub fn block_of(self, turn: u32) -> usize {
        let back = self.p - turn;
        (if back <= self.block { self.block - back } else { self.block + self.nb - back }) as usize
    }

    /// Whether the turn is some block's current one.
    #[must_use]
    pub fn is_current(self, turn: u32) -> bool {
        turn <= self.p && self.p - turn < self.nb
    }

    /// The current turn of a block, if it is used.
    #[must_use]
    pub fn current_turn(self, block: u32) -> Option<u32> {
        let back = if block <= self.block { self.block - block } else { self.block + self.nb - block };
        self.p.checked_sub(back)
    }
}

/// Whether a fit line breaks no rule.
#[must_use]
pub fn sound(head: &Head, table: &[Block]) -> bool {
    let nb = u32::from(head.nb);
    if head.k > head.p || head.p - head.k >= nb || head.p >= ROUNDS * nb {
        return false;
    }
    let standing = Standing::of(head);
    let owned = table[standing.block_of(head.k)];
    if head.reading < owned.claimed || head.reading > owned.written {
        return false;
    }
    let mut held = [0; MOST_BLOCKS];
    desks_sound(head, table, standing, &mut held) && table_sound(head, table, standing, &held)
}

/// Rule 3. It counts the desks claimed or fetched in each block on the way.
fn desks_sound(head: &Head, table: &[Block], standing: Standing, held: &mut [u16; MOST_BLOCKS]) -> bool {
    let mut holding = [(0, 0); MOST_DESKS];
    let mut holders = 0;
    for (number, desk) in head.desks.iter().enumerate() {
        if desk.stage == IDLE {
            continue;
        }
        if number >= usize::from(head.t) {
            return false;
        }
        match desk.stage {
            LOOKED => {
                if desk.turn > head.p || desk.place >= head.ne {
                    return false;
                }
                if standing.is_current(desk.turn) && desk.place >= table[standing.block_of(desk.turn)].written {
                    return false;
                }
            }
            CLAIMED | FETCHED => {
                if !standing.is_current(desk.turn) {
                    return false;
                }
                let block = standing.block_of(desk.turn);
                if desk.place >= table[block].claimed || holding[..holders].contains(&(desk.turn, desk.place)) {
                    return false;
                }
                holding[holders] = (desk.turn, desk.place);
                holders += 1;
                held[block] += 1;
            }
            _ => return false,
        }
    }
    true
}

/// Rules 4 to 7. Every used block but P's is full; those after P's block have the round before, or are unused.
fn table_sound(head: &Head, table: &[Block], standing: Standing, held: &[u16; MOST_BLOCKS]) -> bool {
    let last = standing.block as usize;
    let (before, rest) = table.split_at(last);
    let (put, after) = (rest[0], &rest[1..]);
    let round = standing.round as u16;
    let (held_before, held_after) = (&held[..last], &held[last + 1..]);

    let mut fault = put.round ^ round
        | put.written.saturating_sub(head.ne)
        | u16::from(put.written == 0 && head.p != 0)
        | put.claimed.saturating_sub(put.written)
        | put.claimed ^ put.finished.saturating_add(held[last]);
    fault |= full_blocks(before, held_before, round, head.ne);
    if round == 0 {
        // Turn 0 stands in block 0, and no turn stands in the blocks after P's.
        fault |= table[0].claimed;
        for record in after {
            fault |= record.round | record.written | record.claimed | record.finished;
        }
    } else {
        fault |= full_blocks(after, held_after, round - 1, head.ne);
    }
    fault == 0
}

/// 0 if all these blocks have this round, are full, and keep rules 6 and 7.
fn full_blocks(table: &[Block], held: &[u16], round: u16, ne: u16) -> u16 {
    let mut fault = 0;
    for (record, &held) in table.iter().zip(held) {
        fault |= record.round ^ round
            | record.written ^ ne
            | record.claimed.saturating_sub(ne)
            | record.claimed ^ record.finished.saturating_add(held);
    }
    fault
}
