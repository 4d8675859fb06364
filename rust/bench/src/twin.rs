//! The library's own way to check a line, in plain Rust and in place: rule by rule, block by block, and for each
//! block all desks are walked.

use model::records::{Block, Desk, Head, CLAIMED, FETCHED, IDLE, LOOKED, ROUNDS};

fn holds(desk: &Desk) -> bool {
    desk.stage == CLAIMED || desk.stage == FETCHED
}

/// Whether a fit line breaks no rule.
pub fn sound(head: &Head, table: &[Block]) -> bool {
    let (nb, p) = (u32::from(head.nb), head.p);
    let is_current = |turn: u32| turn <= p && p - turn < nb;
    if !is_current(head.k) || p >= ROUNDS * nb {
        return false;
    }
    let last = p % nb;
    let back = |steps: u32| if steps <= last { last - steps } else { last + nb - steps };
    let owned = table[back(p - head.k) as usize];
    if head.reading < owned.claimed || head.reading > owned.written {
        return false;
    }
    desks_sound(head, table, is_current, back) && (0..nb).all(|block| block_sound(head, table, block, back))
}

/// Rule 3: the desks one by one, then two by two.
fn desks_sound(head: &Head, table: &[Block], is_current: impl Fn(u32) -> bool, back: impl Fn(u32) -> u32) -> bool {
    for (number, desk) in head.desks.iter().enumerate() {
        if desk.stage == IDLE {
            continue;
        }
        let current = is_current(desk.turn);
        let record = if current { table[back(head.p - desk.turn) as usize] } else { Block::default() };
        let looks = desk.turn <= head.p && desk.place < head.ne && (!current || desk.place < record.written);
        let keeps = if desk.stage == LOOKED { looks } else { holds(desk) && current && desk.place < record.claimed };
        if number >= usize::from(head.t) || !keeps {
            return false;
        }
    }
    let pair = |a: &Desk, b: &Desk| holds(b) && a.turn == b.turn && a.place == b.place;
    !head.desks.iter().enumerate().any(|(i, a)| holds(a) && head.desks[i + 1..].iter().any(|b| pair(a, b)))
}

/// Rules 4 to 7 of one block.
fn block_sound(head: &Head, table: &[Block], block: u32, back: impl Fn(u32) -> u32) -> bool {
    let (nb, p, record) = (u32::from(head.nb), head.p, table[block as usize]);
    if p < block {
        return record.round == 0 && record.written == 0 && record.claimed == 0 && record.finished == 0;
    }
    let turn = p - back(block);
    let holders = head.desks.iter().filter(|desk| holds(desk) && desk.turn == turn).count();
    u32::from(record.round) * nb + block == turn
        && if turn < p {
            record.written == head.ne
        } else {
            record.written <= head.ne && (p == 0 || record.written > 0)
        }
        && record.claimed <= record.written
        && (turn != 0 || record.claimed == 0)
        && usize::from(record.claimed) == usize::from(record.finished) + holders
}
