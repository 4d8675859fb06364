//! The line in its lent memory: opening, steps and orders, done in place.

use crate::check::{fit, fits, sound, Standing};
use crate::records::{refusal, Answer, Block, Desk, Head, CLAIMED, FETCHED, IDLE, LAST_LABEL, LOOKED, ROUNDS};

pub use crate::check::{check, survey};

/// Opening: all zero, with the sizes given. Where they or the lengths do not fit, everything stays as found.
pub fn open(head: &mut Head, table: &mut [Block], entries: &mut [u32], nb: u32, ne: u32, t: u32) -> Answer {
    if !fit(nb, ne, t, table.len(), entries.len()) {
        return Answer::refused(refusal::UNFIT);
    }
    *head = Head { nb: nb as u16, ne: ne as u16, t: t as u16, ..Head::default() };
    table.fill(Block::default());
    entries.fill(0);
    Answer::taken(0)
}

/// A step: a code and two numbers.
#[inline]
pub fn step(head: &mut Head, table: &mut [Block], entries: &mut [u32], code: u32, a: u32, b: u32) -> Answer {
    if !fits(head, table.len(), entries.len()) {
        return Answer::refused(refusal::UNFIT);
    }
    if !sound(head, table) {
        return Answer::refused(refusal::DAMAGED);
    }
    step_sound(head, table, entries, code, a, b)
}

/// A step on a line that is known to be sound.
#[inline]
pub fn step_sound(head: &mut Head, table: &mut [Block], entries: &mut [u32], code: u32, a: u32, b: u32) -> Answer {
    match code {
        0 => put(head, table, entries, a),
        1 => get(head, table, entries),
        2 => run(head, table, entries, a, b),
        16..=31 => claim(head, table, code - 16),
        32..=47 => fetch(head, entries, code - 32),
        48..=63 => finish(head, table, code - 48),
        64..=79 => look(head, table, code - 64, a),
        _ => Answer::refused(refusal::BADSTEP),
    }
}

/// An order from first to last, both included: the step of code 2.
pub fn order(head: &mut Head, table: &mut [Block], entries: &mut [u32], first: u32, last: u32) -> Answer {
    step(head, table, entries, 2, first, last)
}

fn put(head: &mut Head, table: &mut [Block], entries: &mut [u32], label: u32) -> Answer {
    if label > LAST_LABEL {
        return Answer::refused(refusal::NOTLABEL);
    }
    match place(head, table, entries, label) {
        Ok(()) => Answer::taken(label),
        Err(number) => Answer::refused(number),
    }
}

fn run(head: &mut Head, table: &mut [Block], entries: &mut [u32], first: u32, last: u32) -> Answer {
    if first > last || last > LAST_LABEL {
        return Answer::refused(refusal::RANGE);
    }
    for label in first..=last {
        if let Err(number) = place(head, table, entries, label) {
            return Answer { number, value: label - first };
        }
    }
    Answer::taken(last - first + 1)
}

/// Places one label on a sound line, or gives the refusal's number.
fn place(head: &mut Head, table: &mut [Block], entries: &mut [u32], label: u32) -> Result<(), u32> {
    let (nb, ne) = (u32::from(head.nb), usize::from(head.ne));
    let block = (head.p % nb) as usize;
    let record = &mut table[block];
    if record.written < head.ne {
        entries[block * ne + usize::from(record.written)] = label;
        record.written += 1;
        return Ok(());
    }
    let start = head.p + 1;
    let round = start / nb;
    if round >= ROUNDS {
        return Err(refusal::WORN);
    }
    let block = (start % nb) as usize;
    if let Some(q) = start.checked_sub(nb) {
        if head.k <= q {
            return Err(refusal::FULL);
        }
        if table[block].claimed > table[block].finished {
            return Err(refusal::BUSY);
        }
    }
    table[block] = Block { round: round as u16, written: 1, claimed: 0, finished: 0 };
    entries[block * ne] = label;
    head.p = start;
    Ok(())
}

fn get(head: &mut Head, table: &[Block], entries: &[u32]) -> Answer {
    let (nb, ne) = (u32::from(head.nb), usize::from(head.ne));
    let mut block = (head.k % nb) as usize;
    loop {
        if head.reading < table[block].written {
            let label = entries[block * ne + usize::from(head.reading)];
            head.reading += 1;
            return Answer::taken(label);
        }
        if head.reading != head.ne || head.k >= head.p {
            return Answer::refused(refusal::EMPTY);
        }
        head.k += 1;
        block = if block + 1 == usize::from(head.nb) { 0 } else { block + 1 };
        head.reading = table[block].claimed;
    }
}

/// What the grid lets a desk of this stage do.
const GRID: [[bool; 4]; 4] = [
    // look, claim, fetch, finish
    [true, false, false, false],
    [true, true, false, false],
    [false, false, true, false],
    [false, false, false, true],
];
const LOOK: usize = 0;
const CLAIM: usize = 1;
const FETCH: usize = 2;
const FINISH: usize = 3;

fn taken_by(desk: Desk, step: usize) -> bool {
    GRID[usize::from(desk.stage)][step]
}

fn look(head: &mut Head, table: &[Block], desk: u32, block: u32) -> Answer {
    if desk >= head.t.into() {
        return Answer::refused(refusal::NODESK);
    }
    if block >= head.nb.into() {
        return Answer::refused(refusal::NOBLOCK);
    }
    if !taken_by(head.desks[desk as usize], LOOK) {
        return Answer::refused(refusal::STAGE);
    }
    let record = table[block as usize];
    let Some(turn) = Standing::of(head).current_turn(block) else {
        return Answer::refused(refusal::NOTHING);
    };
    if turn <= head.k {
        return Answer::refused(refusal::OWNED);
    }
    if record.claimed == record.written {
        return Answer::refused(refusal::NOTHING);
    }
    head.desks[desk as usize] = Desk { stage: LOOKED, place: record.claimed, turn };
    Answer::taken(record.claimed.into())
}

fn claim(head: &mut Head, table: &mut [Block], desk: u32) -> Answer {
    if desk >= head.t.into() {
        return Answer::refused(refusal::NODESK);
    }
    let Desk { turn, place, .. } = head.desks[desk as usize];
    if !taken_by(head.desks[desk as usize], CLAIM) {
        return Answer::refused(refusal::STAGE);
    }
    let standing = Standing::of(head);
    if standing.is_current(turn) && turn > head.k {
        let record = &mut table[standing.block_of(turn)];
        if record.claimed == place {
            record.claimed += 1;
            head.desks[desk as usize].stage = CLAIMED;
            return Answer::taken(place.into());
        }
    }
    head.desks[desk as usize] = Desk { stage: IDLE, place: 0, turn: 0 };
    Answer::refused(refusal::LOST)
}

fn fetch(head: &mut Head, entries: &[u32], desk: u32) -> Answer {
    if desk >= head.t.into() {
        return Answer::refused(refusal::NODESK);
    }
    let Desk { turn, place, .. } = head.desks[desk as usize];
    if !taken_by(head.desks[desk as usize], FETCH) {
        return Answer::refused(refusal::STAGE);
    }
    head.desks[desk as usize].stage = FETCHED;
    let block = (turn % u32::from(head.nb)) as usize;
    Answer::taken(entries[block * usize::from(head.ne) + usize::from(place)])
}

fn finish(head: &mut Head, table: &mut [Block], desk: u32) -> Answer {
    if desk >= head.t.into() {
        return Answer::refused(refusal::NODESK);
    }
    let turn = head.desks[desk as usize].turn;
    if !taken_by(head.desks[desk as usize], FINISH) {
        return Answer::refused(refusal::STAGE);
    }
    table[(turn % u32::from(head.nb)) as usize].finished += 1;
    head.desks[desk as usize] = Desk { stage: IDLE, place: 0, turn: 0 };
    Answer::taken(0)
}
