//! The kinds of a run: which memory is lent, and which calls are made.

use crate::call::Call;
use crate::difference::Difference;
use crate::memory::Memory;
use crate::random::Random;
use crate::run::Run;
use crate::tally::Tally;
use model::check::Standing;
use model::records::{Block, Desk, Head, CLAIMED, FETCHED, IDLE, LAST_LABEL, LOOKED, ROUNDS};

/// What a run is out for.
#[derive(Clone, Copy, Debug, PartialEq, Eq, PartialOrd, Ord)]
pub enum RunKind {
    /// From opening, any sizes, steps that mostly can be done: filling, draining, stealing, all desks at one block.
    Legal,
    /// From opening, mostly codes and numbers that cannot be.
    Broken,
    /// From opening, two or three blocks of one or two entries, one or two desks.
    Tiny,
    /// From opening, 64 blocks of 64 entries, 16 desks.
    Largest,
    /// From a sound line near the end of its rounds, all read, to WORN and on.
    Worn,
    /// From any sound line, also such as no run reaches, with any numbers in entries and idle desks.
    Lent,
    /// A line of a run or a sound line with some of its numbers changed: the same refusal from all calls, and no
    /// change.
    Damaged,
    /// Sizes and lengths that do not fit: UNFIT from all calls, and no change.
    Unfit,
}

const WEIGHTS: [(RunKind, u32); 8] = [
    (RunKind::Legal, 6),
    (RunKind::Broken, 2),
    (RunKind::Tiny, 6),
    (RunKind::Largest, 1),
    (RunKind::Worn, 3),
    (RunKind::Lent, 6),
    (RunKind::Damaged, 8),
    (RunKind::Unfit, 4),
];

type Outcome = Result<(), Box<Difference>>;

#[derive(Clone, Copy)]
struct Sizes {
    nb: u32,
    ne: u32,
    t: u32,
}

impl Sizes {
    fn drawn(random: &mut Random) -> Self {
        let nb = if random.percent(75) { random.within(2, 9) } else { random.within(2, 64) };
        let ne = if random.percent(75) { random.within(1, 6) } else { random.within(1, 64) };
        Self { nb, ne, t: random.within(1, 16) }
    }

    fn memory(self, random: &mut Random) -> Memory {
        Memory::new(random, self.nb as usize, (self.nb * self.ne) as usize)
    }

    fn open(self) -> Call {
        Call::Open(self.nb, self.ne, self.t)
    }
}

pub(crate) fn drawn(random: &mut Random) -> RunKind {
    WEIGHTS[random.weighed(&WEIGHTS.map(|(_, weight)| weight))].0
}

pub(crate) fn play(kind: RunKind, seed: u64, mut random: Random, tally: &mut Tally) -> Outcome {
    let random = &mut random;
    let sizes = match kind {
        RunKind::Tiny if random.percent(50) => Sizes { nb: 2, ne: 1, t: 1 },
        RunKind::Tiny => Sizes { nb: random.within(2, 3), ne: random.within(1, 2), t: random.within(1, 2) },
        RunKind::Largest => Sizes { nb: 64, ne: 64, t: 16 },
        _ => Sizes::drawn(random),
    };
    if kind == RunKind::Unfit {
        return unfit(sizes, seed, random, tally);
    }
    let memory = sizes.memory(random);
    let run = &mut Run::new(seed, kind, memory, tally);
    match kind {
        RunKind::Legal | RunKind::Tiny | RunKind::Largest => {
            run.call(Call::Check)?;
            run.call(sizes.open())?;
            let steps = if kind == RunKind::Largest { 8_000 } else { random.within(50, 3000) };
            legal(sizes, random, run, steps)
        }
        RunKind::Broken => {
            run.call(sizes.open())?;
            broken(sizes, random, run)
        }
        RunKind::Worn => {
            // Everything read, as near to the end as a few rounds of puts.
            let p = ROUNDS * sizes.nb - 1 - random.below(3 * sizes.nb);
            let (nb, ne) = (sizes.nb as u16, sizes.ne as u16);
            let head = Head { nb, ne, t: sizes.t as u16, reading: ne, p, k: p, ..Head::default() };
            let standing = Standing::of(&head);
            run.write(|to, table, entries| {
                *to = head;
                for (block, record) in (0..).zip(table) {
                    let turn = standing.current_turn(block).unwrap_or(0);
                    *record = Block { round: (turn / sizes.nb) as u16, written: ne, claimed: 0, finished: 0 };
                }
                entries.fill(7);
            });
            run.call(Call::Check)?;
            let steps = 8 * sizes.nb * sizes.ne + 50;
            legal(sizes, random, run, steps.min(6000))
        }
        RunKind::Lent => {
            lend(sizes, random, run);
            run.call(Call::Check)?;
            let steps = random.within(20, 800);
            legal(sizes, random, run, steps)
        }
        RunKind::Damaged => damaged(sizes, random, run),
        RunKind::Unfit => unreachable!("played above"),
    }
}

// Steps that mostly can be done.

/// What the steps of a while lean to: weights of put, get, order and a desk's step, and whether all desks want one
/// block.
#[derive(Clone, Copy)]
struct Leaning {
    weights: [u32; 4],
    crowd: bool,
}

const LEANINGS: [Leaning; 6] = [
    Leaning { weights: [12, 1, 2, 4], crowd: false },
    Leaning { weights: [1, 12, 0, 4], crowd: false },
    Leaning { weights: [2, 2, 0, 16], crowd: false },
    Leaning { weights: [2, 2, 0, 16], crowd: true },
    Leaning { weights: [6, 5, 1, 8], crowd: false },
    Leaning { weights: [5, 5, 0, 2], crowd: true },
];

fn legal(sizes: Sizes, random: &mut Random, run: &mut Run, steps: u32) -> Outcome {
    let mut leaning = LEANINGS[0];
    let mut crowd_at = 0;
    let mut label = random.below(LAST_LABEL);
    for step in 0..steps {
        if step > 0 && random.below(40 + sizes.ne) == 0 {
            leaning = random.of(&LEANINGS);
            crowd_at = random.below(sizes.nb);
        }
        let call = match random.below(400) {
            0..=11 => Call::Check,
            12..=25 => Call::Survey,
            26..=33 => odd(sizes, random),
            34 if random.percent(20) => sizes.open(),
            _ => match random.weighed(&leaning.weights) {
                0 => {
                    label = (label + 1) % (LAST_LABEL + 1);
                    Call::Step(0, label, random.any())
                }
                1 => Call::Step(1, random.any(), random.any()),
                2 => order(sizes, random),
                _ => by_a_desk(sizes, random, run, leaning.crowd.then_some(crowd_at)),
            },
        };
        run.call(call)?;
    }
    run.call(Call::Check)?;
    Ok(())
}

fn order(sizes: Sizes, random: &mut Random) -> Call {
    let (first, last) = match random.below(8) {
        0 => (0, LAST_LABEL),
        1 => {
            let label = random.below(LAST_LABEL + 1);
            (label, label)
        }
        2 => (LAST_LABEL - random.below(sizes.ne + 1), LAST_LABEL),
        _ => {
            let first = random.below(900_000);
            (first, first + random.below(2 * sizes.ne))
        }
    };
    if random.percent(50) {
        Call::Order(first, last)
    } else {
        Call::Step(2, first, last)
    }
}

/// The next step of some desk, as its stage has it.
fn by_a_desk(sizes: Sizes, random: &mut Random, run: &Run, crowd: Option<u32>) -> Call {
    let (head, table) = run.records();
    let desk = random.below(sizes.t);
    let code = match head.desks[desk as usize].stage {
        LOOKED if random.percent(88) => 16,
        CLAIMED => 32,
        FETCHED => 48,
        _ => 64,
    };
    let block = match crowd {
        Some(block) => block,
        None if random.percent(80) => {
            let findings = model::line::survey(head, table, table.len() * usize::from(head.ne));
            let seen: Vec<u32> = (0..sizes.nb).filter(|block| findings.mask >> block & 1 == 1).collect();
            if seen.is_empty() {
                random.below(sizes.nb)
            } else {
                random.of(&seen)
            }
        }
        None => random.below(sizes.nb + 1),
    };
    Call::Step(code + desk, block, random.any())
}

// Steps that mostly cannot.

/// A number that stands next to some limit, or any.
fn number(sizes: Sizes, random: &mut Random) -> u32 {
    let Sizes { nb, ne, t } = sizes;
    match random.below(4) {
        0 => random.of(&[0, 1, nb - 1, nb, nb + 1, ne, nb * ne, t, 63, 64, 255, 256, 65_535, 65_536]),
        1 => random.of(&[LAST_LABEL - 1, LAST_LABEL, LAST_LABEL + 1, u32::MAX - 1, u32::MAX, 1 << 31, (1 << 16) + nb]),
        2 => random.below(nb),
        _ => random.any(),
    }
}

/// A step of any code with any numbers.
fn odd(sizes: Sizes, random: &mut Random) -> Call {
    let code = match random.below(6) {
        0 => random.below(256),
        1 => random.of(&[2, 3, 15, 16, 31, 32, 47, 48, 63, 64, 79, 80, 255]),
        2 => random.below(3),
        3 => random.of(&[16, 32, 48, 64]) + random.below(16),
        4 => random.of(&[1 << 8, 1 << 16, 1 << 24, 1 << 31]) + random.below(80),
        _ => random.any(),
    };
    if random.percent(10) {
        return Call::Order(number(sizes, random), number(sizes, random));
    }
    Call::Step(code, number(sizes, random), number(sizes, random))
}

fn broken(sizes: Sizes, random: &mut Random, run: &mut Run) -> Outcome {
    for _ in 0..random.within(50, 1500) {
        let call = match random.below(20) {
            0 => Call::Check,
            1 => Call::Survey,
            2..=4 => by_a_desk(sizes, random, run, None),
            5 => order(sizes, random),
            6 if random.percent(10) => Call::Open(number(sizes, random), number(sizes, random), number(sizes, random)),
            _ => odd(sizes, random),
        };
        run.call(call)?;
    }
    Ok(())
}

// Any sound line.

/// Writes a sound line into the memory: any P, any K within reach, any claims, desks that hold some of them.
fn lend(sizes: Sizes, random: &mut Random, run: &mut Run) {
    let Sizes { nb, ne, t } = sizes;
    let p = match random.below(4) {
        0 => random.below(nb),
        1 => random.below(3 * nb),
        2 => random.below(ROUNDS * nb),
        _ => ROUNDS * nb - 1 - random.below(2 * nb),
    };
    let k = p - random.below(nb.min(p + 1));
    let mut head = Head { nb: nb as u16, ne: ne as u16, t: t as u16, reading: 0, p, k, desks: [Desk::default(); 16] };
    let standing = Standing::of(&head);
    let mut table = vec![Block::default(); nb as usize];
    for (block, record) in (0..).zip(&mut table) {
        let Some(turn) = standing.current_turn(block) else {
            continue;
        };
        record.round = (turn / nb) as u16;
        record.written = if turn < p { ne } else { random.within(u32::from(p > 0), ne) } as u16;
        record.claimed = if turn == 0 { 0 } else { random.below(u32::from(record.written) + 1) as u16 };
        record.finished = record.claimed;
    }
    let owned = table[(k % nb) as usize];
    head.reading = random.within(owned.claimed.into(), owned.written.into()) as u16;
    let mut held = Vec::new();
    for number in 0..16 {
        // An idle desk's turn and place are not read, and may be any.
        let mut desk = Desk { stage: IDLE, place: random.any() as u16, turn: random.any() };
        if number < t {
            let turn = p - random.below(nb.min(p + 1));
            let record = &mut table[(turn % nb) as usize];
            match random.below(4) {
                0 if record.written > 0 => {
                    desk = Desk { stage: LOOKED, place: random.below(record.written.into()) as u16, turn };
                    if random.percent(50) {
                        // The place that would be won.
                        desk.place = record.claimed.min(record.written - 1);
                    }
                    if random.percent(25) && p >= nb {
                        desk.turn = random.below(p - nb + 1);
                        desk.place = random.below(ne) as u16;
                    }
                }
                1 | 2 if record.claimed > 0 => {
                    let place = random.below(record.claimed.into()) as u16;
                    if !held.contains(&(turn, place)) {
                        held.push((turn, place));
                        record.finished -= 1;
                        desk = Desk { stage: random.of(&[CLAIMED, FETCHED]), place, turn };
                    }
                }
                _ => {}
            }
        }
        head.desks[number as usize] = desk;
    }
    run.write(|to, records, _| {
        *to = head;
        records.copy_from_slice(&table);
    });
}

// Damage.

fn damaged(sizes: Sizes, random: &mut Random, run: &mut Run) -> Outcome {
    if random.percent(50) {
        run.call(sizes.open())?;
        let steps = random.within(10, 300);
        legal(sizes, random, run, steps)?;
    } else {
        lend(sizes, random, run);
        run.call(Call::Check)?;
    }
    for _ in 0..40 {
        let kept = run.keep();
        for _ in 0..random.of(&[1, 1, 1, 2, 3, 5]) {
            damage(sizes, random, run);
        }
        if run.call_unchanged(Call::Check)?.number() == 0 {
            // Still sound: it goes on from there.
            let steps = random.within(1, 20);
            legal(sizes, random, run, steps)?;
        } else {
            run.call_unchanged(Call::Survey)?;
            for _ in 0..random.within(1, 6) {
                let call = match random.below(4) {
                    0 => order(sizes, random),
                    1 => odd(sizes, random),
                    2 => Call::Step(random.of(&[0, 1, 2]), number(sizes, random), LAST_LABEL),
                    _ => Call::Step(random.of(&[16, 32, 48, 64]) + random.below(16), random.below(sizes.nb), 0),
                };
                run.call_unchanged(call)?;
            }
            if random.percent(2) {
                run.call(sizes.open())?;
            }
        }
        if random.percent(80) {
            run.restore(kept);
            let steps = random.within(0, 4);
            legal(sizes, random, run, steps)?;
        } else if run.call(Call::Check)?.number() != 0 {
            run.restore(kept);
        }
    }
    Ok(())
}

/// Changes one or a few numbers of head, desks or table.
fn damage(sizes: Sizes, random: &mut Random, run: &mut Run) {
    let Sizes { nb, ne, t } = sizes;
    let (old, table) = run.records();
    let (old, records) = (*old, table.to_vec());
    let other = |random: &mut Random, old: u32| match random.below(10) {
        0..=2 => old.wrapping_add(1),
        3 | 4 => old.wrapping_sub(1),
        5 => random.of(&[old.wrapping_add(nb), old.wrapping_sub(nb), old ^ 1 << 15, old ^ 1 << 8]),
        6 => random.below(ne + 2),
        7 => random.below(nb + 2),
        8 => random.of(&[0, 1, 4, 17, ne, ne + 1, 64, 65, 65_535, u32::MAX]),
        _ => random.any(),
    };
    let desks = if random.percent(70) { t } else { 16 };
    let one = random.below(desks) as usize;
    let two = random.below(t) as usize;
    let (mut block, second) = (random.below(nb) as usize, random.below(nb) as usize);
    let kind = random.below(27);
    let mut head = old;
    let mut record = records[block];
    let (mut swapped, mut moved) = (false, 0);
    match kind {
        0 => head.nb = other(random, head.nb.into()) as u16,
        1 => head.ne = other(random, head.ne.into()) as u16,
        2 => head.t = other(random, head.t.into()) as u16,
        3 => head.reading = other(random, head.reading.into()) as u16,
        4 => head.p = other(random, head.p),
        5 => head.k = other(random, head.k),
        6 => {
            // The same window, a round on or back, or beyond the last; perhaps with all rounds, so that only rule 1
            // tells.
            let beyond = ROUNDS.wrapping_sub(head.p / nb);
            let rounds = random.of(&[1, 1_u32.wrapping_neg(), beyond, beyond]);
            head.p = head.p.wrapping_add(rounds.wrapping_mul(nb));
            head.k = head.k.wrapping_add(rounds.wrapping_mul(nb));
            moved = if random.percent(60) { rounds as u16 } else { 0 };
            for desk in &mut head.desks[..t as usize] {
                desk.turn = desk.turn.wrapping_add(u32::from(moved) * nb);
            }
        }
        7 => head.t = random.within(1, 16) as u16,
        8 | 9 => head.desks[one].stage = random.of(&[0, 1, 2, 3, 4, 65_535]),
        10 | 11 => head.desks[one].place = other(random, head.desks[one].place.into()) as u16,
        12 | 13 => head.desks[one].turn = other(random, head.desks[one].turn),
        // Two desks at one place.
        14 => head.desks[one] = head.desks[two],
        // The same, with the count made right, so that only the pair tells.
        15 => {
            head.desks[one] = Desk { stage: random.of(&[2, 3]), ..head.desks[two] };
            block = (head.desks[two].turn % nb) as usize;
            record = records[block];
            record.finished = record.finished.wrapping_sub(1);
        }
        // A desk put into some turn that is current, with its count made right.
        16 | 17 => {
            let turn = head.p.saturating_sub(random.below(nb));
            let place = random.below(u32::from(record.claimed) + 1) as u16;
            head.desks[one] = Desk { stage: random.of(&[1, 2, 3]), place, turn };
            if (turn % nb) as usize == block && random.percent(70) {
                record.finished = record.finished.wrapping_sub(1);
            }
        }
        // A looked desk around written of turn P, or around NE in any turn: only its place tells.
        25 | 26 => {
            let turn = if random.percent(60) { head.p } else { random.below(head.p.saturating_add(1)) };
            head.desks[two] = Desk { stage: LOOKED, place: random.below(ne + 2) as u16, turn };
        }
        18 => record.round = other(random, record.round.into()) as u16,
        19 => record.written = other(random, record.written.into()) as u16,
        20 => record.claimed = other(random, record.claimed.into()) as u16,
        21 => record.finished = other(random, record.finished.into()) as u16,
        22 => {
            // The difference stays.
            let by = random.of(&[1, 2, 64, 65_535]);
            record.claimed = record.claimed.wrapping_add(by);
            record.finished = record.finished.wrapping_add(by);
        }
        23 => record = records[second],
        _ => swapped = true,
    }
    run.write(|to, table, _| {
        *to = head;
        table[block] = record;
        for record in table.iter_mut() {
            record.round = record.round.wrapping_add(moved);
        }
        if swapped {
            table.swap(block, second);
        }
    });
}

// Sizes and lengths that do not fit.

fn unfit(sizes: Sizes, seed: u64, random: &mut Random, tally: &mut Tally) -> Outcome {
    let Sizes { nb, ne, t } = sizes;
    // Each time one thing is wrong alone: the table, the entries, a size with the lengths that would be its own; or
    // any.
    let (nb, ne, records, labels) = match random.below(4) {
        0 => (nb, ne, random.of(&[0, 1, nb - 1, nb + 1, 63, 64, 65, 100]), nb * ne),
        1 => (nb, ne, nb, random.of(&[0, nb * ne - 1, nb * ne + 1, nb * (ne + 1), 4096, 4097, 5000])),
        2 => {
            let (nb, ne) = (random.of(&[nb, 1, 65]), random.of(&[ne, 0, 65]));
            (nb, ne, nb, nb * ne)
        }
        _ => (nb, ne, random.below(101), random.below(5001)),
    };
    let memory = Memory::new(random, records as usize, labels as usize);
    let run = &mut Run::new(seed, RunKind::Unfit, memory, tally);
    let size = |random: &mut Random, right: u32, most: u32| match random.below(10) {
        0..=4 => right,
        5 => random.of(&[0, 1, 2, most, most + 1, 255, 256, 65_535]),
        6 => right + random.of(&[1 << 8, 1 << 16, 1 << 24, 1 << 31]),
        7 => random.of(&[right + 1, right.wrapping_sub(1)]),
        8 => random.within(1, most),
        _ => random.any(),
    };
    for _ in 0..random.within(10, 60) {
        let (nb, ne, t) = (size(random, nb, 64), size(random, ne, 64), size(random, t, 16));
        if random.percent(60) {
            run.call(Call::Open(nb, ne, t))?;
        } else {
            run.write(|head, _, _| (head.nb, head.ne, head.t) = (nb as u16, ne as u16, t as u16));
        }
        let fits = run.call(Call::Check)?.number() != 1;
        for _ in 0..4 {
            let call = match random.below(4) {
                0 => Call::Survey,
                1 => order(sizes, random),
                2 => odd(sizes, random),
                _ => Call::Step(random.of(&[0, 1, 16, 32, 48, 64]), random.below(4), 0),
            };
            if fits {
                run.call(call)?;
            } else {
                run.call_unchanged(call)?;
            }
        }
    }
    Ok(())
}
