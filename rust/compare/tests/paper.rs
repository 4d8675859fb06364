//! What the paper itself says of a line, played on library, model and book, with the answers written out here.

use compare::{Call, Memory, Random, Run, RunKind, Said, Tally};
use model::records::{Block, Checked, Desk, Findings, Head};
use model::words::word;

/// A line of these sizes for one test, opened on memory that was full of something else.
fn with_line(nb: u32, ne: u32, t: u32, test: impl FnOnce(&mut Run)) {
    let memory = Memory::new(&mut Random::new(9), nb as usize, (nb * ne) as usize);
    let mut tally = Tally::default();
    let mut run = Run::new(9, RunKind::Legal, memory, &mut tally);
    said(&mut run, Call::Open(nb, ne, t));
    test(&mut run);
}

fn said(run: &mut Run, call: Call) -> Said {
    run.call(call).unwrap_or_else(|difference| panic!("{difference}"))
}

/// A step: code, A and B.
type Step = (u32, u32, u32);

const fn put(label: u32) -> Step {
    (0, label, 0)
}

const fn get() -> Step {
    (1, 0, 0)
}

const fn order(first: u32, last: u32) -> Step {
    (2, first, last)
}

const fn claim(desk: u32) -> Step {
    (16 + desk, 0, 0)
}

const fn fetch(desk: u32) -> Step {
    (32 + desk, 0, 0)
}

const fn finish(desk: u32) -> Step {
    (48 + desk, 0, 0)
}

const fn look(desk: u32, block: u32) -> Step {
    (64 + desk, block, 0)
}

/// Plays steps, each with the answer that it has to get.
fn plays(run: &mut Run, steps: &[(Step, &str)]) {
    for (number, &((code, a, b), expected)) in steps.iter().enumerate() {
        let answer = run.step(code, a, b).unwrap_or_else(|difference| panic!("{difference}"));
        let answer = format!("{} {}", word(code, answer.number), answer.value);
        assert_eq!(answer, expected, "step {}: {}", number + 1, Call::Step(code, a, b));
    }
}

#[test]
fn either_side_of_the_line() {
    with_line(2, 64, 1, |run| {
        plays(run, &[(order(1, 100), "WHOLE 100")]);
        for label in 1..=100 {
            plays(run, &[(get(), &format!("GOT {label}"))]);
        }
        plays(run, &[(get(), "EMPTY 0")]);
    });
    with_line(2, 64, 1, |run| {
        plays(
            run,
            &[
                (get(), "EMPTY 0"),
                (look(0, 0), "OWNED 0"),
                (look(0, 1), "NOTHING 0"),
                (order(1, 1), "WHOLE 1"),
                (order(1, 0), "RANGE 0"),
                (order(999999, 1000000), "RANGE 0"),
                (order(1000000, 1000000), "RANGE 0"),
                (put(999999), "PUT 999999"),
                (put(1000000), "NOTLABEL 0"),
            ],
        );
    });
    with_line(2, 1, 1, |run| {
        plays(
            run,
            &[
                (put(1), "PUT 1"),
                (put(2), "PUT 2"),
                (look(0, 1), "SEEN 0"),
                (get(), "GOT 1"),
                (get(), "GOT 2"),
                (claim(0), "LOST 0"),
                (claim(0), "STAGE 0"),
            ],
        );
    });
    with_line(64, 64, 16, |run| plays(run, &[(order(0, 999999), "FULL 4096"), (order(0, 999999), "FULL 0")]));
}

#[test]
fn sizes() {
    let opens = |nb: u32, ne: u32, t: u32, records: usize, labels: usize| {
        let mut tally = Tally::default();
        let memory = Memory::new(&mut Random::new(1), records, labels);
        let mut run = Run::new(1, RunKind::Unfit, memory, &mut tally);
        said(&mut run, Call::Open(nb, ne, t)).number()
    };
    for (nb, ne, t, number) in [
        (1, 1, 1, 1),
        (2, 1, 1, 0),
        (64, 64, 16, 0),
        (65, 1, 1, 1),
        (2, 0, 1, 1),
        (2, 65, 1, 1),
        (2, 1, 0, 1),
        (2, 1, 17, 1),
    ] {
        assert_eq!(opens(nb, ne, t, nb as usize, (nb * ne) as usize), number, "NB {nb} NE {ne} T {t}");
    }
    for (records, labels) in [(3, 8), (5, 8), (4, 7), (4, 9), (0, 0), (2, 8)] {
        assert_eq!(opens(4, 2, 1, records, labels), 1, "{records} records, {labels} entries");
    }
    // No narrower number makes these fit.
    for wide in [1 << 8, 1 << 16, 1 << 24, 1 << 31] {
        assert_eq!(opens(4 + wide, 2, 1, 4, 8), 1);
        assert_eq!(opens(4, 2 + wide, 1, 4, 8), 1);
        assert_eq!(opens(4, 2, 1 + wide, 4, 8), 1);
        with_line(4, 2, 1, |run| plays(run, &[((wide, 0, 0), "BADSTEP 0")]));
    }
}

#[test]
fn worn() {
    with_line(2, 1, 1, |run| {
        for label in 0..131_072 {
            assert_eq!(run.step(0, label, 0).unwrap().number, 0);
            assert_eq!(run.step(1, 0, 0).unwrap().value, label);
        }
        plays(run, &[(put(5), "WORN 0"), (order(5, 6), "WORN 0"), (get(), "EMPTY 0"), (look(0, 1), "OWNED 0")]);
    });
}

#[test]
fn nearly_right() {
    // The last label of a block is placed there and read there.
    with_line(2, 3, 1, |run| {
        plays(run, &[(order(1, 3), "WHOLE 3")]);
        assert_eq!((run.records().0.p, run.records().1[0].written), (0, 3));
        plays(run, &[(get(), "GOT 1"), (get(), "GOT 2"), (get(), "GOT 3"), (get(), "EMPTY 0")]);
    });
    // A block filled again looks the same to a desk that compares the place alone.
    with_line(2, 1, 2, |run| {
        plays(
            run,
            &[
                (order(1, 2), "WHOLE 2"),
                (look(0, 1), "SEEN 0"),
                (get(), "GOT 1"),
                (get(), "GOT 2"),
                (order(3, 4), "FULL 1"),
                (get(), "GOT 3"),
                (put(4), "PUT 4"),
                (look(1, 1), "SEEN 0"),
                (claim(0), "LOST 0"),
                (claim(1), "CLAIMED 0"),
                (fetch(1), "TOOK 4"),
            ],
        );
    });
    // A block is filled again only when the desks there have finished.
    with_line(2, 1, 1, |run| {
        plays(
            run,
            &[
                (order(1, 2), "WHOLE 2"),
                (look(0, 1), "SEEN 0"),
                (claim(0), "CLAIMED 0"),
                (get(), "GOT 1"),
                (get(), "EMPTY 0"),
                (put(3), "PUT 3"),
                (put(4), "FULL 0"),
                (get(), "GOT 3"),
                (put(4), "BUSY 0"),
                (fetch(0), "TOOK 2"),
                (put(4), "BUSY 0"),
                (finish(0), "DONE 0"),
                (put(4), "PUT 4"),
            ],
        );
    });
    // What was stolen does not come out again.
    with_line(2, 2, 1, |run| {
        plays(run, &[(order(1, 4), "WHOLE 4"), (look(0, 1), "SEEN 0"), (claim(0), "CLAIMED 0"), (get(), "GOT 1")]);
        plays(run, &[(get(), "GOT 2"), (get(), "GOT 4"), (fetch(0), "TOOK 3"), (get(), "EMPTY 0")]);
    });
    // One get goes past every block that desks have emptied.
    with_line(4, 1, 2, |run| {
        plays(run, &[(order(1, 4), "WHOLE 4"), (look(0, 1), "SEEN 0"), (claim(0), "CLAIMED 0")]);
        plays(run, &[(look(1, 2), "SEEN 0"), (claim(1), "CLAIMED 0"), (get(), "GOT 1"), (get(), "GOT 4")]);
    });
    // NODESK, NOBLOCK, STAGE, in this order; a refused second look leaves the first.
    with_line(2, 2, 1, |run| {
        plays(run, &[(order(1, 4), "WHOLE 4"), (look(1, 9), "NODESK 0"), (look(0, 1), "SEEN 0")]);
        plays(run, &[(look(0, 0), "OWNED 0"), (look(0, 2), "NOBLOCK 0"), (claim(0), "CLAIMED 0")]);
        plays(run, &[(look(0, 2), "NOBLOCK 0"), (look(0, 1), "STAGE 0"), (finish(0), "STAGE 0")]);
    });
    // FULL before BUSY.
    with_line(2, 1, 1, |run| {
        plays(run, &[(order(1, 2), "WHOLE 2"), (look(0, 1), "SEEN 0"), (claim(0), "CLAIMED 0"), (get(), "GOT 1")]);
        plays(run, &[(get(), "EMPTY 0"), (put(3), "PUT 3"), (order(4, 5), "FULL 0")]);
    });
}

/// NB 4, NE 3, T 4. Turns 2 to 5: K is 3 with one label stolen, one read; turn 4 is full, turn 5 has one label. Desk
/// 0 has claimed in turn 3, desk 1 fetched in turn 4, desk 2 looked at turn 4, desk 3 is idle.
fn line_to_damage(run: &mut Run) {
    plays(
        run,
        &[
            (order(1, 12), "WHOLE 12"),
            (look(0, 3), "SEEN 0"),
            (claim(0), "CLAIMED 0"),
            (get(), "GOT 1"),
            (get(), "GOT 2"),
            (get(), "GOT 3"),
            (get(), "GOT 4"),
            (order(13, 15), "WHOLE 3"),
            (look(1, 0), "SEEN 0"),
            (claim(1), "CLAIMED 0"),
            (fetch(1), "TOOK 13"),
            (look(2, 0), "SEEN 1"),
            (get(), "GOT 5"),
            (get(), "GOT 6"),
            (get(), "GOT 7"),
            (get(), "GOT 8"),
            (get(), "GOT 9"),
            (get(), "GOT 11"),
            (put(16), "PUT 16"),
        ],
    );
}

type Damage = fn(&mut Head, &mut [Block]);

#[test]
fn each_part_of_each_rule() {
    let damages: &[(&str, Damage, u32, u32)] = &[
        ("K above P", |head, _| head.k = 6, 64, 1),
        ("K a window back", |head, _| head.k = 1, 64, 1),
        ("P beyond the last round", |head, _| (head.p, head.k) = (65_536 * 4, 65_536 * 4), 64, 1),
        ("P and K at the end of 32 bits", |head, _| (head.p, head.k) = (u32::MAX, u32::MAX), 64, 1),
        ("reading below claimed", |head, _| head.reading = 0, 64, 2),
        ("reading above written", |head, _| head.reading = 4, 64, 2),
        ("a desk from T on", |head, _| (head.t, head.desks[3].stage) = (3, 1), 64, 3),
        ("a claimed desk from T on", |head, _| head.t = 1, 64, 3),
        ("no stage", |head, _| head.desks[3].stage = 4, 64, 3),
        ("no stage, all bits", |head, _| head.desks[3].stage = 65_535, 64, 3),
        ("no stage from T on", |head, _| head.desks[9].stage = 4, 64, 3),
        ("claimed in a turn that is past", |head, _| head.desks[0].turn = 1, 64, 3),
        ("claimed in a turn to come", |head, _| head.desks[0].turn = 7, 64, 3),
        ("fetched in a turn to come, all bits", |head, _| head.desks[1].turn = u32::MAX, 64, 3),
        ("claimed at a place not claimed", |head, _| head.desks[0].place = 1, 64, 3),
        ("looked at a turn to come", |head, _| head.desks[2].turn = 6, 64, 3),
        ("looked beyond NE, turn past", |head, _| (head.desks[2].turn, head.desks[2].place) = (0, 3), 64, 3),
        ("looked beyond NE, turn current", |head, _| head.desks[2].place = 3, 64, 3),
        ("looked beyond written", |head, _| head.desks[2].turn = 5, 64, 3),
        ("two desks at one place", |head, _| head.desks[3] = head.desks[0], 64, 3),
        ("two desks at one place, two stages", |head, _| head.desks[3] = Desk { stage: 3, ..head.desks[0] }, 64, 3),
        ("a round too low", |_, table| table[0].round = 0, 0, 4),
        ("a round too high", |_, table| table[3].round = 1, 3, 4),
        ("written above NE", |_, table| table[1].written = 4, 1, 5),
        ("written above NE below P", |_, table| table[2].written = 4, 2, 5),
        ("written below NE below P", |_, table| table[2].written = 2, 2, 5),
        ("nothing written at P", |_, table| table[1].written = 0, 1, 5),
        ("claimed above written", |_, table| (table[1].claimed, table[1].finished) = (2, 2), 1, 6),
        ("finished more than claimed", |_, table| table[2].finished = 1, 2, 7),
        ("claimed, and no desk", |_, table| table[1].claimed = 1, 1, 7),
        ("a desk, and nothing to finish", |_, table| table[0].finished = 1, 0, 7),
        ("finished more than claimed at P", |_, table| table[1].finished = 1, 1, 7),
        (
            "two desks at one place, with the count made right",
            |head, table| (head.desks[3], table[3].claimed) = (head.desks[0], 2),
            64,
            3,
        ),
        ("finished more, with a desk", |_, table| table[0].finished = 2, 0, 7),
        ("all bits finished", |_, table| table[3].finished = 65_535, 3, 7),
        ("head before blocks", |head, table| (head.reading, table[0].round) = (0, 9), 64, 2),
        ("rule 2 before rule 3", |head, _| (head.reading, head.desks[3].stage) = (0, 9), 64, 2),
        ("the lowest block", |_, table| (table[1].finished, table[2].round) = (1, 9), 1, 7),
        ("the first rule of a block", |_, table| (table[2].written, table[2].finished) = (2, 9), 2, 5),
    ];
    for &(what, damage, place, rule) in damages {
        with_line(4, 3, 4, |run| {
            line_to_damage(run);
            breaks(run, what, damage, place, rule);
        });
    }
    let fresh: &[(&str, Damage, u32, u32)] = &[
        ("a round in an unused block", |_, table| table[1].round = 1, 1, 4),
        ("written in an unused block", |_, table| table[2].written = 1, 2, 4),
        ("claimed in an unused block", |_, table| table[3].claimed = 1, 3, 4),
        ("finished in an unused block", |_, table| table[3].finished = 1, 3, 4),
        ("claimed in turn 0", |head, table| (head.reading, table[0]) = (1, full(1)), 0, 6),
        ("reading beyond nothing", |head, _| head.reading = 1, 64, 2),
    ];
    for &(what, damage, place, rule) in fresh {
        with_line(4, 3, 4, |run| breaks(run, what, damage, place, rule));
    }
    // Rule 5 lets turn 0 be empty, and no other turn P.
    with_line(4, 3, 4, |run| assert_eq!(said(run, Call::Check).number(), 0));
    // An idle desk's turn and place are not read.
    with_line(4, 3, 4, |run| {
        line_to_damage(run);
        run.write(|head, _, _| {
            head.desks[3] = Desk { stage: 0, place: 65_535, turn: u32::MAX };
            head.desks[15] = Desk { stage: 0, place: 1, turn: 3 };
        });
        assert_eq!(said(run, Call::Check).number(), 0);
        plays(run, &[(look(3, 0), "SEEN 1"), (claim(3), "CLAIMED 1"), (claim(2), "LOST 0")]);
        assert_eq!(run.records().0.desks[15], Desk { stage: 0, place: 1, turn: 3 });
    });
}

/// A sound line but for rule 1, or sound: NB 2, NE 1, with these P, K and rounds, all read.
fn read_line(run: &mut Run, p: u32, k: u32, rounds: [u16; 2]) {
    run.write(|head, table, _| {
        (head.p, head.k, head.reading) = (p, k, 1);
        for (record, round) in table.iter_mut().zip(rounds) {
            *record = Block { round, written: 1, claimed: 0, finished: 0 };
        }
    });
}

#[test]
fn only_rule_1() {
    for (p, k, rounds, number) in [
        (131_071, 131_071, [65_535, 65_535], 0),
        (131_072, 131_072, [0, 65_535], 2),
        (131_073, 131_073, [0, 0], 2),
        (3, 3, [1, 1], 0),
        (3, 2, [1, 1], 0),
        (3, 1, [1, 1], 2),
        (3, 4, [1, 1], 2),
    ] {
        with_line(2, 1, 1, |run| {
            read_line(run, p, k, rounds);
            let (place, rule) = if number == 0 { (0, 0) } else { (64, 1) };
            assert_eq!(said(run, Call::Check), Said::Checked(Checked { number, place, rule }), "P {p} K {k}");
        });
    }
    // WORN before FULL.
    with_line(2, 1, 1, |run| {
        read_line(run, 131_071, 131_070, [65_535, 65_535]);
        plays(run, &[(put(1), "WORN 0"), (get(), "GOT 0"), (put(1), "WORN 0")]);
    });
}

#[test]
fn the_survey() {
    let findings = |mask, count, lowest| Said::Findings(Findings { mask, number: 0, count, lowest });
    with_line(4, 3, 4, |run| {
        assert_eq!(said(run, Call::Survey), findings(0, 0, 64));
        line_to_damage(run);
        // Turn 4 in block 0 has two labels left, turn 5 in block 1 one.
        assert_eq!(said(run, Call::Survey), findings(0b11, 2, 0));
        plays(run, &[(claim(2), "CLAIMED 1"), (fetch(2), "TOOK 14"), (fetch(2), "STAGE 0"), (look(3, 0), "SEEN 2")]);
        plays(run, &[(claim(3), "CLAIMED 2"), (fetch(3), "TOOK 15")]);
        assert_eq!(said(run, Call::Survey), findings(0b10, 1, 1));
    });
    with_line(64, 1, 1, |run| {
        plays(run, &[(order(1, 64), "WHOLE 64")]);
        assert_eq!(said(run, Call::Survey), findings(u64::MAX - 1, 63, 1));
    });
}

fn full(claimed: u16) -> Block {
    Block { round: 0, written: 3, claimed, finished: claimed }
}

fn breaks(run: &mut Run, what: &str, damage: Damage, place: u32, rule: u32) {
    assert_eq!(said(run, Call::Check).number(), 0, "{what}: before it");
    run.write(|head, table, _| damage(head, table));
    let unchanged = |run: &mut Run, call| run.call_unchanged(call).unwrap_or_else(|wrong| panic!("{what}: {wrong}"));
    assert_eq!(unchanged(run, Call::Check), Said::Checked(Checked { number: 2, place, rule }), "{what}");
    for call in
        [Call::Survey, Call::Order(1, 2), Call::Step(1, 0, 0), Call::Step(0, 1_000_000, 0), Call::Step(99, 0, 0)]
    {
        assert_eq!(unchanged(run, call).number(), 2, "{what}: {call}");
    }
}
