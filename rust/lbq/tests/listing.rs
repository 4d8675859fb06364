//! The paper's listing and the edges of a schedule, through the Rust crate.

use lbq::{
    Answer, Cut, Fault, Line, LineMut, Place, Refusal, Rule, Schedule, ScheduleError, Sizes, Stage, Step, Stopped,
};
use std::fmt::Write;

const LISTING: &str = include_str!("../../../schedules/listing.out");

fn sizes(blocks: u32, entries: u32, desks: u32) -> Sizes {
    Sizes { blocks, entries, desks }
}

fn listing() -> Vec<u8> {
    let steps = [
        Some(Step::order(1, 5)),
        Step::look(0, 1),
        Step::look(1, 1),
        Step::claim(0),
        Step::claim(1),
        Some(Step::get()),
        Some(Step::get()),
        Some(Step::get()),
        Some(Step::put(5)),
        Some(Step::put(6)),
        Some(Step::put(7)),
        Some(Step::get()),
        Some(Step::put(7)),
        Step::fetch(0),
        Step::finish(0),
        Some(Step::put(7)),
        Some(Step::get()),
        Some(Step::get()),
        Some(Step::get()),
        Step::look(1, 0),
    ];
    let mut bytes = b"LBQ\x00\x01\x02\x02\x02".to_vec();
    for step in steps {
        bytes.extend(step.expect("a desk below 16").to_bytes());
    }
    bytes
}

fn played(bytes: &[u8]) -> String {
    let schedule = Schedule::parse(bytes).expect("a right header");
    let mut line = Line::open(schedule.sizes).expect("fit sizes");
    let mut out = String::new();
    for (number, step) in (1..).zip(schedule) {
        match step {
            Ok(step) => writeln!(out, "{number} {}", line.step(step)),
            Err(cut) => writeln!(out, "{number} {} 0", cut.word()),
        }
        .expect("a string grows");
    }
    out
}

#[test]
fn the_listing() {
    let mut bytes = listing();
    assert_eq!(bytes, include_bytes!("../../../schedules/listing.lbq"));
    assert_eq!(played(&bytes), LISTING);
    bytes.push(1);
    assert_eq!(played(&bytes), format!("{LISTING}21 CUT 0\n"));
    assert_eq!(played(&bytes[..8]), "");
}

#[test]
fn the_edges_of_a_schedule() {
    let header = b"LBQ\x00\x01\x02\x02\x02";
    for short in 0..8 {
        assert_eq!(Schedule::parse(&header[..short]), Err(ScheduleError::Header));
    }
    for wrong in 0..5 {
        let mut bytes = header.to_vec();
        bytes[wrong] ^= 1;
        assert_eq!(Schedule::parse(&bytes), Err(ScheduleError::Header));
    }
    let mut longest = header.to_vec();
    longest.resize(Schedule::MOST_BYTES, 0);
    assert_eq!(Schedule::parse(&longest).expect("7,200 steps").steps().len(), 7_200);
    longest.push(0);
    assert_eq!(Schedule::parse(&longest), Err(ScheduleError::Long));
    assert_eq!(Schedule::parse(&vec![0; 70_000]), Err(ScheduleError::Long));
    for cut in 1..9 {
        let mut bytes = header.to_vec();
        bytes.resize(8 + cut, 0);
        let steps = Schedule::parse(&bytes).expect("a right header").steps();
        assert_eq!((steps.len(), steps.collect::<Vec<_>>()), (1, vec![Err(Cut)]));
    }
}

#[test]
fn bytes_of_a_step() {
    let step = Step { code: 200, a: 0x0102_0304, b: 0xfffe_fdfc };
    assert_eq!(step.to_bytes(), [200, 1, 2, 3, 4, 0xff, 0xfe, 0xfd, 0xfc]);
    assert_eq!(Step::from_bytes(step.to_bytes()), step);
}

#[test]
fn sizes_outside_the_limits_are_an_error() {
    let (least, most) = (Sizes::LEAST, Sizes::MOST);
    for unfit in [
        Sizes { blocks: least.blocks - 1, ..least },
        Sizes { entries: least.entries - 1, ..least },
        Sizes { desks: least.desks - 1, ..least },
        Sizes { blocks: most.blocks + 1, ..most },
        Sizes { entries: most.entries + 1, ..most },
        Sizes { desks: most.desks + 1, ..most },
        sizes(u32::MAX, u32::MAX, u32::MAX),
    ] {
        assert_eq!(Line::open(unfit).map(|_| ()), Err(Refusal::Unfit), "{unfit:?}");
    }
    assert!(Line::open(least).is_ok() && Line::open(most).is_ok());
}

#[test]
fn numbers_that_no_code_names() -> Result<(), Refusal> {
    let mut line = Line::open(sizes(2, 2, 16))?;
    for desk in [16, 17, 255, 256, u32::MAX] {
        assert_eq!(line.look(desk, 1), Err(Refusal::NoDesk));
        assert_eq!(line.claim(desk), Err(Refusal::NoDesk));
        assert_eq!(line.fetch(desk), Err(Refusal::NoDesk));
        assert_eq!(line.finish(desk), Err(Refusal::NoDesk));
        assert_eq!(Step::claim(desk), None);
    }
    assert_eq!(line.look(15, 2), Err(Refusal::NoBlock));
    assert_eq!(line.step(Step { code: 80, a: 0, b: 0 }), Answer::Refused(Refusal::BadStep, 0));
    // UNFIT and DAMAGED come before NODESK.
    let (mut head, mut table, mut entries) = line.into_parts();
    assert_eq!(LineMut::over(&mut head, &mut table, &mut entries[1..]).claim(16), Err(Refusal::Unfit));
    head.k = 1;
    assert_eq!(LineMut::over(&mut head, &mut table, &mut entries).claim(16), Err(Refusal::Damaged));
    Ok(())
}

#[test]
fn answers_in_the_papers_words() -> Result<(), Box<dyn std::error::Error>> {
    let mut line = Line::open(sizes(2, 2, 2))?;
    let stopped = line.order(1, 5).unwrap_err();
    assert_eq!(stopped, Stopped { refusal: Refusal::Full, placed: 4 });
    assert_eq!(stopped.to_string(), "FULL: the owner has not left the block to start; labels placed before: 4");
    assert_eq!(line.step(Step::order(1, 0)).to_string(), "RANGE 0");
    assert_eq!(line.survey()?.lowest, Some(1));
    assert_eq!((line.survey()?.mask, line.survey()?.count), (2, 1));
    let (mut head, mut table, mut entries) = line.into_parts();
    table[1].claimed = 1;
    let line = Line::over(&mut head, &mut table[..], &mut entries[..]);
    assert_eq!(line.check(), Err(Fault::Damaged { place: Place::Block(1), rule: Rule::Finished }));
    assert_eq!(line.check().unwrap_err().to_string(), "DAMAGED: block 1 breaks rule 7, of finished");
    assert_eq!(line.survey(), Err(Refusal::Damaged));
    assert_eq!(Line::over(head, [], []).check(), Err(Fault::Unfit));
    Ok(())
}

#[test]
fn errors_say_what_is_wrong() {
    for &refusal in Refusal::ALL {
        let (word, sentence) = (refusal.word(), refusal.to_string());
        assert!(sentence.strip_prefix(word).is_some_and(|rest| rest.starts_with(": ")), "{sentence}");
        assert_eq!(Refusal::from_number(refusal.number()), Some(refusal));
    }
    for number in [0, 22, 255, 256, u32::MAX] {
        assert_eq!(Refusal::from_number(number), None);
    }
    assert_eq!(Fault::Unfit.to_string(), Refusal::Unfit.to_string());
    assert_eq!(ScheduleError::Long.to_string(), "LONG: a schedule has at most 64,808 bytes");
    assert_eq!(Cut.to_string(), "CUT: the last step has fewer than nine bytes");
}

#[test]
fn the_stages_of_a_desk() -> Result<(), Box<dyn std::error::Error>> {
    let mut line = Line::open(sizes(2, 2, 2))?;
    line.order(1, 4)?;
    assert_eq!(line.stage(0), Some(Stage::Idle));
    line.look(0, 1)?;
    assert_eq!(line.stage(0), Some(Stage::Looked));
    line.claim(0)?;
    assert_eq!(line.stage(0), Some(Stage::Claimed));
    assert_eq!(line.claim(0), Err(Refusal::Stage));
    line.fetch(0)?;
    assert_eq!((line.stage(0), line.stage(1)), (Some(Stage::Fetched), Some(Stage::Idle)));
    line.finish(0)?;
    assert_eq!((line.stage(0), line.stage(16), line.stage(u32::MAX)), (Some(Stage::Idle), None, None));
    let (mut head, table, entries) = line.into_parts();
    head.desks[1].stage = 4;
    let line = Line::over(head, table, entries);
    assert_eq!(line.stage(1), None);
    assert_eq!(line.check(), Err(Fault::Damaged { place: Place::Head, rule: Rule::Desks }));
    Ok(())
}
