//! The stored schedules, from their bytes, played on library, model and book: the lines are the stored ones.

use compare::{Call, Memory, Random, Run, RunKind, Tally};
use lbq::{Schedule, Sizes};
use model::words::word;
use std::fmt::Write;
use std::fs;
use std::path::Path;

fn played(bytes: &[u8]) -> String {
    let schedule = Schedule::parse(bytes).expect("a right header");
    let Sizes { blocks, entries, desks } = schedule.sizes;
    let memory = Memory::new(&mut Random::new(9), blocks as usize, (blocks * entries) as usize);
    let mut tally = Tally::default();
    let mut run = Run::new(9, RunKind::Legal, memory, &mut tally);
    run.call(Call::Open(blocks, entries, desks)).unwrap_or_else(|difference| panic!("{difference}"));
    let mut lines = String::new();
    for (number, step) in (1..).zip(schedule) {
        let step = step.expect("whole steps");
        let code = step.code.into();
        let answer = run.step(code, step.a, step.b).unwrap_or_else(|difference| panic!("{difference}"));
        writeln!(lines, "{number} {} {}", word(code, answer.number), answer.value).expect("a string grows");
    }
    lines
}

#[test]
fn every_stored_schedule() {
    let folder = Path::new(env!("CARGO_MANIFEST_DIR")).join("../../schedules");
    let mut names = Vec::new();
    for file in fs::read_dir(&folder).expect("schedules/ is there") {
        let path = file.expect("a file of schedules/").path();
        if path.extension().is_some_and(|extension| extension == "lbq") {
            let bytes = fs::read(&path).expect("its bytes");
            let lines = fs::read_to_string(path.with_extension("out")).expect("its lines");
            assert_eq!(played(&bytes), lines, "{}", path.display());
            names.extend(path.file_stem().map(|name| name.to_string_lossy().into_owned()));
        }
    }
    assert!(names.iter().any(|name| name == "listing"), "the listing is one of {names:?}");
}
