//! The crate's numbers and words are those of the proved definitions, as `examples/definitions` reads them out, and
//! those of the header.

use lbq::{Refusal, Sizes, Stage, Step, LAST_LABEL, LAST_ROUND, VERSION};
use std::collections::BTreeMap;
use std::path::Path;
use std::process::Command;

type Numbers = BTreeMap<String, u32>;

/// The crate's, by the header's names.
fn of_the_crate() -> Numbers {
    let (least, most) = (Sizes::LEAST, Sizes::MOST);
    let mut numbers: Numbers = [
        ("VERSION", VERSION),
        ("TAKEN", 0),
        ("LEAST_NB", least.blocks),
        ("MOST_NB", most.blocks),
        ("LEAST_NE", least.entries),
        ("MOST_NE", most.entries),
        ("LEAST_T", least.desks),
        ("MOST_T", most.desks),
        ("LAST_LABEL", LAST_LABEL),
        ("LAST_ROUND", LAST_ROUND.into()),
        ("PUT", Step::PUT.into()),
        ("GET", Step::GET.into()),
        ("ORDER", Step::ORDER.into()),
        ("CLAIM", Step::CLAIM.into()),
        ("FETCH", Step::FETCH.into()),
        ("FINISH", Step::FINISH.into()),
        ("LOOK", Step::LOOK.into()),
    ]
    .map(|(name, number)| (format!("LBQ_{name}"), number))
    .into();
    numbers.extend(Refusal::ALL.iter().map(|refusal| (format!("LBQ_{}", refusal.word()), refusal.number())));
    numbers.extend(Stage::ALL.iter().map(|stage| (format!("LBQ_{stage:?}").to_uppercase(), u32::from(stage.number()))));
    numbers
}

/// The lines of `examples/definitions`: a name and a number, or `word`, a number and a word.
fn definitions() -> Vec<Vec<String>> {
    let script = Path::new(env!("CARGO_MANIFEST_DIR")).join("../../examples/definitions");
    let said = Command::new("sh").arg(script).output().expect("sh runs");
    assert!(said.status.success(), "{}", String::from_utf8_lossy(&said.stderr));
    let text = String::from_utf8(said.stdout).expect("names and numbers");
    text.lines().map(|line| line.split(' ').map(str::to_owned).collect()).collect()
}

#[test]
fn the_definitions_numbers() {
    let defined: Numbers = definitions()
        .iter()
        .filter(|line| line[0] != "word")
        .map(|line| (line[0].clone(), line[1].parse().expect("a number")))
        .collect();
    assert_eq!(of_the_crate(), defined);
}

#[test]
fn the_headers_numbers() {
    let header = include_str!("../../../include/lbq.h").replace("#define LBQ_VERSION ", "LBQ_VERSION = ");
    let words: Vec<&str> = header.split([' ', ',', '\n']).filter(|word| !word.is_empty()).collect();
    let named = |three: &[&str]| match *three {
        [name, "=", number] if name.starts_with("LBQ_") => Some((name.to_owned(), number.parse().ok()?)),
        _ => None,
    };
    let numbers: Numbers = words.windows(3).filter_map(named).collect();
    assert_eq!(of_the_crate(), numbers);
}

#[test]
fn the_definitions_words() {
    let mut defined: Vec<(u32, String)> = definitions()
        .iter()
        .filter(|line| line[0] == "word")
        .map(|line| (line[1].parse().expect("a number"), line[2].clone()))
        .collect();
    let mut words: Vec<(u32, String)> =
        Refusal::ALL.iter().map(|refusal| (refusal.number(), refusal.word().to_owned())).collect();
    words.extend(taken().iter().map(|answer| (answer.number(), answer.word().to_owned())));
    defined.sort();
    words.sort();
    assert_eq!(words, defined);
}

/// Each answer of a step that is taken, as the library gives it.
fn taken() -> Vec<lbq::Answer> {
    let mut line = lbq::Line::open(Sizes { blocks: 2, entries: 2, desks: 1 }).expect("fit sizes");
    let steps = [
        Some(Step::put(1)),
        Some(Step::order(2, 4)),
        Step::look(0, 1),
        Step::claim(0),
        Step::fetch(0),
        Step::finish(0),
        Some(Step::get()),
    ];
    steps.map(|step| line.step(step.expect("desk 0 has codes"))).to_vec()
}

#[test]
fn the_librarys_version() {
    assert_eq!(lbq::library_version(), VERSION);
}
