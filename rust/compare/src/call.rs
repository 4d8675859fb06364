//! The calls, made on the library and on the model.

use crate::memory::Memory;
use lbq::{Answer as Word, Fault, Refusal, Sizes, Step, Stopped};
use model::line;
use model::records::{Answer, Checked, Findings};
use model::words::word;
use std::fmt;

/// One call.
#[derive(Clone, Copy, Debug, PartialEq, Eq)]
pub enum Call {
    /// Opening, with sizes.
    Open(u32, u32, u32),
    /// A step: code, A and B.
    Step(u32, u32, u32),
    /// An order, by its own call.
    Order(u32, u32),
    /// The check.
    Check,
    /// The survey.
    Survey,
}

/// What was answered.
#[derive(Clone, Copy, Debug, PartialEq, Eq)]
pub enum Said {
    /// To opening, a step or an order.
    Answer(Answer),
    /// To the check.
    Checked(Checked),
    /// To the survey.
    Findings(Findings),
}

impl Said {
    /// 0, or the refusal's number.
    #[must_use]
    pub const fn number(self) -> u32 {
        match self {
            Self::Answer(Answer { number, .. })
            | Self::Checked(Checked { number, .. })
            | Self::Findings(Findings { number, .. }) => number,
        }
    }
}

impl fmt::Display for Said {
    fn fmt(&self, f: &mut fmt::Formatter<'_>) -> fmt::Result {
        match self {
            Self::Answer(Answer { number, value }) => write!(f, "number {number} value {value}"),
            Self::Checked(Checked { number, place, rule }) => write!(f, "number {number} place {place} rule {rule}"),
            Self::Findings(Findings { mask, number, count, lowest }) => {
                write!(f, "number {number} mask {mask:#x} count {count} lowest {lowest}")
            }
        }
    }
}

impl fmt::Display for Call {
    fn fmt(&self, f: &mut fmt::Formatter<'_>) -> fmt::Result {
        match *self {
            Self::Open(nb, ne, t) => write!(f, "open NB {nb} NE {ne} T {t}"),
            Self::Step(0, a, _) => write!(f, "put {a}"),
            Self::Step(1, ..) => f.write_str("get"),
            Self::Step(2, a, b) => write!(f, "step 2, order {a} to {b}"),
            Self::Step(code @ 16..=31, ..) => write!(f, "claim desk {}", code - 16),
            Self::Step(code @ 32..=47, ..) => write!(f, "fetch desk {}", code - 32),
            Self::Step(code @ 48..=63, ..) => write!(f, "finish desk {}", code - 48),
            Self::Step(code @ 64..=79, a, _) => write!(f, "look desk {} block {a}", code - 64),
            Self::Step(code, a, b) => write!(f, "step {code} {a} {b}"),
            Self::Order(first, last) => write!(f, "order {first} to {last}"),
            Self::Check => f.write_str("check"),
            Self::Survey => f.write_str("survey"),
        }
    }
}

/// By which door the library is asked.
#[derive(Clone, Copy, Debug, PartialEq, Eq)]
pub enum Way {
    /// The C calls.
    Raw,
    /// The Rust crate, a step by [`lbq::Line::step`].
    Step,
    /// The Rust crate, a step by the method of its name.
    Method,
}

impl Call {
    /// The library's answer.
    pub fn of_library(self, memory: &mut Memory, way: Way) -> Said {
        match way {
            Way::Raw => self.raw(memory),
            Way::Step => self.safe(memory, |line, step| numbers(step, line.step(step))),
            Way::Method => self.safe(memory, by_method),
        }
    }

    fn raw(self, memory: &mut Memory) -> Said {
        let (head, table, records, entries, labels) = memory.lend();
        let answer = |lbq::raw::Answer { number, value }| Said::Answer(Answer { number, value });
        // SAFETY: the memory lends three parts that are valid, aligned and apart, with their lengths.
        unsafe {
            match self {
                Self::Open(nb, ne, t) => answer(lbq::raw::lbq_open(head, table, records, entries, labels, nb, ne, t)),
                Self::Step(code, a, b) => answer(lbq::raw::lbq_step(head, table, records, entries, labels, code, a, b)),
                Self::Order(first, last) => {
                    answer(lbq::raw::lbq_order(head, table, records, entries, labels, first, last))
                }
                Self::Check => {
                    let lbq::raw::Checked { number, place, rule } =
                        lbq::raw::lbq_check(head, table, records, entries, labels);
                    Said::Checked(Checked { number, place, rule })
                }
                Self::Survey => {
                    let lbq::raw::Findings { mask, number, count, lowest } =
                        lbq::raw::lbq_survey(head, table, records, entries, labels);
                    Said::Findings(Findings { mask, number, count, lowest })
                }
            }
        }
    }

    /// Through the Rust crate. A code above 255 is no byte, and goes by the C call.
    fn safe(self, memory: &mut Memory, stepped: impl Fn(&mut lbq::LineMut<'_>, Step) -> Answer) -> Said {
        let mut line = memory.lent();
        match self {
            Self::Open(blocks, entries, desks) => {
                let opened = line.reopen(Sizes { blocks, entries, desks });
                Said::Answer(Answer { number: opened.err().map_or(0, Refusal::number), value: 0 })
            }
            Self::Step(code, a, b) => match u8::try_from(code) {
                Ok(code) => Said::Answer(stepped(&mut line, Step { code, a, b })),
                Err(_) => self.raw(memory),
            },
            Self::Order(first, last) => Said::Answer(match line.order(first, last) {
                Ok(placed) => Answer::taken(placed),
                Err(Stopped { refusal, placed }) => Answer { number: refusal.number(), value: placed },
            }),
            Self::Check => Said::Checked(match line.check() {
                Ok(()) => Checked { number: 0, place: 0, rule: 0 },
                Err(Fault::Unfit) => Checked { number: 1, place: 0, rule: 0 },
                Err(Fault::Damaged { place, rule }) => {
                    Checked { number: 2, place: place.number(), rule: rule.number() }
                }
            }),
            Self::Survey => Said::Findings(match line.survey() {
                Ok(lbq::Survey { mask, count, lowest }) => {
                    Findings { mask, number: 0, count, lowest: lowest.unwrap_or(64) }
                }
                Err(refusal) => Findings { mask: 0, number: refusal.number(), count: 0, lowest: 64 },
            }),
        }
    }

    /// The model's answer.
    pub fn of_model(self, memory: &mut Memory) -> Said {
        let (head, table, entries) = memory.parts();
        match self {
            Self::Open(nb, ne, t) => Said::Answer(line::open(head, table, entries, nb, ne, t)),
            Self::Step(code, a, b) => Said::Answer(line::step(head, table, entries, code, a, b)),
            Self::Order(first, last) => Said::Answer(line::order(head, table, entries, first, last)),
            Self::Check => Said::Checked(line::check(head, table, entries.len())),
            Self::Survey => Said::Findings(line::survey(head, table, entries.len())),
        }
    }
}

/// The crate's answer as numbers. Its word and what it prints have to be the paper's.
fn numbers(step: Step, answer: Word) -> Answer {
    let (number, value) = (answer.number(), answer.value());
    let expected = word(step.code.into(), number);
    assert_eq!(answer.word(), expected);
    assert_eq!(answer.to_string(), format!("{expected} {value}"));
    Answer { number, value }
}

fn by_method(line: &mut lbq::LineMut<'_>, step: Step) -> Answer {
    let Step { code, a, .. } = step;
    let desk = u32::from(code & 15);
    let answer = match code {
        0 => line.put(a).map(|()| a),
        1 => line.get(),
        16..=31 => line.claim(desk),
        32..=47 => line.fetch(desk),
        48..=63 => line.finish(desk).map(|()| 0),
        64..=79 => line.look(desk, a),
        _ => return numbers(step, line.step(step)),
    };
    match answer {
        Ok(value) => Answer::taken(value),
        Err(refusal) => Answer::refused(refusal.number()),
    }
}
