//! What a step costs: `lbq_step` of the proved library beside plain Rust that does the same steps in place, on the same
//! million steps. The twin checks the line as the library does and walks all desks for each block; the model counts the
//! desks in one walk, and so does less.
//!
//! A line is opened and an order fills three quarters of it. Then come cycles of sixteen steps: the owner puts five
//! labels and gets three, and two desks make a round each of look, claim, fetch and finish, with gets between look
//! and claim. Desks and blocks go round.
//!
//! All are called in the same way, and all have to give the same answers and leave the same memory. They take turns
//! every ten thousand steps, so that whatever else the machine does falls on all; of each such piece the least time
//! of several rounds counts. The measure itself leans to the library a little: with the model's own code in the
//! library's place the ratio came out as 0.95 to 0.96 at 8 blocks and 0.96 to 0.99 at 64, so differences below that
//! say nothing.

mod twin;

use lbq::raw::{lbq_step, Answer};
use lbq::{Block, Head};
use model::check::fits;
use model::line;
use model::records::refusal;
use std::process::ExitCode;
use std::time::{Duration, Instant};

const STEPS: usize = 1_000_000;
const PIECE: usize = 10_000;
const ROUNDS: usize = 9;
const SIZES: [(u32, u32, u32); 2] = [(8, 64, 16), (64, 64, 16)];

type Step = (u32, u32, u32);
type Call = unsafe extern "C" fn(*mut Head, *mut Block, usize, *mut u32, usize, u32, u32, u32) -> Answer;

fn main() -> ExitCode {
    for (nb, ne, t) in SIZES {
        let (schedule, refused) = schedule(nb, ne, t);
        let [library, twin, model] =
            least_times(nb, ne, t, &schedule).map(|time| time.as_nanos() as f64 / STEPS as f64);
        let (ratio, more) = (library / twin, library / model);
        println!("{nb} x {ne} x {t}: library {library:.1} ns a step, twin {twin:.1}, ratio {ratio:.2}");
        println!("    model {model:.1}, ratio {more:.2}; {refused} of {STEPS} steps refused");
    }
    ExitCode::SUCCESS
}

/// Plain Rust, called as the library is.
macro_rules! called {
    ($name:ident, $step:expr) => {
        #[inline(never)]
        unsafe extern "C" fn $name(
            head: *mut Head,
            table: *mut Block,
            records: usize,
            entries: *mut u32,
            labels: usize,
            code: u32,
            a: u32,
            b: u32,
        ) -> Answer {
            // SAFETY: the caller lends three parts that are valid and apart; the model's records are laid out as the
            // library's.
            let (head, table, entries) = unsafe {
                let table = std::slice::from_raw_parts_mut(table.cast(), records);
                (&mut *head.cast(), table, std::slice::from_raw_parts_mut(entries, labels))
            };
            let model::records::Answer { number, value } = $step(head, table, entries, code, a, b);
            Answer { number, value }
        }
    };
}

called!(model_step, line::step);
called!(twin_step, twin_of);

#[inline]
fn twin_of(
    head: &mut model::records::Head,
    table: &mut [model::records::Block],
    entries: &mut [u32],
    code: u32,
    a: u32,
    b: u32,
) -> model::records::Answer {
    if !fits(head, table.len(), entries.len()) {
        return model::records::Answer::refused(refusal::UNFIT);
    }
    if !twin::sound(head, table) {
        return model::records::Answer::refused(refusal::DAMAGED);
    }
    line::step_sound(head, table, entries, code, a, b)
}

/// A line in cleared memory.
#[derive(Clone, PartialEq)]
struct Line {
    head: Head,
    table: Vec<Block>,
    entries: Vec<u32>,
}

impl Line {
    /// Opened, and three quarters filled.
    fn filled(nb: u32, ne: u32, t: u32) -> Self {
        let sizes = lbq::Sizes { blocks: nb, entries: ne, desks: t };
        let mut line = lbq::Line::open(sizes).expect("the sizes are fit");
        line.order(1, nb * ne * 3 / 4).expect("there is room");
        let (head, table, entries) = line.into_parts();
        Self { head, table, entries }
    }

    fn step(&mut self, call: Call, (code, a, b): Step) -> Answer {
        let (records, labels) = (self.table.len(), self.entries.len());
        // SAFETY: the three parts are this line's own, apart, and as long as is said.
        unsafe { call(&mut self.head, self.table.as_mut_ptr(), records, self.entries.as_mut_ptr(), labels, code, a, b) }
    }

    /// Does these steps. Gives the time and all answers folded into one number.
    fn timed(&mut self, call: Call, steps: &[Step]) -> (Duration, u64) {
        let start = Instant::now();
        let mut answers = 0_u64;
        for &step in steps {
            let Answer { number, value } = self.step(call, step);
            answers = answers.wrapping_mul(31).wrapping_add(u64::from(number) << 32 | u64::from(value));
        }
        (start.elapsed(), answers)
    }

    /// The next block after this one, going round, that an idle desk can take from.
    fn next_block(&self, block: u32) -> u32 {
        let line = lbq::Line::over(self.head, self.table.clone(), self.entries.clone());
        let mask = line.survey().map_or(0, |survey| survey.mask);
        let nb = u32::from(self.head.nb);
        (1..=nb).map(|on| (block + on) % nb).find(|at| mask >> at & 1 == 1).unwrap_or(block)
    }
}

/// The steps, chosen as the model answers, and how many of them are refused.
fn schedule(nb: u32, ne: u32, t: u32) -> (Vec<Step>, usize) {
    let mut line = Line::filled(nb, ne, t);
    let (mut steps, mut refused) = (Vec::with_capacity(STEPS), 0);
    let (mut desk, mut block, mut label) = (0, 0, 0);
    while steps.len() < STEPS {
        let (one, two) = (desk, (desk + 1) % t);
        desk = (desk + 2) % t;
        let first = line.next_block(block);
        let second = line.next_block(first);
        block = second;
        let mut put = || {
            label = (label + 1) % 1_000_000;
            (0, label, 0)
        };
        let get = (1, 0, 0);
        let cycle = [
            put(),
            (64 + one, first, 0),
            get,
            (16 + one, 0, 0),
            put(),
            (32 + one, 0, 0),
            (64 + two, second, 0),
            put(),
            get,
            (16 + two, 0, 0),
            (48 + one, 0, 0),
            put(),
            (32 + two, 0, 0),
            get,
            (48 + two, 0, 0),
            put(),
        ];
        for step in cycle {
            refused += usize::from(line.step(model_step, step).number != 0);
            steps.push(step);
        }
    }
    (steps, refused)
}

/// The least time of library, twin and model over the whole schedule, piece by piece.
fn least_times(nb: u32, ne: u32, t: u32, schedule: &[Step]) -> [Duration; 3] {
    let calls: [Call; 3] = [lbq_step, twin_step, model_step];
    let mut least = vec![[Duration::MAX; 3]; schedule.len().div_ceil(PIECE)];
    for round in 0..ROUNDS {
        let mut lines = [0, 1, 2].map(|_| Line::filled(nb, ne, t));
        for (steps, least) in schedule.chunks(PIECE).zip(&mut least) {
            let mut answers = [0; 3];
            for turn in 0..3 {
                let who = (round + turn) % 3;
                let (time, folded) = lines[who].timed(calls[who], steps);
                least[who] = least[who].min(time);
                answers[who] = folded;
            }
            assert!(answers.iter().all(|&folded| folded == answers[0]), "all answer alike");
        }
        assert!(lines.iter().all(|line| line == &lines[0]), "all leave the same memory");
    }
    [0, 1, 2].map(|who| least.iter().map(|least| least[who]).sum())
}
