//! Plays a schedule from standard input over a line in Rust's own memory, and prints what the proved player prints.

use lbq::{Line, Schedule};
use std::io::{self, Read, Write};

fn main() -> io::Result<()> {
    let mut bytes = Vec::new();
    io::stdin().take(Schedule::MOST_BYTES as u64 + 1).read_to_end(&mut bytes)?;
    let mut out = io::BufWriter::new(io::stdout().lock());
    let schedule = match Schedule::parse(&bytes) {
        Ok(schedule) => schedule,
        Err(wrong) => return writeln!(out, "0 {} 0", wrong.word()),
    };
    let mut line = match Line::open(schedule.sizes) {
        Ok(line) => line,
        Err(refusal) => return writeln!(out, "0 {} 0", refusal.word()),
    };
    for (number, step) in (1..).zip(schedule) {
        match step {
            Ok(step) => writeln!(out, "{number} {}", line.step(step))?,
            Err(cut) => writeln!(out, "{number} {} 0", cut.word())?,
        }
    }
    out.flush()
}
