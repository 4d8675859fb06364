//! `soak STEPS [SEED]`: compares library and model for so many steps, run after run. Progress goes to standard error.
//! Where they differ it prints the difference and the seed from which it comes again at once, and exits with 1.

use compare::{next_seed, play, Tally};
use std::env;
use std::process::ExitCode;
use std::time::{Duration, Instant, SystemTime, UNIX_EPOCH};

fn main() -> ExitCode {
    let numbers: Option<Vec<u64>> = env::args().skip(1).map(|word| word.replace('_', "").parse().ok()).collect();
    let (steps, seed) = match numbers.as_deref() {
        Some(&[steps]) => (steps, from_the_clock()),
        Some(&[steps, seed]) => (steps, seed),
        _ => {
            eprintln!("usage: soak STEPS [SEED]");
            return ExitCode::from(2);
        }
    };
    let (start, mut shown) = (Instant::now(), Instant::now());
    let (mut tally, mut seed, mut runs) = (Tally::default(), seed, 0_u64);
    eprintln!("seed {seed}");
    while tally.steps < steps {
        let before = tally.steps;
        let played = std::panic::catch_unwind(std::panic::AssertUnwindSafe(|| play(seed, &mut tally)));
        match played {
            Ok(Ok(())) => {}
            Ok(Err(difference)) => {
                println!("{difference}");
                return ExitCode::FAILURE;
            }
            Err(_) => {
                println!("a panic: seed {seed}, step {}\nagain: make soak SEED={seed}", tally.steps - before + 1);
                return ExitCode::FAILURE;
            }
        }
        (seed, runs) = (next_seed(seed), runs + 1);
        if shown.elapsed() > Duration::from_secs(1) {
            shown = Instant::now();
            let seconds = start.elapsed().as_secs();
            eprintln!("{seconds} s: {} of {steps} steps in {runs} runs, no difference; next seed {seed}", tally.steps);
        }
    }
    print!("{tally}");
    println!("{} steps in {runs} runs, no difference", tally.steps);
    ExitCode::SUCCESS
}

fn from_the_clock() -> u64 {
    let since = SystemTime::now().duration_since(UNIX_EPOCH).unwrap_or_default();
    next_seed(since.as_nanos() as u64)
}
