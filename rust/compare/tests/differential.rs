//! A fixed stretch of runs through library, model and book, which has to meet every answer and every rule.

use compare::{next_seed, play, Tally};

/// Fewer where the model is not optimised.
const STEPS: u64 = if cfg!(debug_assertions) { 300_000 } else { 1_500_000 };

#[test]
fn library_model_and_book_agree() {
    let mut tally = Tally::default();
    let mut seed = 1;
    while tally.steps < STEPS {
        println!("seed {seed}");
        if let Err(difference) = play(seed, &mut tally) {
            panic!("{difference}");
        }
        seed = next_seed(seed);
    }
    assert_eq!(tally.missing(), [""; 0], "{tally}");
}
