//! The proved library held against the model.
//!
//! A run starts from a seed. It draws a [`RunKind`], makes a memory with guard bytes around the three lent parts, and then
//! makes calls. Each call is made twice, on the library's memory and on the model's, and then the answers are compared
//! and the whole memories, guard bytes and all. In a run from opening the book answers too, and the memory is compared
//! with the one that the book tells.

mod call;
mod difference;
mod memory;
mod random;
mod run;
mod run_kind;
mod tally;

pub use call::{Call, Said, Way};
pub use difference::Difference;
pub use memory::Memory;
pub use random::Random;
pub use run::Run;
pub use run_kind::RunKind;
pub use tally::Tally;

/// Plays one run and adds what was met to the tally. The seed after this one is [`next_seed`].
///
/// # Errors
///
/// The first difference.
pub fn play(seed: u64, tally: &mut Tally) -> Result<(), Box<Difference>> {
    let mut random = Random::new(seed);
    let kind = run_kind::drawn(&mut random);
    tally.run(kind);
    run_kind::play(kind, seed, random, tally)
}

/// The seed of the run after the one of this seed.
#[must_use]
pub fn next_seed(seed: u64) -> u64 {
    Random::new(seed ^ 0x5851_f42d_4c95_7f2d).next()
}
