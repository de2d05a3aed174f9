//! Random input for each of the six programs: valid, damaged and borderline mixed.

mod frames;
pub mod fresh_lines;
pub mod logs;
mod messages;
pub mod numbers;
mod pulses;
mod script;
mod splice;
mod strange_lines;

use crate::programs::{Input, Name};
use crate::random::Random;

/// `size` counts words (list, encode, real), samples (decode), script lines (replay) or readings (still).
pub fn generate(name: Name, seed: u64, size: usize) -> Input {
    let mut random = Random::new(seed);
    let bytes = match name {
        Name::List => frames::words(&mut random, size),
        Name::Decode => pulses::samples(&mut random, size),
        Name::Encode => frames::any_words(&mut random, size),
        Name::Real => frames::reals(&mut random, size),
        Name::Replay => script::script(random, size),
        Name::Still => return logs::input(seed, size),
    };
    bytes.into()
}
