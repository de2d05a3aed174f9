//! Which inputs a round runs.

use crate::generator::logs;
use crate::programs::{Name, NAMES};
use crate::random;

/// An input, as `second gen` makes it.
#[derive(Clone, Copy)]
pub struct Draw {
    pub name: Name,
    pub seed: u64,
    pub size: usize,
}

/// The size of one input of each kind: 20 rounds give more than 200,000 events and 2,000,000 samples.
/// The first round's are long: several times what a program reads or writes at once (4,096 and
/// 65,536 bytes), and no multiple of it, so that nothing may be lost where one block follows another.
fn size(name: Name, round: u64) -> usize {
    match (name, round) {
        (Name::List | Name::Real, 1) => 70_001,
        (Name::Decode, 1) => 500_003,
        (Name::Encode, 1) => 20_003,
        (Name::Replay, 1) => 20_003,
        (Name::List | Name::Real, _) => 5_000,
        (Name::Decode, _) => 100_000,
        (Name::Encode, _) => 100,
        (Name::Replay, _) => 10_000,
        (Name::Still, _) => unreachable!("the logs have their own sizes"),
    }
}

/// One input for each program that is compared, and many small ones for still, which reads one log at a time.
pub fn round(seed: u64, round: u64) -> Vec<Draw> {
    let mut all = Vec::new();
    for (place, name) in NAMES.into_iter().enumerate() {
        if !name.is_compared() {
            continue;
        }
        let seed = random::derive(seed, round, place as u64);
        let draws = match name {
            Name::Still => logs::of_round(seed, round),
            _ => vec![(seed, size(name, round))],
        };
        all.extend(
            draws
                .into_iter()
                .map(|(seed, size)| Draw { name, seed, size }),
        );
    }
    all
}
