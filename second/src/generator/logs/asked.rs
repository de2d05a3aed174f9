//! Ids to ask for, by their kind.

use crate::random::Random;
use crate::values::{self, Kind};

/// Every id of a kind. Raw are those that aren't listed, 128 to 255 among them.
pub fn ids(kind: Kind) -> Vec<u8> {
    (0..=255)
        .filter(|id| values::kind_of(*id) == kind)
        .collect()
}

pub fn unlisted_below_128() -> Vec<u8> {
    let mut unlisted = ids(Kind::Raw);
    unlisted.retain(|id| *id < 128);
    unlisted
}

/// Each kind as often as the others, and the ids at the table's ends.
pub fn any(random: &mut Random) -> u8 {
    let kind = random.pick(&[
        Kind::Real,
        Kind::S16,
        Kind::U16,
        Kind::Pair,
        Kind::SPair,
        Kind::Raw,
    ]);
    match random.percent(20) {
        true => random.pick(&[0, 127, 128, 255]),
        false => random.pick(&ids(kind)),
    }
}
