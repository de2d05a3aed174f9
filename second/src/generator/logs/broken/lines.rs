//! The first section: "a count byte and that many line numbers, 1 to 4, each above the last".

use super::whole;
use crate::programs::Input;
use crate::random::Random;

/// The lines stay, and something else is said to be their count.
pub fn count(random: &mut Random, size: usize, other: fn(u8) -> u8) -> Input {
    let draft = whole(random, size);
    let mut log = draft.log();
    log[0] = other(log[0]);
    draft.asking(random, log)
}

/// One more before the others, which no reading has.
pub fn below(random: &mut Random, size: usize, line: u8) -> Input {
    let mut draft = whole(random, size);
    draft.lines.insert(0, line);
    draft.input(random)
}

pub fn above(random: &mut Random, size: usize, line: u8) -> Input {
    let mut draft = whole(random, size);
    draft.lines.push(line);
    draft.input(random)
}

pub fn twice(random: &mut Random, size: usize) -> Input {
    let mut draft = whole(random, size);
    let place = random.below(draft.lines.len() as u64) as usize;
    draft.lines.insert(place, draft.lines[place]);
    draft.input(random)
}

/// Two neighbours change places.
pub fn falling(random: &mut Random, size: usize) -> Input {
    let mut draft = whole(random, size);
    let place = random.below(draft.lines.len() as u64 - 1) as usize;
    draft.lines.swap(place, place + 1);
    draft.input(random)
}
