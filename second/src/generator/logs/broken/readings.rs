//! The second section: "a two-byte count and that many readings .. ticks never falling, each line among
//! the first section".

use super::{reading_count_at, whole, Draft};
use crate::generator::logs::series;
use crate::programs::Input;
use crate::random::Random;

/// The readings stay, and something else is said to be their count.
pub fn count(random: &mut Random, size: usize, other: fn(u16) -> u16) -> Input {
    let draft = whole(random, size);
    let (mut log, at) = (draft.log(), reading_count_at(&draft));
    let counted = other(draft.readings.len() as u16);
    log[at..at + 2].copy_from_slice(&counted.to_be_bytes());
    draft.asking(random, log)
}

/// One tick before that of the reading before; the first tick is no 0.
fn fall(draft: &mut Draft, place: usize) {
    draft.readings[place].tick = draft.readings[place - 1].tick - 1;
}

/// The two readings are asked for or aren't.
pub fn falls_between(random: &mut Random, size: usize, before: bool, then: bool) -> Input {
    let mut draft = whole(random, size);
    let wanted =
        |place: &usize| draft.is_asked(*place - 1) == before && draft.is_asked(*place) == then;
    let places: Vec<usize> = (1..draft.readings.len()).filter(wanted).collect();
    fall(&mut draft, random.pick(&places));
    draft.input(random)
}

pub fn falls_at_the_second(random: &mut Random, size: usize) -> Input {
    let mut draft = whole(random, size);
    fall(&mut draft, 1);
    draft.input(random)
}

pub fn falls_at_the_last(random: &mut Random, size: usize) -> Input {
    let mut draft = whole(random, size);
    let last = draft.readings.len() - 1;
    fall(&mut draft, last);
    draft.input(random)
}

/// By one, so that the bytes below the border rise.
pub fn falls_below(random: &mut Random, size: usize, border: u32) -> Input {
    let mut draft = whole(random, size);
    let place = random.between(1, draft.readings.len() as u64 - 1) as usize;
    for (other, reading) in draft.readings.iter_mut().enumerate() {
        reading.tick = match other < place {
            true => reading.tick.min(border),
            false => reading.tick.max(border),
        };
    }
    draft.readings[place - 1].tick = border;
    fall(&mut draft, place);
    draft.input(random)
}

/// As a counter of 32 bits does when it begins again.
pub fn falls_to_0(random: &mut Random, size: usize) -> Input {
    let mut draft = whole(random, size);
    if let [.., before, last] = &mut draft.readings[..] {
        (before.tick, last.tick) = (u32::MAX, 0);
    }
    draft.input(random)
}

/// The line of any reading.
pub fn line(random: &mut Random, size: usize, line: u8) -> Input {
    let mut draft = whole(random, size);
    let place = random.below(draft.readings.len() as u64) as usize;
    draft.readings[place].line = line;
    draft.input(random)
}

/// A line that is one and isn't listed, in the reading at this place.
fn not_listed(random: &mut Random, mut draft: Draft, place: usize) -> Input {
    let lines = (1..=4).filter(|line| !draft.lines.contains(line));
    let lines: Vec<u8> = lines.collect();
    draft.readings[place].line = random.pick(&lines);
    draft.input(random)
}

pub fn first_not_listed(random: &mut Random, size: usize) -> Input {
    let draft = whole(random, size);
    not_listed(random, draft, 0)
}

pub fn last_not_listed(random: &mut Random, size: usize) -> Input {
    let draft = whole(random, size);
    let last = draft.readings.len() - 1;
    not_listed(random, draft, last)
}

pub fn one_not_listed(random: &mut Random, size: usize) -> Input {
    let draft = whole(random, size);
    let place = random.between(1, draft.readings.len() as u64 - 2) as usize;
    not_listed(random, draft, place)
}

/// The one reading of what is asked for is of a line that isn't listed.
pub fn asked_not_listed(random: &mut Random, size: usize) -> Input {
    let mut draft = whole(random, size);
    let others = draft.other_lines();
    for reading in &mut draft.readings {
        reading.line = random.pick(&others);
    }
    let place = random.below(draft.readings.len() as u64) as usize;
    (draft.readings[place].line, draft.readings[place].id) = (draft.line, draft.id);
    draft.lines = others;
    draft.input(random)
}

/// A reading, where the first section is empty.
pub fn none_listed(random: &mut Random, _: usize) -> Input {
    let mut draft = Draft::any(random);
    draft.lines.clear();
    draft.say(series::value(random));
    draft.at_any(random).input(random)
}
