//! Logs of as many readings as can be counted, and longer ones: sums and counts at their ends.

use super::asked;
use super::draft::Draft;
use super::series;
use super::{broken, good};
use crate::log;
use crate::programs::Input;
use crate::random::Random;
use crate::values::Kind;

pub const GOOD: [good::Shape; 7] = [
    |random, size| all_of(random, Kind::Real, 0x8000, size),
    |random, size| all_of(random, Kind::S16, 0x8000, size),
    |random, size| all_of(random, Kind::Real, 0x7FFF, size),
    |random, size| all_of(random, Kind::U16, 0xFFFF, size),
    |random, size| all_of(random, Kind::Raw, 0xFFFF, size),
    each_by_itself,
    mixed,
];

pub const BROKEN: [broken::Shape; 5] = [
    last_tick_falls,
    last_line_not_listed,
    |random, size| resized(random, size, |log| log.len() - 1),
    |random, size| resized(random, size, |log| log.len() + 1),
    |random, size| resized(random, size, |log| log.len() + 70_000),
];

/// One run of one value.
fn all_of(random: &mut Random, kind: Kind, value: u16, size: usize) -> Draft {
    let id = random.pick(&asked::ids(kind));
    let mut draft = Draft::of(random, id);
    draft.say_among_others(random, &vec![value; size], 0);
    let ticks = series::whole(random, size);
    draft.at(ticks)
}

fn each_by_itself(random: &mut Random, size: usize) -> Draft {
    let mut draft = Draft::any(random);
    let values = series::runs(random, &vec![1; size]);
    draft.say_among_others(random, &values, 0);
    draft.at_any(random)
}

/// All four lines listed, so that no log is larger.
fn mixed(random: &mut Random, size: usize) -> Draft {
    let mut draft = Draft::any(random);
    draft.lines = vec![1, 2, 3, 4];
    let values = series::mixed(random, size, 2000);
    draft.say_among_others(random, &values, 30);
    draft.readings.truncate(size);
    let ticks = series::rising(random, size, 60_000);
    draft.at(ticks)
}

fn last_tick_falls(random: &mut Random, size: usize) -> Input {
    let mut draft = mixed(random, size);
    if let [.., before, last] = &mut draft.readings[..] {
        before.tick = before.tick.max(1);
        last.tick = before.tick - 1;
    }
    draft.input(random)
}

fn last_line_not_listed(random: &mut Random, size: usize) -> Input {
    let mut draft = mixed(random, size);
    if let Some(last) = draft.readings.last_mut() {
        last.line = 5;
    }
    draft.input(random)
}

/// With bytes cut off, or with some over.
fn resized(random: &mut Random, size: usize, length: fn(&[u8]) -> usize) -> Input {
    let draft = mixed(random, size);
    let mut log = draft.log();
    assert_eq!(log.len(), log::LARGEST);
    log.resize(length(&log), 1);
    draft.asking(random, log)
}
