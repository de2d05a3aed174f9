//! Logs that end too early, or too late.

use super::{reading_count_at, whole};
use crate::programs::Input;
use crate::random::Random;

const READING: usize = 8;

/// The first so many bytes of a good log, which is handed over with where its readings begin.
fn cut(
    random: &mut Random,
    size: usize,
    end: impl Fn(&mut Random, &[u8], usize) -> usize,
) -> Input {
    let draft = whole(random, size);
    let (mut log, readings) = (draft.log(), reading_count_at(&draft) + 2);
    let end = end(random, &log, readings);
    log.truncate(end);
    draft.asking(random, log)
}

pub fn empty(random: &mut Random, size: usize) -> Input {
    cut(random, size, |_, _, _| 0)
}

pub fn line_count_alone(random: &mut Random, size: usize) -> Input {
    cut(random, size, |_, _, _| 1)
}

/// The one byte 00.
pub fn no_line_alone(random: &mut Random, size: usize) -> Input {
    whole(random, size).asking(random, vec![0])
}

pub fn in_the_lines(random: &mut Random, size: usize) -> Input {
    cut(random, size, |random, log, _| {
        random.between(2, u64::from(log[0])) as usize
    })
}

pub fn behind_the_lines(random: &mut Random, size: usize) -> Input {
    cut(random, size, |_, _, readings| readings - 2)
}

pub fn in_the_reading_count(random: &mut Random, size: usize) -> Input {
    cut(random, size, |_, _, readings| readings - 1)
}

pub fn behind_the_reading_count(random: &mut Random, size: usize) -> Input {
    cut(random, size, |_, _, readings| readings)
}

/// Where a reading begins that isn't the first: the last, or any.
fn later_reading(random: &mut Random, log: &[u8], readings: usize) -> usize {
    let last = (log.len() - readings) / READING - 1;
    let any = random.between(1, last as u64) as usize;
    readings + random.pick(&[any, last]) * READING
}

pub fn behind_a_reading(random: &mut Random, size: usize) -> Input {
    cut(random, size, later_reading)
}

/// So many bytes of a reading are there.
pub fn in_a_reading(random: &mut Random, size: usize, bytes: usize) -> Input {
    cut(random, size, |random, log, readings| {
        later_reading(random, log, readings) + bytes
    })
}

pub fn over(random: &mut Random, size: usize, bytes: usize) -> Input {
    let draft = whole(random, size);
    let over = random.bytes(bytes);
    draft.asking(random, [draft.log(), over].concat())
}

pub fn some_over(random: &mut Random, size: usize) -> Input {
    let bytes = random.between(2, 7) as usize;
    over(random, size, bytes)
}

/// A byte behind a log of no line and no reading.
pub fn over_nothing(random: &mut Random, size: usize) -> Input {
    whole(random, size).asking(random, vec![0; 4])
}
