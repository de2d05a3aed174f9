//! Runs of equal neighbours: one, many, as long as each other, across others.

use super::{plain, Draft};
use crate::generator::logs::series;
use crate::random::Random;

/// Runs of any lengths, with or without others between them.
pub fn mixed(random: &mut Random, size: usize) -> Draft {
    let mut draft = Draft::any(random);
    let count = random.between(2, size as u64 / 2) as usize;
    let longest = random.pick(&[1, 2, 4, 20]);
    let values = series::mixed(random, count, longest);
    let often = random.pick(&[0, 20, 50]);
    draft.say_among_others(random, &values, often);
    draft.at_any(random)
}

pub fn flat(random: &mut Random, size: usize) -> Draft {
    let count = random.between(2, size as u64) as usize;
    let values = series::runs(random, &[count]);
    plain(random, &values).at_any(random)
}

/// More readings than a byte counts, over more ticks than two bytes do.
pub fn long_and_flat(random: &mut Random, _: usize) -> Draft {
    let count = random.between(257, 400) as usize;
    let values = series::runs(random, &[1, count, 1]);
    let ticks = (0..values.len() as u32).map(|place| place * 1000);
    plain(random, &values).at(ticks.collect())
}

/// Between any two of a run stands a reading of another id or of another line, with its value or not.
pub fn flat_across_others(random: &mut Random, _: usize) -> Draft {
    let mut draft = Draft::any(random);
    draft.lines = vec![1, 2, 3, 4];
    let (line, id) = (random.pick(&draft.other_lines()), draft.id);
    let another_id = id ^ random.between(1, 255) as u8;
    let value = series::value(random);
    let another = series::another(random, value);
    let between = [
        (draft.line, another_id, value),
        (draft.line, another_id, another),
        (line, id, value),
        (line, id, another),
    ];
    draft.say(value);
    for (line, id, other) in between.repeat(random.between(1, 10) as usize) {
        draft.push(line, id, other);
        draft.say(value);
    }
    draft.at_any(random)
}

pub fn each_by_itself(random: &mut Random, size: usize) -> Draft {
    let count = random.between(3, size as u64) as usize;
    let values = series::runs(random, &vec![1; count]);
    plain(random, &values).at_any(random)
}

/// Two values by turns, so that the same one comes again and again.
pub fn to_and_fro(random: &mut Random, _: usize) -> Draft {
    let value = series::value(random);
    let two = [value, series::another(random, value)];
    let count = random.between(2, 20) as usize;
    plain(random, &two.repeat(count)).at_any(random)
}

pub fn longest_first(random: &mut Random, _: usize) -> Draft {
    let values = series::runs(random, &[5, 1, 4, 2, 4]);
    plain(random, &values).at_any(random)
}

pub fn longest_last(random: &mut Random, _: usize) -> Draft {
    let values = series::runs(random, &[1, 4, 2, 4, 5]);
    plain(random, &values).at_any(random)
}

pub fn more_ticks_in_fewer_readings(random: &mut Random, _: usize) -> Draft {
    let values = series::runs(random, &[2, 3]);
    plain(random, &values).at(vec![5, 5000, 5001, 5002, 5003])
}

/// Several runs of the most readings, shorter ones between them.
fn tied_lengths(random: &mut Random) -> Vec<usize> {
    let most = random.between(2, 6) as usize;
    let mut lengths = vec![most];
    for _ in 0..random.between(1, 4) {
        for _ in 0..random.between(0, 3) {
            lengths.push(random.between(1, most as u64 - 1) as usize);
        }
        lengths.push(most);
    }
    lengths
}

fn ties(random: &mut Random, ticks: fn(usize) -> Vec<u32>) -> Draft {
    let lengths = tied_lengths(random);
    let values = series::runs(random, &lengths);
    plain(random, &values).at(ticks(values.len()))
}

/// Of runs with equally many readings a later one has more ticks.
pub fn ties_ever_longer(random: &mut Random, _: usize) -> Draft {
    ties(random, series::slowing)
}

pub fn ties_ever_shorter(random: &mut Random, _: usize) -> Draft {
    ties(random, series::hurrying)
}

pub fn ties_alike(random: &mut Random, _: usize) -> Draft {
    ties(random, |count| (0..count as u32).collect())
}

pub fn ties_among_others(random: &mut Random, _: usize) -> Draft {
    let lengths = tied_lengths(random);
    let values = series::runs(random, &lengths);
    let mut draft = Draft::any(random);
    draft.say_among_others(random, &values, 50);
    draft.at_any(random)
}
