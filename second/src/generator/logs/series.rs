//! Values and ticks in a row.

use crate::random::Random;

/// Where signs show, and where one byte alone tells two values apart.
pub const BORDER: [u16; 14] = [
    0x0000, 0x0001, 0x00FF, 0x0100, 0x7F00, 0x7FFE, 0x7FFF, 0x8000, 0x8001, 0x80FF, 0xFF00, 0xFFFE,
    0xFFFF, 0x3280,
];

pub fn value(random: &mut Random) -> u16 {
    match random.percent(60) {
        true => random.pick(&BORDER),
        false => random.word() as u16,
    }
}

/// Another value; some are unlike in one bit or one byte alone.
pub fn another(random: &mut Random, value: u16) -> u16 {
    let byte = random.between(1, 255) as u16;
    match random.below(5) {
        0 => value ^ 1 << random.below(16),
        1 => value ^ byte,
        2 => value ^ byte << 8,
        _ => value ^ random.between(1, 0xFFFF) as u16,
    }
}

/// Runs of these lengths, no two neighbours of one value.
pub fn runs(random: &mut Random, lengths: &[usize]) -> Vec<u16> {
    let (mut all, mut now) = (Vec::new(), value(random));
    for length in lengths {
        all.extend(vec![now; *length]);
        now = another(random, now);
    }
    all
}

/// Runs of any lengths up to this, so many values in all.
pub fn mixed(random: &mut Random, count: usize, longest: u64) -> Vec<u16> {
    let (mut lengths, mut all) = (Vec::new(), 0);
    while all < count {
        let length = random.between(1, longest) as usize;
        lengths.push(length.min(count - all));
        all += length;
    }
    runs(random, &lengths)
}

/// So many ticks, never falling: all at once, close together, minutes apart, or over all 32 bits.
pub fn ticks(random: &mut Random, count: usize) -> Vec<u32> {
    match random.below(8) {
        0 => vec![random.word(); count],
        1 | 2 => rising(random, count, 2),
        3..=5 => rising(random, count, 60_000),
        _ => whole(random, count),
    }
}

/// Steps up to this. The first tick leaves them room, and is no 0.
pub fn rising(random: &mut Random, count: usize, step: u64) -> Vec<u32> {
    let room = count as u64 * step;
    let mut tick = random.between(1, 0xFFFF_FFFF - room);
    let mut ticks = Vec::new();
    for _ in 0..count {
        ticks.push(tick as u32);
        tick += random.between(0, step);
    }
    ticks
}

/// From 0 to the last tick that there is.
pub fn whole(random: &mut Random, count: usize) -> Vec<u32> {
    let mut ticks: Vec<u32> = (0..count).map(|_| random.word()).collect();
    if let [first, .., last] = &mut ticks[..] {
        (*first, *last) = (0, u32::MAX);
    }
    ticks.sort_unstable();
    ticks
}

/// Each step longer than the one before.
pub fn slowing(count: usize) -> Vec<u32> {
    let count = count as u32;
    (0..count).map(|place| place * place).collect()
}

/// Each step shorter than the one before.
pub fn hurrying(count: usize) -> Vec<u32> {
    let last = (count as u32).pow(2);
    let slowing = slowing(count).into_iter().rev();
    slowing.map(|tick| last - tick).collect()
}
