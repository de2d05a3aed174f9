//! Input of 4-byte words: frames for the listing and the writer, float bits for real.

use crate::random::Random;
use crate::values;
use crate::word;

/// Words for the listing: mostly of even parity, since an odd one shows nothing of the table.
pub fn words(random: &mut Random, count: usize) -> Vec<u8> {
    let mut input = Vec::new();
    for _ in 0..count {
        let mut frame = random.word();
        if random.percent(30) {
            // A value at an end of its range, where signs show.
            let value = random.pick(&[
                0x0000, 0x0001, 0x7FFF, 0x8000, 0xFFFF, 0x007F, 0x0080, 0xFF00,
            ]);
            frame = frame & 0xFFFF_0000 | value;
        }
        if random.percent(50) {
            frame &= 0xFF7F_FFFF; // ids 128 to 255 are all unlisted
        }
        if random.percent(85) {
            frame = word::with_even_parity(frame);
        }
        input.extend(frame.to_be_bytes());
    }
    with_tail(random, input)
}

pub fn any_words(random: &mut Random, count: usize) -> Vec<u8> {
    let special = [0, 0xFFFF_FFFF, 0x5555_5555, 0xAAAA_AAAA, 1, 0x8000_0000];
    let mut input = Vec::new();
    for _ in 0..count {
        let frame = if random.percent(10) {
            random.pick(&special)
        } else {
            random.word()
        };
        input.extend(frame.to_be_bytes());
    }
    with_tail(random, input)
}

fn with_tail(random: &mut Random, mut input: Vec<u8>) -> Vec<u8> {
    if random.percent(75) {
        let count = random.between(1, 3) as usize;
        input.extend(random.bytes(count));
    }
    input
}

pub fn reals(random: &mut Random, count: usize) -> Vec<u8> {
    let mut input = Vec::new();
    for _ in 0..count {
        input.extend(real(random).to_be_bytes());
    }
    with_tail(random, input)
}

fn real(random: &mut Random) -> u32 {
    let exact = values::real_of(random.word() as u16);
    match random.below(10) {
        0..=3 => exact.to_bits(),
        4 => exact.to_bits().wrapping_add(1),
        5 => exact.to_bits().wrapping_sub(1),
        6 => exact.to_bits() ^ 1 << random.below(32),
        7 => special_real(random),
        // Between two f8.8 numbers, or just outside them.
        8 => (exact + random.pick(&[0.5, 0.25, 128.0, -128.0, 256.0]) / 256.0).to_bits(),
        _ => random.word(),
    }
}

fn special_real(random: &mut Random) -> u32 {
    let subnormal = random.word() & 0x807F_FFFF;
    random.pick(&[
        0x0000_0000, // plus zero
        0x8000_0000, // minus zero
        0x7F80_0000, // infinity
        0xFF80_0000, // minus infinity
        0x7FC0_0000, // NaN, quiet
        0xFFC0_0000, // NaN, quiet, sign set
        0x7F80_0001, // NaN, signalling
        0xFFFF_FFFF, // NaN, every bit set
        0x7FA0_5A5A, // NaN with a pattern
        0x0000_0001, // smallest subnormal
        0x807F_FFFF, // largest subnormal, sign set
        0x0080_0000, // smallest normal number
        0x3E99_999A, // 0.3
        0x4300_0000, // 128
        0xC300_0000, // -128, the lowest raw number
        0xC300_0001, // just below -128
        0x42FF_FE00, // 127.99609375, the highest raw number
        0x42FF_FF00, // half a step above it
        0x3B80_0000, // 1/256, the smallest step
        0xBB80_0000, // -1/256
        0x3B00_0000, // 1/512
        0x7F7F_FFFF, // largest float
        subnormal,
    ])
}
