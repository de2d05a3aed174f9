//! Frames as a noisy splice leaves them: it "flips bits in pairs, and parity lets pairs through. Some
//! of those show up in the spare bits" (02, Ask 1). An even number of ones stays even here, an odd
//! one odd.

use crate::random::Random;

/// A good frame with a spare bit set: any of the 15 values, or what a pair of flips leaves.
pub fn spoilt(random: &mut Random, frame: u32) -> u32 {
    match random.below(4) {
        0 | 1 => spare_value(random, frame),
        2 => pair(random, frame, 1),
        _ => pair(random, frame, 2),
    }
}

/// The same, or a pair of flips that isn't seen in the spare bits.
pub fn noisy(random: &mut Random, frame: u32) -> u32 {
    match random.below(4) {
        0 => pair(random, frame, 0),
        _ => spoilt(random, frame),
    }
}

/// Type, id and value stay; the parity bit goes along.
fn spare_value(random: &mut Random, frame: u32) -> u32 {
    let spare = random.between(1, 15) as u32;
    frame ^ spare << 24 ^ (spare.count_ones() % 2) << 31
}

/// Two bits flipped, none, one or both of them spare.
fn pair(random: &mut Random, frame: u32, spare: usize) -> u32 {
    let mut spare_bits = [24, 25, 26, 27];
    let mut others: Vec<u32> = (0..24).chain(28..32).collect();
    random.shuffle(&mut spare_bits);
    random.shuffle(&mut others);
    let flipped = spare_bits[..spare].iter().chain(&others[spare..2]);
    flipped.fold(frame, |frame, bit| frame ^ 1 << bit)
}
