//! What follows a frame's word in a script (02, Ask 3): nothing, two numbers, or something that makes
//! the line wrong.

use crate::random::Random;

/// Behind a good line each of these alone makes it wrong.
#[rustfmt::skip]
pub const WRONG: [&str; 34] = [
    // one number, three, four
    " 20", " 0", " 20 21 22", " 0 0 0", " 18 19 20 21",
    // above 255, also where what is left of it in 8, 16, 32 or 64 bits isn't
    " 256 20", " 20 256", " 300 300", " 276 20", " 20 1000", " 65556 20", " 20 4294967316",
    " 18446744073709551636 20", " 20 340282366920938463463374607431768211476", " 0000256 20",
    // a space, a tab or a carriage return too many
    " 20 ", " 20 21 ", "  20 21", " 20  21", " 20 21  ", " 20\t21", "\t20 21", " 20 21\r",
    // signs, and what is no decimal digit
    " +20 21", " 20 +21", " -1 21", " 20 -0", " 0x14 21", " 1A 21", " 20 1f", " 20.0 21",
    " 20,21", " 20-21", " 20 x",
];

/// Nothing, or two numbers as they may stand.
pub fn good(random: &mut Random) -> String {
    let numbers = two(random).into_iter().flatten();
    numbers.map(|number| spelled(random, number)).collect()
}

/// Leading zeros are allowed.
fn spelled(random: &mut Random, number: u8) -> String {
    let zeros = match random.percent(10) {
        true => random.pick(&["0", "00", "0000000000000000000000"]),
        false => "",
    };
    format!(" {zeros}{number}")
}

/// The smallest and the largest, as a reader gives them or as none would.
fn two(random: &mut Random) -> Option<[u8; 2]> {
    let mut read = [random.between(18, 23), random.between(18, 23)].map(|one| one as u8);
    read.sort_unstable();
    let [smallest, largest] = read;
    let (any, other) = (random.byte(), random.byte());
    let border = [0, 1, 17, 24, 127, 128, 254, 255];
    match random.below(20) {
        0..=4 => None,
        5 => Some([0, 0]),
        6..=9 => Some(read),
        10 => Some([largest, smallest]),
        11 => Some([any, any]),
        12 => Some([0, any]),
        13 => Some([any, 0]),
        14 | 15 => Some([random.pick(&border), random.pick(&border)]),
        _ => Some([any, other]),
    }
}

/// Lines that are good but for what follows their word: each of the forms for each side.
pub fn wrong_lines() -> Vec<Vec<u8>> {
    let mut all = Vec::new();
    for head in ["thermostat 1 80190000", "boiler 2 40193280"] {
        all.extend(WRONG.map(|tail| format!("{head}{tail}").into_bytes()));
    }
    all
}
