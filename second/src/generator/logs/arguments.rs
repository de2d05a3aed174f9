//! The two arguments: as they may be spelled, lines that aren't there, and what is answered with the
//! usage line.

use super::{broken, good};
use crate::programs::{Argument, Input};
use crate::random::Random;

/// A LINE that is a number and no line, also where what is left of it in 8, 16, 32 or 64 bits is one.
#[rustfmt::skip]
pub const STRANGE_LINES: [&str; 16] = [
    "0", "5", "6", "25", "255", "256", "257", "260", "65537", "4294967297", "18446744073709551617",
    "340282366920938463463374607431768211457", "99999999999999999999", "00", "005", "10000000001",
];

type Wrong = &'static [&'static [u8]];

/// Each is answered with the usage line, whatever the log is.
#[rustfmt::skip]
pub const WRONG: [Wrong; 40] = [
    // another number of arguments
    &[], &[b"1"], &[b"1 25"], &[b"--help"], &[b"1", b"25", b"1"], &[b"1", b"25", b""], &[b"1", b"25", b"1", b"25"],
    // empty ones
    &[b"", b"25"], &[b"1", b""], &[b"", b""],
    // signs
    &[b"+1", b"25"], &[b"-1", b"25"], &[b"1", b"+25"], &[b"1", b"-25"], &[b"1", b"-0"], &[b"-", b"25"],
    // what is no decimal digit
    &[b"x", b"25"], &[b"1", b"x"], &[b"0x1", b"25"], &[b"1", b"0x19"], &[b"1", b"1F"], &[b"1", b"25.0"], &[b"1,", b"25"],
    &[b" 1", b"25"], &[b"1 ", b"25"], &[b"1", b" 25"], &[b"1", b"25\n"], &[b"1", b"2 5"], &[b"1/", b"25"], &[b"1", b"25:"],
    // a digit of another script, and what is no text
    &[b"1", b"\xD9\xA5"], &[b"1", b"\xB2\xB5"],
    // an id above 255, also where what is left of it in 8, 16, 32 or 64 bits is one
    &[b"1", b"256"], &[b"1", b"281"], &[b"1", b"65561"], &[b"1", b"4294967321"], &[b"1", b"18446744073709551641"],
    &[b"1", b"0000256"],
    // beside a line that isn't there
    &[b"5", b"256"], &[b"0", b"x"],
];

/// "Leading zeros are allowed."
pub fn spelled(random: &mut Random, number: u8) -> Argument {
    let zeros = match random.percent(15) {
        true => random.pick(&["0", "00", "0000000000000000000000"]),
        false => "",
    };
    format!("{zeros}{number}").into_bytes()
}

/// A log by its place: good, broken, or none at all.
fn any_log(random: &mut Random, place: usize, size: usize) -> Input {
    match place % 3 {
        0 => random.pick(&good::SHAPES)(random, size).input(random),
        1 => random.pick(&broken::SHAPES)(random, size),
        _ => Input::default(),
    }
}

/// The id is any, and often one that the log has.
pub fn strange_line(random: &mut Random, place: usize, size: usize) -> Input {
    let log = any_log(random, place, size);
    let other = random.byte();
    let other = spelled(random, other);
    let id = log.arguments.last().cloned().unwrap_or(other);
    Input::with(&[STRANGE_LINES[place].as_bytes(), &id], log.bytes)
}

pub fn wrong(random: &mut Random, place: usize, size: usize) -> Input {
    let log = any_log(random, place, size);
    Input::with(WRONG[place], log.bytes)
}
