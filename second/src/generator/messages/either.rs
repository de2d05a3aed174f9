//! Messages that look at both forms: one of the other form, with a checksum behind the TCP form, or
//! good in both at once.

use super::cover::Length;
use super::draft::Draft;
use crate::modbus::{self, closed, Wrapping, ROWS};
use crate::random::Random;

/// The rows whose value stands last.
const VALUE_LAST: [usize; 5] = [2, 3, 5, 7, 8];

pub fn message(random: &mut Random, form: Wrapping) -> Vec<u8> {
    match random.below(6) {
        0 | 1 => of_the_other(random, form),
        2 | 3 => serial_that_begins_as_tcp(random),
        4 => with_a_checksum(random),
        _ => good_in_both(random),
    }
}

fn any(random: &mut Random, form: Wrapping) -> Draft {
    let row = random.below(ROWS.len() as u64) as usize;
    let (unit, id) = (random.between(1, 5) as u8, random.byte());
    Draft::of(random, form, row, unit, id)
}

/// Well-formed, but for a box of the other form.
fn of_the_other(random: &mut Random, form: Wrapping) -> Vec<u8> {
    let other = match form {
        Wrapping::Serial => Wrapping::Tcp,
        Wrapping::Tcp => Wrapping::Serial,
    };
    any(random, other).bytes(random)
}

/// A serial message whose bytes pass for the beginning of a TCP one: too short for it; up to its
/// protocol; up to its length, so that the unit alone is wrong.
fn serial_that_begins_as_tcp(random: &mut Random) -> Vec<u8> {
    let unit = random.between(1, 5) as u8;
    let reads = random.pick(&[0x03, 0x04]);
    match random.below(4) {
        0 => closed(&[unit, reads]),
        1 => closed(&[unit, reads, 0, 0, 0, 1]),
        2 => closed(&[unit, 0x06, 0, 0, 0, 2]),
        _ => closed(&[unit, 0x41, 0, 0, 0, 4, 0, 0]),
    }
}

/// A TCP message with the checksum of all its bytes behind it, counted by its length or not. Its
/// transaction is what a serial box takes for unit and function.
fn with_a_checksum(random: &mut Random) -> Vec<u8> {
    let mut draft = any(random, Wrapping::Tcp);
    draft.cover.transaction = unit_and_function(random);
    draft.cover.length = random.pick(&[Length::Right, Length::More(2)]);
    closed(&draft.bytes(random))
}

/// A TCP message whose last value is the checksum of what stands before it.
fn good_in_both(random: &mut Random) -> Vec<u8> {
    let (row, unit) = (random.pick(&VALUE_LAST), random.between(1, 4) as u8);
    let id = random.byte();
    let mut draft = Draft::of(random, Wrapping::Tcp, row, unit, id);
    draft.cover.transaction = unit_and_function(random);
    let mut message = draft.bytes(random);
    message.truncate(message.len() - 2);
    let sum = modbus::checksum(&message);
    [message, sum.to_vec()].concat()
}

fn unit_and_function(random: &mut Random) -> u16 {
    let (unit, function) = (random.between(1, 5) as u8, random.byte());
    let unit = random.pick(&[unit, unit, unit, function]);
    let function = random.pick(&[0x03, 0x06, 0x41, function & 0x7F, function]);
    u16::from_be_bytes([unit, function])
}
