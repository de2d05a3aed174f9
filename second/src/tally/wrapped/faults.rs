//! The refusals that a message earns by itself, each judged alone and apart from the box, so that no
//! count goes by what it is to check.

use crate::modbus::{checksum, Wrapping};
use crate::refusals;

/// In their order. A field that the message is too short for earns nothing.
pub fn faults(form: Wrapping, message: &[u8]) -> Vec<u8> {
    let all = match form {
        Wrapping::Serial => serial(message),
        Wrapping::Tcp => tcp(message),
    };
    let earned = all.into_iter().filter(|(_, earned)| *earned);
    earned.map(|(number, _)| number).collect()
}

fn serial(message: &[u8]) -> Vec<(u8, bool)> {
    let bytes = message.len();
    let mut all = vec![(refusals::MODBUS_LENGTH, !(4..=256).contains(&bytes))];
    if bytes >= 4 {
        let (_, closed) = is_closed(message);
        all.push((refusals::MODBUS_CHECKSUM, !closed));
        all.extend(unit_and_function(message));
    }
    all
}

fn tcp(message: &[u8]) -> Vec<(u8, bool)> {
    let bytes = message.len();
    let mut all = vec![(refusals::MODBUS_LENGTH, !(8..=260).contains(&bytes))];
    if bytes >= 4 {
        all.push((refusals::TCP_PROTOCOL, message[2..4] != [0, 0]));
    }
    if bytes >= 6 {
        let length = usize::from(message[4]) << 8 | usize::from(message[5]);
        all.push((refusals::TCP_LENGTH, length + 6 != bytes));
    }
    if bytes >= 8 {
        all.extend(unit_and_function(&message[6..]));
    }
    all
}

fn unit_and_function(body: &[u8]) -> [(u8, bool); 2] {
    [
        (refusals::MODBUS_UNIT, body[0] == 0 || body[0] > 5),
        (refusals::MODBUS_FUNCTION, body[1] > 0x7F),
    ]
}

/// What stands before the last two bytes, and whether they are its checksum.
pub fn is_closed(message: &[u8]) -> (&[u8], bool) {
    match message {
        [inner @ .., low, high] => (inner, checksum(inner) == [*low, *high]),
        _ => (message, false),
    }
}
