//! 02's Ask 4: the longest TCP messages, with length fields that are right or wrong, and lines that begin
//! no new box.

use super::{vector, Vector};
use crate::generator::fresh_lines::WRONG;
use crate::programs::Name;

const READ: &str = "0 reply 000100000003018303\n";
const REFUSED_11: &str = "0 refused 11\n";
const REFUSED_17: &str = "0 refused 17\n";
const REFUSED_18: &str = "0 refused 18\n";

pub fn all() -> Vec<Vector> {
    let mut vectors = longest();
    vectors.push(wrong_lines());
    vectors
}

/// The box is as it was: of its form, at its time.
fn wrong_lines() -> Vector {
    let title = "Ask 4: each line that misses a new box by a little";
    let wrong = WRONG.map(|line| format!("{line}\n")).concat();
    let (serial, tcp) = (
        "modbus 0503007600016454\n",
        "modbus 000100000006050300760001\n",
    );
    let script = format!("tick 1\n{wrong}{serial}fresh tcp\ntick 2\n{wrong}{tcp}");
    let none = "- line\n".repeat(WRONG.len());
    let (serial, tcp) = (
        "1 reply 05030201004814\n",
        "2 reply 0001000000050503020100\n",
    );
    let expected = format!("{none}{serial}{none}{tcp}");
    vector(Name::Replay, title, script.into_bytes(), &expected)
}

/// "Messages are 8 to 260 bytes." 260 bytes handed over less 6 are FE.
#[rustfmt::skip]
fn longest() -> Vec<Vector> {
    [
        (255, "0000", "00F9", READ),
        (256, "0000", "00FA", READ),
        (257, "0000", "00FB", READ),
        (258, "0000", "00FC", READ),
        (259, "0000", "00FD", READ),
        (259, "0000", "00FE", REFUSED_18),
        (260, "0000", "00FE", READ),
        (260, "0000", "00FD", REFUSED_18),
        (260, "0000", "00FF", REFUSED_18),
        (260, "0000", "0104", REFUSED_18),
        (260, "0000", "01FE", REFUSED_18),
        (260, "0001", "00FE", REFUSED_17),
        (260, "0100", "00FF", REFUSED_17),
        (261, "0000", "00FF", REFUSED_11),
        (261, "0000", "00FE", REFUSED_11),
        (261, "0001", "0000", REFUSED_11),
        (262, "0000", "0100", REFUSED_11),
        (300, "0000", "0126", REFUSED_11),
    ]
    .map(|(bytes, protocol, length, expected)| one(bytes, protocol, length, expected))
    .into()
}

/// A read for unit 1 with zeros behind it.
fn one(bytes: usize, protocol: &str, length: &str, expected: &str) -> Vector {
    let title = format!("Ask 4: {bytes} bytes, protocol {protocol}, length {length}");
    let zeros = "00".repeat(bytes - 8);
    let script = format!("fresh tcp\nmodbus 0001{protocol}{length}0103{zeros}\n");
    vector(Name::Replay, &title, script.into_bytes(), expected)
}
