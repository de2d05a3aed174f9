//! A line of a script that says something, read.

use crate::digits;
use crate::frame::{Edges, Frame, NO_EDGES};
use crate::gateway::Side;
use crate::modbus::Wrapping;

const LONGEST_MESSAGE: usize = 300;
const LARGEST_ROOM: u64 = 300;

pub enum Command {
    Tick(u64),
    Frame(Side, u8, Came),
    Modbus(Vec<u8>),
    Room(usize),
    Fresh(Wrapping),
}

/// A frame as its line gives it: the word, and the two numbers behind it where they stand.
#[derive(Clone, Copy, PartialEq, Eq, Debug)]
pub struct Came {
    pub word: u32,
    pub edges: Option<Edges>,
}

impl Came {
    /// "Without them both are 0."
    pub fn frame(self) -> Frame {
        Frame {
            word: self.word,
            edges: self.edges.unwrap_or(NO_EDGES),
        }
    }
}

impl Command {
    /// "Fields are separated by one space"; an empty field makes no command.
    pub fn of(line: &[u8]) -> Option<Command> {
        let fields: Vec<&[u8]> = line.split(|byte| *byte == b' ').collect();
        match fields[..] {
            [b"tick", count] => Some(Command::Tick(number(count, 1, 4_294_967_295)?)),
            [b"thermostat", ref fields @ ..] => frame(Side::Thermostat, fields),
            [b"boiler", ref fields @ ..] => frame(Side::Boiler, fields),
            [b"modbus"] => Some(Command::Modbus(Vec::new())),
            [b"modbus", bytes] => Some(Command::Modbus(message(bytes)?)),
            [b"room", size] => Some(Command::Room(number(size, 0, LARGEST_ROOM)? as usize)),
            [b"fresh", b"serial"] => Some(Command::Fresh(Wrapping::Serial)),
            [b"fresh", b"tcp"] => Some(Command::Fresh(Wrapping::Tcp)),
            _ => None,
        }
    }
}

/// "Decimal numbers have one or more digits and no sign; leading zeros are allowed as long as
/// the line's length allows it; a number outside its range is `- line`."
fn number(digits: &[u8], least: u64, most: u64) -> Option<u64> {
    if digits.is_empty() {
        return None;
    }
    let mut number: u64 = 0;
    for digit in digits {
        if !digit.is_ascii_digit() {
            return None;
        }
        // Above the range it stays above it, however many digits follow.
        number = (number * 10 + u64::from(digit - b'0')).min(most + 1);
    }
    (least..=most).contains(&number).then_some(number)
}

/// A line, a frame's smallest or its largest distance: each 0 to 255.
fn byte(digits: &[u8]) -> Option<u8> {
    Some(number(digits, 0, 255)? as u8)
}

fn frame(side: Side, fields: &[&[u8]]) -> Option<Command> {
    let (line, word, edges) = match *fields {
        [line, word] => (line, word, None),
        [line, word, smallest, largest] => {
            let (smallest, largest) = (byte(smallest)?, byte(largest)?);
            (line, word, Some(Edges { smallest, largest }))
        }
        _ => return None,
    };
    let (line, word) = (byte(line)?, hex_word(word)?);
    Some(Command::Frame(side, line, Came { word, edges }))
}

fn hex_word(digits: &[u8]) -> Option<u32> {
    let bytes: [u8; 4] = digits::bytes(digits)?.try_into().ok()?;
    Some(u32::from_be_bytes(bytes))
}

fn message(digits: &[u8]) -> Option<Vec<u8>> {
    digits::bytes(digits).filter(|bytes| bytes.len() <= LONGEST_MESSAGE)
}
