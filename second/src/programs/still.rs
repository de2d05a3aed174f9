//! The still program: a line and an id as arguments, a log in, one line out.

use std::io::{self, Write};

use super::input::Argument;
use super::stream::Program;
use crate::{log, still};

pub const USAGE: &str = "usage: otstill LINE ID <LOG, with LINE 1 to 4 and ID 0 to 255";

pub struct Still {
    /// The line and the id, if the arguments are what the usage says.
    asked: Option<(u16, u8)>,
    log: Vec<u8>,
}

impl Still {
    pub fn new(arguments: &[Argument]) -> Still {
        Still {
            asked: asked(arguments),
            log: Vec::new(),
        }
    }
}

impl Program for Still {
    fn feed(&mut self, input: &[u8], _output: &mut dyn Write) -> io::Result<()> {
        // A byte over the largest log says enough, so no more of it is kept.
        let space = (log::LARGEST + 1).saturating_sub(self.log.len());
        self.log.extend(&input[..input.len().min(space)]);
        Ok(())
    }

    fn finish(&mut self, output: &mut dyn Write) -> io::Result<()> {
        let Some((line, id)) = self.asked else {
            return writeln!(output, "{USAGE}");
        };
        match still::report(line, id, &self.log) {
            Ok(report) => writeln!(output, "{report}"),
            Err(number) => writeln!(output, "refused {number}"),
        }
    }
}

/// Two numbers: any for the line, since a line that isn't there is refusal 9, and an id.
fn asked(arguments: &[Argument]) -> Option<(u16, u8)> {
    match arguments {
        [line, id] => Some((number(line)?, u8::try_from(number(id)?).ok()?)),
        _ => None,
    }
}

/// One or more decimal digits. 256 stands for every number above 255: neither a line nor an id.
fn number(digits: &[u8]) -> Option<u16> {
    if digits.is_empty() || !digits.iter().all(u8::is_ascii_digit) {
        return None;
    }
    let further = |number: u16, digit: &u8| (number * 10 + u16::from(digit - b'0')).min(256);
    Some(digits.iter().fold(0, further))
}
