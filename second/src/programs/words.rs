//! The programs over 4-byte words, high byte first: list, encode and real.

use std::io::{self, Write};

use super::stream::Program;
use crate::samples;
use crate::values::{self, Value};
use crate::word;

type Each = fn(u32, &mut dyn Write) -> io::Result<()>;

pub struct Words {
    each: Each,
    /// What is said to a tail of 1 to 3 bytes, if anything.
    tail: Option<&'static [u8]>,
    kept: Vec<u8>,
}

impl Words {
    pub fn list() -> Words {
        Words::new(list_word, Some(b"- short\n"))
    }

    pub fn encode() -> Words {
        Words::new(encode_word, None)
    }

    pub fn real() -> Words {
        Words::new(real_word, None)
    }

    fn new(each: Each, tail: Option<&'static [u8]>) -> Words {
        Words {
            each,
            tail,
            kept: Vec::new(),
        }
    }
}

impl Program for Words {
    fn feed(&mut self, input: &[u8], output: &mut dyn Write) -> io::Result<()> {
        for byte in input {
            self.kept.push(*byte);
            if let [a, b, c, d] = self.kept[..] {
                self.kept.clear();
                (self.each)(u32::from_be_bytes([a, b, c, d]), output)?;
            }
        }
        Ok(())
    }

    fn finish(&mut self, output: &mut dyn Write) -> io::Result<()> {
        match self.tail {
            Some(tail) if !self.kept.is_empty() => output.write_all(tail),
            _ => Ok(()),
        }
    }
}

/// "Prints a line each: type, id in decimal, value in four hex digits, kind, and the number (two
/// for a pair; a real as its signed raw number; raw as unsigned)." "Odd parity prints
/// `- parity`."
fn list_word(frame: u32, output: &mut dyn Write) -> io::Result<()> {
    if !word::parity_is_even(frame) {
        return writeln!(output, "- parity");
    }
    let (kind, id, raw) = (
        word::type_of(frame),
        word::id_of(frame),
        word::value_of(frame),
    );
    write!(output, "{kind} {id} {raw:04X} ")?;
    match values::typed(values::kind_of(id), raw) {
        Value::Real(_) => writeln!(output, "real {}", raw as i16),
        Value::S16(number) => writeln!(output, "s16 {number}"),
        Value::U16(number) => writeln!(output, "u16 {number}"),
        Value::Pair(high, low) => writeln!(output, "pair {high} {low}"),
        Value::SPair(high, low) => writeln!(output, "spair {high} {low}"),
        Value::Raw(number) => writeln!(output, "raw {number}"),
    }
}

/// "For each its 680 samples as bytes on standard output."
fn encode_word(frame: u32, output: &mut dyn Write) -> io::Result<()> {
    output.write_all(&samples::write(frame))
}

/// "For each a line: the raw 16-bit number as four capital hex digits, if the f8.8 number of that
/// raw number has exactly these float bits, else `refused 10`."
fn real_word(bits: u32, output: &mut dyn Write) -> io::Result<()> {
    match Value::Real(f32::from_bits(bits)).back() {
        Ok(raw) => writeln!(output, "{raw:04X}"),
        Err(number) => writeln!(output, "refused {number}"),
    }
}
