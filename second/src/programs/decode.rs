//! The decode program: samples in, what the reader answers out.

use std::io::{self, Write};

use super::stream::Program;
use crate::samples::{Heard, Reader};

/// "For each answer of the reader a line `INDEX frame XXXXXXXX S G` or `INDEX refused N` (INDEX: the
/// sample's place from 0, decimal; the word in eight capital hex digits; the smallest and the
/// largest distance, decimal)."
pub struct Decode {
    reader: Reader,
    index: u64,
}

impl Decode {
    pub fn fresh() -> Decode {
        Decode {
            reader: Reader::fresh(),
            index: 0,
        }
    }
}

impl Program for Decode {
    fn feed(&mut self, input: &[u8], output: &mut dyn Write) -> io::Result<()> {
        for sample in input {
            let index = self.index;
            match self.reader.read(*sample) {
                Some(Heard::Frame(frame)) => writeln!(output, "{index} frame {frame}")?,
                Some(Heard::Refused(number)) => writeln!(output, "{index} refused {number}")?,
                None => {}
            }
            self.index += 1;
        }
        Ok(())
    }

    fn finish(&mut self, _output: &mut dyn Write) -> io::Result<()> {
        Ok(())
    }
}
