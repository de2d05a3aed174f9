//! What each program is: fed piece by piece, so that any length can be streamed, and writing as it
//! goes.

use std::io::{self, Read, Write};

pub trait Program {
    fn feed(&mut self, input: &[u8], output: &mut dyn Write) -> io::Result<()>;

    /// The end of the input: what a tail or a last line without LF still brings.
    fn finish(&mut self, output: &mut dyn Write) -> io::Result<()>;
}

/// Runs a program from a reader to a writer.
pub fn stream(
    program: &mut dyn Program,
    input: &mut dyn Read,
    output: &mut dyn Write,
) -> io::Result<()> {
    let mut buffer = vec![0; 1 << 16];
    loop {
        let count = input.read(&mut buffer)?;
        if count == 0 {
            break;
        }
        program.feed(&buffer[..count], output)?;
    }
    program.finish(output)?;
    output.flush()
}

/// Runs a program on input that is at hand.
pub fn run(program: &mut dyn Program, input: &[u8]) -> Vec<u8> {
    let mut output = Vec::new();
    stream(program, &mut &input[..], &mut output).expect("a vector takes every byte");
    output
}
