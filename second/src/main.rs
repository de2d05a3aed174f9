//! The second program: the box's rules written apart from the product, the random input both are
//! run on, and the comparison of the two.

// the rules
mod frame;
mod gateway;
mod line;
mod log;
mod modbus;
mod refusals;
mod samples;
mod status;
mod still;
mod values;
mod word;

// the programs over them, and how their input and output is written
mod digits;
mod programs;
mod runs;

// what they are run on
mod generator;
mod random;
mod vectors;

// the comparison
mod compare;
mod ours;
mod report;
mod shrink;
mod tally;
mod written;

#[cfg(test)]
mod tests;

use std::io::{self, Write};
use std::os::unix::ffi::OsStringExt;
use std::process::ExitCode;

use programs::{stream, Argument, Name};

const USAGE: &str = "usage: second list | decode | encode | real | replay
       second still LINE ID
       second gen list|decode|encode|real|replay|still SEED SIZE
       second compare SEED ROUNDS";

fn main() -> ExitCode {
    let words = std::env::args_os().skip(1).map(OsStringExt::into_vec);
    let words: Vec<Argument> = words.collect();
    // Each gives nothing where its words aren't what the usage says.
    let status = words.split_first().and_then(|(name, arguments)| {
        let name = text(name)?;
        match (name, arguments) {
            ("gen", [name, seed, size]) => gen(text(name)?, text(seed)?, text(size)?),
            ("compare", [seed, rounds]) => compare(text(seed)?, text(rounds)?),
            _ => run(name, arguments),
        }
    });
    status.unwrap_or_else(|| {
        eprintln!("{USAGE}");
        ExitCode::from(2)
    })
}

fn text(word: &[u8]) -> Option<&str> {
    std::str::from_utf8(word).ok()
}

/// What still says to wrong arguments is its own affair; to the others every argument is one too many.
fn run(name: &str, arguments: &[Argument]) -> Option<ExitCode> {
    let name = Name::of(name).filter(|name| name.takes_arguments() || arguments.is_empty())?;
    let mut program = name.program(arguments);
    let mut output = io::BufWriter::with_capacity(1 << 16, io::stdout().lock());
    let streamed = stream::stream(&mut *program, &mut io::stdin().lock(), &mut output);
    Some(status(streamed.is_ok()))
}

fn gen(name: &str, seed: &str, size: &str) -> Option<ExitCode> {
    let (name, seed, size) = (Name::of(name)?, seed.parse().ok()?, size.parse().ok()?);
    let input = generator::generate(name, seed, size);
    if name.takes_arguments() {
        eprintln!("{}", report::command(name, &input.arguments));
    }
    Some(status(io::stdout().lock().write_all(&input.bytes).is_ok()))
}

fn compare(seed: &str, rounds: &str) -> Option<ExitCode> {
    let (seed, rounds) = (seed.parse().ok()?, rounds.parse().ok()?);
    (rounds > 0).then(|| status(compare::compare(seed, rounds)))
}

fn status(good: bool) -> ExitCode {
    match good {
        true => ExitCode::SUCCESS,
        false => ExitCode::FAILURE,
    }
}
