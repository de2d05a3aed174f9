//! An input and two outputs as text, to be read by whoever looks for a difference's reason.

mod log;

use crate::digits::pairs;
use crate::programs::{Argument, Input, Name};
use crate::runs;
use crate::samples;

/// Lines of output shown before and behind the first differing one.
const BEFORE: usize = 4;
const BEHIND: usize = 2;

pub fn input_text(name: Name, input: &Input) -> String {
    let bytes = &input.bytes[..];
    match name {
        Name::Replay => String::from_utf8_lossy(bytes).into_owned(),
        Name::Decode => runs::text(bytes),
        Name::Still => format!("{}\n{}", command(name, &input.arguments), log::text(bytes)),
        _ => bytes.chunks(4).map(|word| pairs(word) + "\n").collect(),
    }
}

/// How the product is called, without what starts it.
pub fn command(name: Name, arguments: &[Argument]) -> String {
    let arguments: String = arguments.iter().map(|one| shown(one)).collect();
    format!("ot{}{arguments}", name.word())
}

/// In quotes where it is no plain word.
fn shown(argument: &[u8]) -> String {
    let plain = |byte: &u8| byte.is_ascii_alphanumeric() || b"+-.,_".contains(byte);
    match !argument.is_empty() && argument.iter().all(plain) {
        true => format!(" {}", argument.escape_ascii()),
        false => format!(" '{}'", argument.escape_ascii()),
    }
}

fn output_lines(name: Name, output: &[u8]) -> Vec<String> {
    match name {
        Name::Encode => output.chunks(samples::WRITTEN).map(runs::text).collect(),
        _ => String::from_utf8_lossy(output)
            .split('\n')
            .map(str::to_string)
            .collect(),
    }
}

/// Prints both outputs around the first differing line.
pub fn report(name: Name, given: &Result<Vec<u8>, String>, expected: &[u8]) {
    let expected = output_lines(name, expected);
    let given = match given {
        Ok(output) => output_lines(name, output),
        Err(reason) => return println!("The program {reason}"),
    };
    let same = given
        .iter()
        .zip(&expected)
        .take_while(|(one, other)| one == other)
        .count();
    println!("First difference in line {} of the output.", same + 1);
    println!("The program gives:");
    print_around(&given, same);
    println!("The second program or the vector gives:");
    print_around(&expected, same);
}

fn print_around(lines: &[String], marked: usize) {
    let from = marked.saturating_sub(BEFORE);
    let end = lines.len().min(marked + 1 + BEHIND);
    for (place, line) in lines.iter().enumerate().take(end).skip(from) {
        let mark = if place == marked { '>' } else { ' ' };
        println!("  {mark} {line}");
    }
}
