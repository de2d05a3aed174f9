//! The pieces of an input, and what is plainer than one.

use super::around::Around;
use crate::programs::{Input, Name};
use crate::runs;

pub type Piece = Vec<u8>;

/// Script lines, runs of one level, readings, or words.
pub fn split(name: Name, input: &Input) -> (Around, Vec<Piece>) {
    let bytes = &input.bytes[..];
    let pieces = match name {
        Name::Replay => bytes
            .split_inclusive(|byte| *byte == b'\n')
            .map(<[u8]>::to_vec)
            .collect(),
        Name::Decode => runs::of(bytes),
        Name::Still => return Around::log(input),
        _ => bytes.chunks(4).map(<[u8]>::to_vec).collect(),
    };
    (Around::only(input), pieces)
}

/// A run as long as a bit is when written, or as half of one.
pub fn straight_run(run: &[u8]) -> Option<Piece> {
    match run.len() {
        4..=15 => Some(vec![run[0]; 10]),
        18..=23 => Some(vec![run[0]; 20]),
        _ => None,
    }
}

/// A frame's line up to its word, if something follows it.
pub fn without_numbers(line: &[u8]) -> Option<Piece> {
    let line = std::str::from_utf8(line).ok()?;
    let fields: Vec<&str> = line.split_whitespace().collect();
    match fields[..] {
        [source @ ("thermostat" | "boiler"), line, word, _, ..] => {
            Some(format!("{source} {line} {word}\n").into_bytes())
        }
        _ => None,
    }
}

/// A reading's tick, and what follows it.
fn tick_of(reading: &[u8]) -> Option<(u32, &[u8])> {
    match reading {
        [a, b, c, d, rest @ ..] => Some((u32::from_be_bytes([*a, *b, *c, *d]), rest)),
        _ => None,
    }
}

pub fn with_tick_0(reading: &[u8]) -> Option<Piece> {
    tick_of(reading).map(|(_, rest)| [&[0; 4], rest].concat())
}

/// Of two readings the later one stays so, or comes at the same tick.
pub fn earlier(reading: &[u8]) -> Option<Piece> {
    tick_of(reading).map(|(tick, rest)| [&(tick >> 8).to_be_bytes(), rest].concat())
}

pub fn with_value_0(reading: &[u8]) -> Option<Piece> {
    match reading {
        [a, b, c, d, line, id, _, _] => Some(vec![*a, *b, *c, *d, *line, *id, 0, 0]),
        _ => None,
    }
}

pub fn begins_a_box(line: &[u8]) -> bool {
    line == b"fresh serial\n" || line == b"fresh tcp\n"
}

pub fn ticks(line: &[u8]) -> Option<u64> {
    let line = std::str::from_utf8(line).ok()?;
    line.strip_suffix('\n')?.strip_prefix("tick ")?.parse().ok()
}

pub fn tick_line(count: u64) -> Piece {
    format!("tick {count}\n").into_bytes()
}
