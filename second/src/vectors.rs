//! Fixed inputs with the output written down by hand, to which both programs are held. Most stand
//! in vectors.txt and vectors/still.txt; here are those that are too long to be typed.

mod edges;
mod still;
mod tcp;

use crate::digits;
use crate::programs::{Input, Name};
use crate::runs;
use crate::samples;

const TYPED: &str = include_str!("vectors.txt");
const TYPED_STILL: &str = include_str!("vectors/still.txt");

pub struct Vector {
    pub title: String,
    pub name: Name,
    pub input: Input,
    pub expected: Vec<u8>,
}

pub fn all() -> Vec<Vector> {
    let mut vectors = blocks(TYPED);
    vectors.extend(every_real());
    vectors.extend(written());
    vectors.extend(spare_bit_read());
    vectors.extend(frame_after_frame());
    vectors.extend(longest_messages());
    vectors.extend(edges::all());
    vectors.extend(tcp::all());
    vectors.extend(blocks(TYPED_STILL));
    vectors.extend(still::all());
    vectors
}

fn blocks(text: &str) -> Vec<Vector> {
    text.split("\n== ").skip(1).map(typed).collect()
}

/// One block, the '== ' taken off.
fn typed(block: &str) -> Vector {
    let (head, rest) = block.split_once('\n').expect("a block has a head line");
    let (kind, title) = head.split_once(": ").expect("a head has kind and title");
    let (input, expected) = split_block(rest);
    let name = Name::of(kind).expect("a head names one of the programs");
    let input = match name {
        Name::Replay => input.into(),
        Name::Decode => runs::read(input).into(),
        Name::Still => still::typed(input),
        _ => hex_words(input).into(),
    };
    let expected = expected.trim().to_string();
    let end = if expected.is_empty() { "" } else { "\n" };
    vector(name, title, input, &(expected + end))
}

fn split_block(rest: &str) -> (&str, &str) {
    match rest.strip_prefix("--\n") {
        Some(expected) => ("", expected),
        None => {
            let place = rest.find("\n--\n").expect("a block has input and output");
            (&rest[..place + 1], &rest[place + 4..])
        }
    }
}

fn hex_words(text: &str) -> Vec<u8> {
    let bytes = |word: &str| digits::bytes(word.as_bytes()).expect("pairs of hex digits");
    text.split_whitespace().flat_map(bytes).collect()
}

fn vector(name: Name, title: &str, input: impl Into<Input>, expected: &str) -> Vector {
    Vector {
        title: title.to_string(),
        name,
        input: input.into(),
        expected: expected.as_bytes().to_vec(),
    }
}

/// Every raw number gives a float, and that float gives the raw number again.
fn every_real() -> Vec<Vector> {
    let floats = (0..=0xFFFFu16).map(|raw| f32::from(raw as i16) / 256.0);
    let input = floats
        .flat_map(|real| real.to_bits().to_be_bytes())
        .collect::<Vec<u8>>();
    let expected: String = (0..=0xFFFF).map(|raw| format!("{raw:04X}\n")).collect();
    vec![vector(
        Name::Real,
        "all 65,536 raw numbers",
        input,
        &expected,
    )]
}

/// The samples of a frame whose 34 bits are given one by one.
fn frame(bits: &str) -> Vec<u8> {
    let halves = |bit| match bit {
        '1' => [[1; 10], [0; 10]].concat(),
        _ => [[0; 10], [1; 10]].concat(),
    };
    bits.chars()
        .filter(|bit| *bit != ' ')
        .flat_map(halves)
        .collect()
}

const P1_BITS: &str = "1 1000 0000 0001 1001 0000 0000 0000 0000 1";
const ODD_BITS: &str = "1 1000 0000 0000 0000 0000 0000 0000 0000 1";
const SPARE_BITS: &str = "1 1100 0001 0001 1001 0011 0010 1000 0000 1";

fn written() -> Vec<Vector> {
    let one = |title: &str, word: u32, bits| Vector {
        title: title.to_string(),
        name: Name::Encode,
        input: word.to_be_bytes().to_vec().into(),
        expected: frame(bits),
    };
    vec![
        one("P1 written", 0x8019_0000, P1_BITS),
        one("a word of odd parity written", 0x8000_0000, ODD_BITS),
        one("Ask 1: a spare bit written", 0xC119_3280, SPARE_BITS),
    ]
}

/// "Refused at the line" (02, Ask 1), so not before it: the reader gives the frame as ever.
fn spare_bit_read() -> Vec<Vector> {
    let input = [vec![0; 24], frame(SPARE_BITS)].concat();
    let (title, expected) = ("Ask 1: a spare bit read", "694 frame C1193280 20 20\n");
    vec![vector(Name::Decode, title, input, expected)]
}

/// Nine idle samples of the first frame count, so 15 more are enough and 14 too few.
fn frame_after_frame() -> Vec<Vector> {
    let two = |gap: usize| {
        let frame = frame(P1_BITS);
        assert_eq!(frame.len(), samples::WRITTEN);
        [vec![0; 24], frame.clone(), vec![0; gap], frame, vec![0; 24]].concat()
    };
    let (first, second) = ("694 frame 80190000 20 20\n", "1389 frame 80190000 20 20\n");
    vec![
        vector(
            Name::Decode,
            "15 idle samples after a frame",
            two(15),
            &format!("{first}{second}"),
        ),
        vector(
            Name::Decode,
            "14 idle samples after a frame",
            two(14),
            first,
        ),
    ]
}

/// "256 Modbus bytes read, 257 silent."
fn longest_messages() -> Vec<Vector> {
    let zeros = "00".repeat(252);
    let read = format!("modbus 0103{zeros}10DE\n").into_bytes();
    let silent = format!("modbus 010300{zeros}DFCC\n").into_bytes();
    vec![
        vector(
            Name::Replay,
            "Run: 256 Modbus bytes",
            read,
            "0 reply 0183030131\n",
        ),
        vector(
            Name::Replay,
            "Run: 257 Modbus bytes",
            silent,
            "0 refused 11\n",
        ),
    ]
}
