//! 02's Ask 6: how a typed block is read, and logs of as many readings as can be counted.

use super::{hex_words, vector, Vector};
use crate::programs::{Input, Name};

/// The first line calls the program with its arguments, '' standing for an empty one; the log follows.
pub fn typed(text: &str) -> Input {
    let (call, log) = text.split_once('\n').expect("a call stands before the log");
    let arguments = call.strip_prefix("otstill").expect("otstill is called");
    let arguments: Vec<&[u8]> = arguments
        .split_whitespace()
        .map(|word| if word == "''" { "" } else { word }.as_bytes())
        .collect();
    Input::with(&arguments, hex_words(log))
}

pub fn all() -> Vec<Vector> {
    let mut vectors = full();
    vectors.extend(full_and_wrong());
    vectors
}

/// 65,535 readings of line 2, a tick each from 1 on.
fn full_log(id: u8, value: u16) -> Vec<u8> {
    let mut log = vec![4, 1, 2, 3, 4, 0xFF, 0xFF];
    for tick in 1..=65_535u32 {
        log.extend(tick.to_be_bytes());
        log.extend([2, id]);
        log.extend(value.to_be_bytes());
    }
    log
}

/// 65,535 times -32,768, 32,767 and 65,535.
#[rustfmt::skip]
fn full() -> Vec<Vector> {
    [
        ("25", 25, 0x8000, "lowest -32768 highest -32768 sum -2147450880"),
        ("33", 33, 0x8000, "lowest -32768 highest -32768 sum -2147450880"),
        ("25", 25, 0x7FFF, "lowest 32767 highest 32767 sum 2147385345"),
        ("116", 116, 0xFFFF, "lowest 65535 highest 65535 sum 4294836225"),
        ("255", 255, 0xFFFF, "lowest 65535 highest 65535 sum 4294836225"),
    ]
    .map(|(asked, id, value, numbers)| {
        let title = format!("Ask 6: 65,535 readings of id {id}, all {value:04X}");
        let input = Input::with(&[b"2", asked.as_bytes()], full_log(id, value));
        let expected = format!("readings 65535 {numbers} run 65535 ticks 65534\n");
        vector(Name::Still, &title, input, &expected)
    })
    .into()
}

/// "Or has bytes over": one, or as many again.
fn full_and_wrong() -> Vec<Vector> {
    let log = full_log(25, 0x3280);
    assert_eq!(log.len(), 524_287);
    let short = log[..524_286].to_vec();
    let over = [&log[..], &[0]].concat();
    let twice = [&log[..], &log[..]].concat();
    [
        ("less a byte", short),
        ("and a byte", over),
        ("twice", twice),
    ]
    .map(|(how, log)| {
        let title = format!("Ask 6: the largest log, {how}");
        let input = Input::with(&[b"2", b"25"], log);
        vector(Name::Still, &title, input, "refused 19\n")
    })
    .into()
}
