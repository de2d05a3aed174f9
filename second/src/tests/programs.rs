//! The six programs on the fixed vectors, on input in pieces, and at a line's borders.

use crate::generator;
use crate::programs::{self, Name, NAMES};
use crate::vectors;

#[test]
fn the_fixed_vectors_hold() {
    for vector in vectors::all() {
        let output = programs::run(vector.name, &vector.input);
        assert_eq!(
            String::from_utf8_lossy(&output),
            String::from_utf8_lossy(&vector.expected),
            "{}",
            vector.title
        );
    }
}

#[test]
fn pieces_of_any_size_give_the_same_output() {
    for name in NAMES {
        let input = generator::generate(name, 7, 300);
        let (mut program, mut output) = (name.program(&input.arguments), Vec::new());
        for byte in &input.bytes {
            program.feed(&[*byte], &mut output).unwrap();
        }
        program.finish(&mut output).unwrap();
        assert_eq!(output, programs::run(name, &input), "{}", name.word());
    }
}

#[test]
fn script_lines_at_their_borders() {
    let padded = |length: usize| format!("tick {}1", "0".repeat(length - 6));
    let comment = |length: usize| format!("#{}", "x".repeat(length - 1));
    let message = |count: usize| format!("modbus {}", "00".repeat(count));
    let skipped = [
        String::new(),
        comment(1024),
        padded(1024),
        "room 300".into(),
    ];
    let refused_11 = ["modbus".to_string(), message(300)];
    let no_lines = [
        comment(1025),
        padded(1025),
        message(301),
        "room 301".into(),
        "modbus ".into(),
        "tick 1\r".into(),
        "tick 0".into(),
        "tick 4294967296".into(),
    ];
    let script = [&skipped[..], &refused_11, &no_lines].concat().join("\n") + "\nmodbus 0";
    let expected = "1 refused 11\n".repeat(2) + &"- line\n".repeat(9);
    let output = programs::run(Name::Replay, &script.as_str().into());
    assert_eq!(String::from_utf8_lossy(&output), expected);
}
