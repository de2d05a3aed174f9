//! 02's Ask 3: frames whose edges aren't straight, what was read before them, and numbers in lines as
//! long as they may be.

use super::{vector, Vector};
use crate::programs::Name;
use crate::runs;

pub fn all() -> Vec<Vector> {
    let mut vectors = one_frame();
    vectors.extend(after_an_answer());
    vectors.extend(long_lines());
    vectors
}

/// 24 idle samples, a start bit whose first half is so long, and the rest of 55555555. Its bits
/// alternate, so each distance is a run; only the last bit and the stop bit are equal.
fn frame(first_half: usize, distances: [usize; 33]) -> Vec<u8> {
    let mut samples = [vec![0; 24], vec![1; first_half]].concat();
    for (place, distance) in distances[..32].iter().enumerate() {
        samples.extend(vec![place as u8 % 2; *distance]);
    }
    samples.extend([vec![0; 10], vec![1; distances[32] - 10], vec![0]].concat());
    samples
}

/// All 20 but for those at these places.
fn twenty_but(others: &[(usize, usize)]) -> [usize; 33] {
    let mut distances = [20; 33];
    for (place, distance) in others {
        distances[*place] = *distance;
    }
    distances
}

/// The answer's sample is 24, the first half and the sum of the distances.
#[rustfmt::skip]
fn one_frame() -> Vec<Vector> {
    [
        ("the first distance alone is the largest", 8, twenty_but(&[(0, 23)]), "695", "20 23"),
        ("the first distance alone is the smallest", 14, twenty_but(&[(0, 18)]), "696", "18 20"),
        ("the last distance alone is the largest", 10, twenty_but(&[(32, 23)]), "697", "20 23"),
        ("the last distance alone is the smallest", 10, twenty_but(&[(32, 18)]), "692", "18 20"),
        ("the first is the largest, the last the smallest", 11, twenty_but(&[(0, 22), (32, 19)]), "696", "19 22"),
        ("smallest and largest are neighbours", 9, twenty_but(&[(16, 19), (17, 21)]), "693", "19 21"),
        ("all distances 18", 14, [18; 33], "632", "18 18"),
        ("all distances 23", 8, [23; 33], "791", "23 23"),
    ]
    .map(|(title, first_half, distances, index, numbers)| {
        let input = frame(first_half, distances);
        let expected = format!("{index} frame 55555555 {numbers}\n");
        vector(Name::Decode, &format!("Ask 3: {title}"), input, &expected)
    })
    .into()
}

/// Distances of 18 and 23 in a frame, or in the beginning of one that is refused, and then a frame of
/// 21 alone, whose answer is the 728th sample from there on.
fn after_an_answer() -> Vec<Vector> {
    let begun = |rest: &str| runs::read(&format!("24x0 10x1 18x0 23x1 {rest}"));
    let mut rises = frame(10, twenty_but(&[(0, 18), (1, 23)]));
    let whole = rises.clone();
    // The 34th middle edge in place of the other edge before it.
    rises.truncate(24 + 10 + 18 + 23 + 30 * 20);
    rises.extend(runs::read("20x0 1x1"));
    [
        ("frame", whole, "695 frame 55555555 18 23\n1423"),
        ("refusal 1", begun("7x0 1x1"), "82 refused 1\n810"),
        ("refusal 2", begun("25x0"), "99 refused 2\n827"),
        ("refusal 3", rises, "695 refused 3\n1423"),
        ("refusal 4", begun("5x0 1x2"), "80 refused 4\n808"),
    ]
    .map(|(before, samples, expected)| {
        let title = format!("Ask 3: distances before a {before} are no later frame's");
        let input = [samples, frame(10, [21; 33])].concat();
        let expected = format!("{expected} frame 55555555 21 21\n");
        vector(Name::Decode, &title, input, &expected)
    })
    .into()
}

/// Leading zeros up to a line of 1,024 bytes, and one more.
fn long_lines() -> Vec<Vector> {
    let line = |zeros: usize| format!("thermostat 1 80190000 {}18 23\n", "0".repeat(zeros));
    // 22 bytes before the zeros and 5 behind them.
    let script = format!("{}{}tick 100\n", line(997), line(998));
    let expected = "0 held 1\n- line\n100 sent 1 80190000 18 23\n";
    let title = "Ask 3: numbers in lines of 1,024 and 1,025 bytes";
    vec![vector(Name::Replay, title, script.into_bytes(), expected)]
}
