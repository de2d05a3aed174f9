//! An input is made shorter, whatever boxes stand in it.

use crate::generator;
use crate::programs::{self, Input, Name};
use crate::shrink::shrink;

/// The shortest script found, made from a long one, whose trace still has these in this order.
fn shortest(wanted: &[&str]) -> String {
    let mut has_all = |input: &Input| {
        let output = programs::run(Name::Replay, input);
        let output = String::from_utf8_lossy(&output);
        let mut lines = output.lines();
        let has = |wanted: &&str| lines.any(|line| line.ends_with(*wanted));
        wanted.iter().all(has)
    };
    let input = (1..)
        .map(|seed| generator::generate(Name::Replay, seed, 3000))
        .find(|input| has_all(input))
        .expect("some script has them all");
    String::from_utf8(shrink(Name::Replay, &input, &mut has_all).bytes).unwrap()
}

#[test]
fn what_shows_in_one_box_needs_its_form_alone() {
    for (wanted, form) in [("refused 17", "tcp"), ("refused 18", "tcp")] {
        let script = shortest(&[wanted]);
        let lines: Vec<&str> = script.lines().collect();
        assert_eq!(lines.len(), 2, "{script}");
        assert_eq!(lines[0], format!("fresh {form}"));
    }
    assert_eq!(shortest(&["refused 12"]).lines().count(), 1);
}

#[test]
fn what_shows_in_two_boxes_needs_both() {
    let script = shortest(&["refused 18", "refused 12"]);
    let lines: Vec<&str> = script.lines().collect();
    assert_eq!(lines.len(), 4, "{script}");
    assert_eq!((lines[0], lines[2]), ("fresh tcp", "fresh serial"));
}
