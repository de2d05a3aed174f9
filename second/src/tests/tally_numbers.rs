//! The counts of 02's Ask 3 are told apart.

use super::tally::missing;
use crate::generator::numbers::WRONG;
use crate::programs::Name;
use crate::tally::Tally;
use crate::vectors;

/// Of the names looked for, those that aren't missing, in the table's order.
fn seen(missing: &[String], named: fn(&str) -> bool) -> Vec<String> {
    let mut all = Tally::default().missing();
    all.retain(|name| named(name) && !missing.contains(name));
    all
}

fn carried(script: &str) -> Vec<String> {
    let named = |name: &str| name.contains("numbers") || name.starts_with("wrong line");
    seen(&missing(script), named)
}

const SENT: &str = "thermostat's frame sent";
const PASSED: &str = "boiler's frame passed on";

/// A script, and each thing that is counted for it.
#[rustfmt::skip]
const SCRIPTS: [(&str, &[(&str, &str)]); 9] = [
    ("thermostat 1 80190000 19 22\ntick 184\nboiler 1 40193280 18 23\n",
        &[(SENT, ", its numbers: the smaller first, 18 to 23"), (PASSED, ", its numbers: the smaller first, 18 to 23"),
            (PASSED, ", its numbers, not the question's")]),
    ("thermostat 1 80190000 18 19\nthermostat 1 80190000 0 0\ntick 100\n",
        &[(SENT, ", its numbers: both 0"), (SENT, ", no numbers, not the held frame's it replaced"),
            (SENT, ", no numbers, not the held frame's it replaced, with the same word")]),
    ("thermostat 1 80190000\nthermostat 1 801A0000 255 0\ntick 100\n",
        &[(SENT, ", its numbers: not 0 and 0"), (SENT, ", its numbers: 255 first"),
            (SENT, ", its numbers, not the held frame's it replaced")]),
    ("thermostat 1 80190000 3 2\nthermostat 1 00190000 020 20\ntick 100\n",
        &[(SENT, ", its numbers: the larger first"), (SENT, ", its numbers, not a frame's refused since it came"),
            ("numbers of a thermostat frame", ": refusal 5"), ("thermostat frame's numbers", " with leading zeros")]),
    ("thermostat 1 80190000\nthermostat 2 80190000 7 7\ntick 100\n",
        &[(SENT, ", no numbers given"), (SENT, ", its numbers: equal"),
            (SENT, ", no numbers, not another line's later frame's")]),
    ("thermostat 1 80190000 0 9\ntick 975\nmodbus 01030019000155CD\ntick 184\nboiler 1 40193280 1 1\n",
        &[(SENT, ", its numbers: 0 and not 0"), ("order's frame sent", ", no numbers, not those sent before"),
            ("numbers of an order's answer", ": a normal reply")]),
    ("modbus 01030019000155CD\ntick 100\nthermostat 1 80190000 0 9\ntick 84\nboiler 1 70190000 1 1\n",
        &[("numbers of an order's answer", ": an exception")]),
    ("thermostat 1 80190000 1 2\ntick 184\nthermostat 1 80190000 1 3\nboiler 1 40193280 0 255\n",
        &[(SENT, ", its numbers: the smaller first, not 18 to 23"),
            ("numbers of a dropped answer", ", its question's word held with others")]),
    ("thermostat 1 80190000\ntick 184\nboiler 1 40193281 8 9\nboiler 1 40193280\n",
        &[(SENT, ", no numbers given"), (PASSED, ", no numbers given"),
            (PASSED, ", no numbers, not a frame's refused in this talk"), ("numbers of a boiler frame", ": refusal 5")]),
];

#[test]
fn what_became_of_the_numbers_is_told_apart() {
    for (script, expected) in SCRIPTS {
        let named = |(head, tail): &(&str, &str)| format!("{head}{tail}");
        let expected: Vec<String> = expected.iter().map(named).collect();
        assert_eq!(carried(script), expected, "{script}");
    }
}

#[test]
fn each_wrong_form_is_counted_by_itself() {
    for source in ["thermostat", "boiler"] {
        for tail in WRONG {
            let name = format!("wrong line: {:?}", format!("{source} L W{tail}"));
            assert_eq!(carried(&format!("{source} 4 80190000{tail}\n")), [name]);
            // Where something else is wrong too, it isn't the form that was tried.
            assert_eq!(carried(&format!("{source} 5 80190000{tail}\n")), [""; 0]);
            assert_eq!(carried(&format!("{source} 4 8019000{tail}\n")), [""; 0]);
        }
    }
}

/// By the fixed vectors, whose distances are known.
#[test]
fn what_was_read_before_a_frame_is_told_apart() {
    for (before, name) in [
        ("frame", "the frame"),
        ("refusal 1", "what 1 refused"),
        ("refusal 2", "what 2 refused"),
        ("refusal 3", "what 3 refused"),
        ("refusal 4", "what 4 refused"),
    ] {
        let title = format!("Ask 3: distances before a {before} are no later frame's");
        let found = vectors::all().into_iter().find(|one| one.title == title);
        let vector = found.expect("a vector with this title");
        assert!(vector.name == Name::Decode);
        let mut tally = Tally::default();
        tally.edges_read(&vector.input.bytes, &vector.expected);
        let had = seen(&tally.missing(), |name| name.contains(" before had "));
        let expected =
            ["smaller", "larger"].map(|one| format!("frame read, {name} before had a {one} one"));
        assert_eq!(had, expected);
    }
}

/// Numbers that aren't those of the samples are no frame read.
#[test]
fn wrong_numbers_are_not_counted() {
    let title = "Ask 3: the first distance alone is the largest";
    let found = vectors::all().into_iter().find(|one| one.title == title);
    let samples = found.expect("a vector with this title").input.bytes;
    let counted = |output: &str| {
        let mut tally = Tally::default();
        tally.edges_read(&samples, output.as_bytes());
        seen(&tally.missing(), |name| name.contains("stands alone: the "))
    };
    let first = "frame read, the largest distance stands alone: the first";
    assert_eq!(counted("695 frame 55555555 20 23\n"), [first]);
    assert_eq!(counted("695 frame 55555555 8 23\n"), [""; 0]);
    assert_eq!(counted("695 frame 55555555 20 20\n"), [""; 0]);
}
