//! The counts of 02's Ask 4 are told apart.

use super::tally::missing;
use crate::generator::fresh_lines::WRONG;
use crate::tally::Tally;

/// Of the names with this beginning, those that aren't missing, in the table's order.
fn seen(script: &str, beginning: &str) -> Vec<String> {
    let missing = missing(script);
    let mut all = Tally::default().missing();
    all.retain(|name| name.starts_with(beginning) && !missing.contains(name));
    all.iter()
        .map(|name| name[beginning.len()..].to_string())
        .collect()
}

fn names(names: &[&str]) -> Vec<String> {
    names.iter().map(|name| name.to_string()).collect()
}

const READ_25: &str = "0006010300190001";

#[test]
fn each_form_is_counted_by_itself() {
    let (serial, tcp) = (
        "modbus 01030019000155CD\n",
        format!("modbus A1B20000{READ_25}\n"),
    );
    let accepted = ["accepted: 03"];
    let rows = |script: &str, form: &str| {
        let mut all = seen(script, form);
        all.retain(|name| name.contains("03") || name.contains("refusal"));
        all
    };
    assert_eq!(rows(serial, "serial: "), accepted);
    assert_eq!(rows(serial, "TCP: "), [""; 0]);
    let tcp_box = format!("fresh tcp\n{tcp}");
    assert_eq!(rows(&tcp_box, "TCP: "), accepted);
    assert_eq!(rows(&tcp_box, "serial: "), [""; 0]);
    let answered = format!("{tcp_box}tick 184\nboiler 1 40193280\n");
    let expected = [
        "accepted: 03",
        "normal reply: 03",
        "outcome of 03: acknowledged",
    ];
    assert_eq!(rows(&answered, "TCP: "), expected);
    let refused = format!("fresh tcp\n{serial}fresh serial\n{tcp}");
    let expected = [
        "refusal 17 for a message",
        "a message of the serial form: refusal 17",
    ];
    assert_eq!(rows(&refused, "TCP: "), expected);
    let expected = [
        "refusal 12 for a message",
        "a message of the TCP form: refusal 12",
    ];
    assert_eq!(rows(&refused, "serial: "), expected);
}

/// A message in a TCP box, what it is refused with and before what, and what is wrong before the unit.
#[rustfmt::skip]
const MESSAGES: [(&str, &[&str], &[&str]); 8] = [
    ("1234000100030083", &["17 for a message, else 18", "17 for a message, else 13", "17 for a message, else 14"],
        &["17, the protocol: 0001", "17, the protocol: low byte alone"]),
    ("12340100000201830000", &["17 for a message, else 18", "17 for a message, else 14"],
        &["17, the protocol: 0100", "17, the protocol: high byte alone"]),
    ("1234FFFF00020103", &[], &["17, the protocol: FFFF", "17, the protocol: both bytes"]),
    ("1234000000010903", &["18 for a message, else 13"], &["18, the length: one less, without the unit"]),
    ("1234000001020183", &["18 for a message, else 14"], &["18, the length: its high byte alone", "18, the length: its high byte 01"]),
    ("1234000002000103", &[], &["18, the length: its bytes swapped"]),
    ("1234000000080103", &[], &["18, the length: six more, the whole message"]),
    ("1234000000020983", &["13 for a message, else 14"], &[]),
];

#[test]
fn what_stands_around_a_message_is_told_apart() {
    for (message, before, wrong) in MESSAGES {
        let script = format!("fresh tcp\nmodbus {message}\n");
        let mut counted = seen(&script, "TCP: ");
        counted.retain(|name| name.contains(", else ") || name.contains(", the "));
        assert_eq!(counted, names(&[before, wrong].concat()), "{message}");
        // Where the room is too small nothing of it was looked at.
        let script = format!("fresh tcp\nroom 15\nmodbus {message}\n");
        let mut counted = seen(&script, "TCP: ");
        counted.retain(|name| !name.starts_with("15 for ") && !name.starts_with("refusal 15 "));
        assert_eq!(counted, [""; 0], "{message}");
    }
}

/// What comes while an order of the transaction A1B2 is under way, and what its reply didn't echo.
#[rustfmt::skip]
const LATER: [(&str, &[&str]); 6] = [
    ("", &[]),
    ("modbus A1B200000006020300190001\n", &[]),
    ("modbus 000100000006020300190001\n", &["the last message's", "a later one's that had exception 06"]),
    ("modbus 000100010006020300190001\n", &["the last message's", "a later one's that 17 refused"]),
    ("modbus 000100000006050300760001\n", &["the last message's", "a later one's that unit 5 answered"]),
    ("modbus 00010000\nmodbus A1B200000006050300760001\n", &["a later one's that 11 refused"]),
];

#[test]
fn whose_transaction_was_not_echoed_is_told_apart() {
    let beginning = "TCP: an outcome's transaction, not ";
    for (later, expected) in LATER {
        let order = format!("fresh tcp\nmodbus A1B20000{READ_25}\n");
        let script = format!("{order}{later}tick 184\n");
        assert_eq!(seen(&script, beginning), [""; 0]);
        let answered = format!("{script}boiler 1 40193280\n");
        assert_eq!(seen(&answered, beginning), names(expected));
        // A new box has no such order.
        let other = format!("{script}fresh tcp\nmodbus 00070000{READ_25}\ntick 975\n");
        assert_eq!(seen(&other, beginning), [""; 0]);
    }
}

/// A box, what comes in the new one, and what that shows.
#[rustfmt::skip]
const BOXES: [(&str, &str, &[&str]); 8] = [
    ("tick 5\n", "modbus\n", &["time starts again"]),
    ("tick 5\n", "tick 5\nmodbus\n", &[]),
    ("modbus 01030019000155CD\n", "modbus 01030019000155CD\n", &["an order is accepted, one waited before"]),
    ("modbus 01030019000155CD\n", "tick 1\nmodbus 01030019000155CD\n", &[]),
    ("modbus 01030019000155CD\ntick 184\n", "boiler 1 40193280\nmodbus 01030019000155CD\n",
        &["time starts again", "an order is accepted, one talked before", "7 for the answer to an order's talk"]),
    ("thermostat 2 80190000\ntick 184\n", "boiler 1 40193280\nboiler 2 40193280\n",
        &["time starts again", "7 for the answer to a thermostat's talk"]),
    ("thermostat 2 80190000\n", "tick 101\n", &["a held frame doesn't go out"]),
    ("room 15\nthermostat 2 80190000\n", "thermostat 2 801A0000\ntick 1\nroom 16\ntick 101\n", &["15 at once, the room stays"]),
];

#[test]
fn what_a_new_box_shows_is_told_apart() {
    for (before, after, expected) in BOXES {
        let script = format!("{before}fresh serial\n{after}");
        assert_eq!(
            seen(&script, "new serial box: "),
            names(expected),
            "{script}"
        );
        assert_eq!(seen(&script, "new TCP box: "), [""; 0]);
        // Without a new box none of it is shown.
        assert_eq!(seen(&format!("{before}{after}"), "new "), [""; 0]);
    }
    let status =
        "thermostat 1 00000312\ntick 100\nfresh tcp\ntick 100\nmodbus 000100000006010300000001\n";
    let expected = ["04 at once, the status went out before"];
    assert_eq!(seen(status, "new TCP box: "), expected);
}

#[test]
fn which_form_follows_which_is_told_apart() {
    for (before, after) in [
        ("serial", "serial"),
        ("serial", "tcp"),
        ("tcp", "serial"),
        ("tcp", "tcp"),
    ] {
        let script = format!("fresh {before}\nfresh {after}\n");
        let name = |form: &str| if form == "tcp" { "TCP" } else { "serial" };
        let first = format!("{} box after a serial box", name(before));
        let second = format!("{} box after a {} box", name(after), name(before));
        let mut counted = seen(&script, "");
        counted.retain(|name| name.contains(" box after a "));
        let mut expected = vec![first, second];
        expected.sort();
        expected.dedup();
        counted.sort();
        assert_eq!(counted, expected);
    }
}

#[test]
fn each_wrong_line_is_counted_by_itself() {
    for line in WRONG {
        let name = format!("{line:?}");
        assert_eq!(seen(&format!("{line}\n"), "wrong line: "), [name]);
    }
    assert_eq!(seen("fresh tcp\nfresh serial\n", "wrong line: "), [""; 0]);
}
