//! 02's Ask 4, new boxes in a script: "time starts again at 0, all lines fresh, no order waits, the room
//! stays as it was set".

use crate::programs::{self, Name};

fn trace(script: &str) -> String {
    let output = programs::run(Name::Replay, &script.into());
    String::from_utf8(output).unwrap()
}

/// Boxes with all that one can have under way.
const BEFORE: [&str; 6] = [
    "",
    "tick 5000\n",
    "modbus 01030019000155CD\n",
    "modbus 01030019000155CD\ntick 184\nthermostat 1 80190000 18 23\n",
    "thermostat 1 00000312\nthermostat 2 80460100\ntick 184\nthermostat 2 801A0000\n",
    "fresh tcp\nmodbus 000100000006030300190001\ntick 300\nthermostat 3 00000312\n",
];

/// A day of a box of each form, begun at its start.
const AFTER: [&str; 2] = [
    "fresh serial\nboiler 1 40193280\nmodbus 010300000001840A\nmodbus 01030019000155CD\n\
     thermostat 1 801A0000\ntick 300\nboiler 1 401A0000\ntick 1000\nmodbus 000100000006050300760001\n",
    "fresh tcp\nboiler 1 40193280\nmodbus 000100000006010300000001\nmodbus 000200000006010300190001\n\
     thermostat 1 801A0000\ntick 300\nboiler 1 401A0000\ntick 1000\nmodbus 0503007600016454\n",
];

/// The trace of a box doesn't depend on those before it.
#[test]
fn a_new_box_knows_nothing_of_those_before_it() {
    for after in AFTER {
        let alone = trace(after);
        assert_eq!(alone.lines().count(), 9, "{alone}");
        for before in BEFORE {
            let earlier = trace(before);
            assert_eq!(
                trace(&format!("{before}{after}")),
                format!("{earlier}{alone}")
            );
            let twice = format!("{before}{after}{after}");
            assert_eq!(trace(&twice), format!("{earlier}{alone}{alone}"));
        }
    }
}

#[test]
fn a_script_begins_with_a_serial_box() {
    let [serial, _] = AFTER;
    let without = serial.strip_prefix("fresh serial\n").unwrap();
    assert_eq!(trace(without), trace(serial));
}

#[test]
fn the_room_stays() {
    for form in ["serial", "tcp"] {
        for (room, expected) in [(15, "0 refused 15\n"), (16, "0 refused 11\n")] {
            let script = format!("room {room}\nfresh {form}\nmodbus\n");
            assert_eq!(trace(&script), expected);
        }
    }
    // As it was at the start, where none was set.
    assert_eq!(trace("fresh tcp\nmodbus\n"), "0 refused 11\n");
}
