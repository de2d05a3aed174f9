//! 02's Ask 2: the questions on ids 0 and 70 carry the thermostat's own status, or are refused with
//! exception 04 where none went out; all other questions stay.

use super::bench::{after, ask, asking, both_17, message_41, read_17, sent};
use super::bench::{ID_0_0300, ID_0_0312, ID_70_0100, ID_70_0155};
use crate::gateway::{Event, Gateway};
use crate::modbus::{closed, Wrapping};

#[test]
fn no_status_is_04_at_once_for_each_line_code_and_page() {
    let mut gateway = Gateway::fresh(Wrapping::Serial);
    let fresh = gateway.lines;
    for unit in 1..=4 {
        for page in 0..=0xFFu16 {
            for offset in [page << 8, page << 8 | 0x46] {
                for message in asking(unit, offset) {
                    assert_eq!(ask(&mut gateway, &message), Some(0x04));
                }
            }
        }
    }
    assert!(gateway.lines == fresh && gateway.order.is_none());
    assert_eq!(sent(&mut gateway, 200), []);
}

/// "As the high byte, that of the last READ-DATA with this id .. low byte 0."
#[test]
fn the_high_byte_goes_out_for_each_line_code_and_page() {
    for (status, low, word) in [
        (ID_0_0312, 0x00, ID_0_0300),
        (ID_70_0155, 0x46, ID_70_0100),
        // 00 is a status as any other.
        (0x8000_0001, 0x00, 0x0000_0000),
        (0x0046_0080, 0x46, 0x8046_0000),
        (0x0000_FFFF, 0x00, 0x0000_FF00),
    ] {
        for line in 1..=4 {
            for page in [0x0000, 0x0100, 0x0200, 0x0500, 0xFF00] {
                for message in asking(line, page | low) {
                    let mut gateway = after(&[(line, status)]);
                    assert_eq!(ask(&mut gateway, &message), None);
                    assert_eq!(sent(&mut gateway, 1), [(line, word)]);
                }
            }
        }
    }
}

/// "Code 41 and 17 with a value stay", and so does every other id, 70 in hexadecimal among them.
#[test]
fn all_else_stays() {
    let known = [(1, ID_0_0312), (1, ID_70_0155)];
    for mut gateway in [Gateway::fresh(Wrapping::Serial), after(&known)] {
        for (message, word) in [
            (message_41(1, 0, 0x0102), 0x0000_0102),
            (message_41(1, 70, 0x0000), 0x8046_0000),
            (both_17(1, 0, 0x0000), 0x0000_0000),
            (both_17(1, 70, 0x1234), 0x0046_1234),
            (closed(&[1, 0x06, 0, 0, 0, 0]), 0x9000_0000),
            (closed(&[1, 0x10, 0, 70, 0, 1, 2, 0, 0]), 0x1046_0000),
            // Only the read's offset is looked at.
            (read_17(1, 0x4619, 0x0000), 0x8019_0000),
            (read_17(1, 0x0019, 0x0046), 0x8019_0000),
        ] {
            assert_eq!(ask(&mut gateway, &message), None);
            assert_eq!(sent(&mut gateway, 1075), [(1, word)]);
        }
    }
    let mut gateway = Gateway::fresh(Wrapping::Serial);
    for id in (1..=255).filter(|id| *id != 70) {
        for message in asking(4, id) {
            assert_eq!(ask(&mut gateway, &message), None);
            let word = u32::from(id) << 16;
            let parity = id.count_ones() % 2 << 31;
            assert_eq!(sent(&mut gateway, 1075), [(4, word | parity)]);
        }
    }
}

/// "After the offset check and before 06."
#[test]
fn the_order_of_checks() {
    let mut gateway = after(&[(2, ID_0_0312)]);
    assert_eq!(gateway.message(&asking(1, 0)[0], 15), Event::Refused(15));
    for busy in [false, true] {
        // Two registers, and unit 5, whose own register it is.
        let two = closed(&[1, 0x03, 0, 0, 0, 2]);
        assert_eq!(ask(&mut gateway, &two), Some(0x03));
        assert_eq!(ask(&mut gateway, &asking(5, 0)[0]), Some(0x02));
        assert_eq!(ask(&mut gateway, &asking(5, 0)[2]), Some(0x01));
        for (unit, offset) in [(1, 0x00), (1, 0x46), (2, 0x46), (3, 0x00)] {
            for message in asking(unit, offset) {
                assert_eq!(ask(&mut gateway, &message), Some(0x04));
            }
        }
        let given = asking(2, 0).map(|message| ask(&mut gateway.clone(), &message));
        assert_eq!(given, [busy.then_some(0x06); 3]);
        // Under way on one of the lines that were asked and on another than the rest.
        let order = closed(&[2, 0x03, 0, 25, 0, 1]);
        assert_eq!(ask(&mut gateway, &order), busy.then_some(0x06));
    }
    assert_eq!(sent(&mut gateway, 875), [(2, 0x8019_0000)]);
}

#[test]
fn the_outcomes_are_those_of_a_read() {
    let outcome = |answer: Option<u32>| {
        let mut gateway = after(&[(1, ID_0_0312)]);
        ask(&mut gateway, &asking(1, 0)[0]);
        sent(&mut gateway, 875);
        let event = match answer {
            Some(frame) => gateway.boiler(1, frame, 16),
            None => gateway.tick(16).remove(0),
        };
        match event {
            Event::Outcome { bytes, wait, .. } => (bytes, wait),
            other => panic!("{other:?}"),
        }
    };
    let normal = closed(&[1, 0x03, 2, 0x03, 0x0A]);
    assert_eq!(outcome(Some(0xC000_030A)), (normal, 875));
    assert_eq!(outcome(Some(0x6000_0000)), (closed(&[1, 0x83, 0x04]), 875));
    assert_eq!(outcome(Some(0xF000_0000)), (closed(&[1, 0x83, 0x02]), 875));
    assert_eq!(outcome(None), (closed(&[1, 0x83, 0x0B]), 876));
}
