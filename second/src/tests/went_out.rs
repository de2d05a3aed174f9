//! 02's Ask 2: which frame is "the last READ-DATA with this id that went out for the line's thermostat
//! since fresh".

use super::bench::{after, ask, asking, both_17, message_41, sent};
use super::bench::{ID_0_0300, ID_0_0312, ID_0_0700, ID_0_0701, ID_70_0100, ID_70_0155};
use crate::gateway::{Event, Gateway};
use crate::modbus::{closed, Wrapping};

#[test]
fn a_held_frame_is_not_out_and_a_talk_that_started_is() {
    let [question, ..] = asking(1, 0);
    let mut gateway = Gateway::fresh(Wrapping::Serial);
    gateway.thermostat(1, ID_0_0312);
    assert_eq!(ask(&mut gateway, &question), Some(0x04));
    assert_eq!(sent(&mut gateway, 99), []);
    assert_eq!(ask(&mut gateway, &question), Some(0x04));
    // Replaced before it went out, it never was.
    let mut replaced = gateway.clone();
    replaced.thermostat(1, ID_70_0155);
    assert_eq!(sent(&mut replaced, 1), [(1, ID_70_0155)]);
    assert_eq!(ask(&mut replaced, &question), Some(0x04));
    // From the tick on that starts its talk it is out, however that ends.
    assert_eq!(sent(&mut gateway, 1), [(1, ID_0_0312)]);
    assert_eq!(ask(&mut gateway.clone(), &question), None);
    assert_eq!(sent(&mut gateway, 874), []);
    assert_eq!(ask(&mut gateway.clone(), &question), None);
    let mut unanswered = gateway.clone();
    assert_eq!(sent(&mut unanswered, 1), []);
    assert_eq!(ask(&mut unanswered, &question), None);
    assert_eq!(
        gateway.boiler(1, 0xC000_030A, 16),
        Event::Dropped { line: 1 }
    );
    for mut ended in [gateway, unanswered] {
        ask(&mut ended, &question);
        assert_eq!(sent(&mut ended, 100), [(1, ID_0_0300)]);
    }
}

/// "Looked up when the order's own frame goes out": 07 goes out between, or is held only.
#[test]
fn the_byte_is_that_of_the_orders_own_tick() {
    let [question, ..] = asking(1, 0);
    let other = closed(&[1, 0x03, 0, 25, 0, 1]);
    for modbus_last in [true, false] {
        let mut gateway = after(&[(1, ID_0_0312)]);
        if modbus_last {
            ask(&mut gateway, &other);
            assert_eq!(sent(&mut gateway, 976), [(1, 0x8019_0000)]);
        }
        gateway.thermostat(1, ID_0_0701);
        assert_eq!(ask(&mut gateway, &question), None);
        let expected = match modbus_last {
            true => [(1, ID_0_0701), (1, ID_0_0700)],
            false => [(1, ID_0_0300), (1, ID_0_0701)],
        };
        assert_eq!(sent(&mut gateway, 1075), expected);
    }
}

#[test]
fn ids_and_lines_are_apart() {
    for (id, other, status) in [(0x00, 0x46, ID_0_0312), (0x46, 0x00, ID_70_0155)] {
        let mut gateway = after(&[(2, status)]);
        for line in 1..=4 {
            for message in asking(line, other) {
                assert_eq!(ask(&mut gateway, &message), Some(0x04));
            }
        }
        for line in [1, 3, 4] {
            assert_eq!(ask(&mut gateway, &asking(line, id)[0]), Some(0x04));
        }
    }
    let mut gateway = after(&[(2, ID_0_0312), (2, ID_70_0155), (3, ID_0_0701)]);
    for (unit, offset, word) in [
        (2, 0x00, ID_0_0300),
        (2, 0x46, ID_70_0100),
        (3, 0x00, ID_0_0700),
    ] {
        assert_eq!(ask(&mut gateway, &asking(unit, offset)[1]), None);
        assert_eq!(sent(&mut gateway, 975), [(unit, word)]);
    }
}

/// "READ-DATA .. that went out for the line's thermostat": neither its other types nor an order's.
#[test]
fn other_frames_do_not_count() {
    let [question, ..] = asking(1, 0);
    // WRITE-DATA and INVALID-DATA with 0800.
    let others = [0x1000_0800, 0x2000_0800].map(|frame| (1, frame));
    assert_eq!(ask(&mut after(&others), &question), Some(0x04));
    let mut gateway = after(&[(1, ID_0_0312), others[0], others[1]]);
    ask(&mut gateway, &question);
    assert_eq!(sent(&mut gateway, 1), [(1, ID_0_0300)]);
    for order in [message_41(1, 0, 0x0803), both_17(1, 0, 0x0803)] {
        for status in [&[][..], &[(1, ID_0_0312)]] {
            let mut gateway = after(status);
            assert_eq!(ask(&mut gateway, &order), None);
            assert_eq!(sent(&mut gateway, 1), [(1, 0x8000_0803)]);
            sent(&mut gateway, 975);
            let given = ask(&mut gateway, &question);
            assert_eq!(given, status.is_empty().then_some(0x04));
            let own = status.iter().map(|_| (1, ID_0_0300));
            assert_eq!(sent(&mut gateway, 1), own.collect::<Vec<_>>());
        }
    }
    // Nor does what was sent for the box itself.
    let mut gateway = after(&[(1, ID_0_0312)]);
    for _ in 0..2 {
        ask(&mut gateway, &question);
        assert_eq!(sent(&mut gateway, 975), [(1, ID_0_0300)]);
    }
}

/// 00 is remembered as any other byte, and the boiler's answer isn't looked at.
#[test]
fn the_last_one_counts_and_never_the_boilers() {
    let [question, ..] = asking(1, 0);
    let mut gateway = after(&[(1, ID_0_0701), (1, ID_0_0312), (1, 0x8000_0001)]);
    ask(&mut gateway, &question);
    assert_eq!(sent(&mut gateway, 1), [(1, 0x0000_0000)]);
    let mut gateway = after(&[(1, ID_0_0701)]);
    gateway.thermostat(1, ID_0_0312);
    sent(&mut gateway, 85);
    // READ-ACK with 0800.
    let answer = gateway.boiler(1, 0x4000_0800, 16);
    assert!(matches!(answer, Event::Passed { .. }));
    ask(&mut gateway, &question);
    assert_eq!(sent(&mut gateway, 100), [(1, ID_0_0300)]);
}
