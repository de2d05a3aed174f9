//! 02's Ask 3, the relay: it "carries both along, unjudged".

use super::bench::sent_frames;
use crate::frame::{Edges, Frame, NO_EDGES};
use crate::gateway::{Event, Gateway};
use crate::line::{Answered, Line, Ticked};
use crate::modbus::{closed, Wrapping};

const READ_25: u32 = 0x8019_0000;
const READ_26: u32 = 0x801A_0000;
const ACK_25: u32 = 0x4019_3280;
const ACK_26: u32 = 0x401A_3280;

fn frame(word: u32, smallest: u8, largest: u8) -> Frame {
    let edges = Edges { smallest, largest };
    Frame { word, edges }
}

/// All 65,536 pairs go out with the thermostat's word, and others with the boiler's frame.
#[test]
fn any_two_numbers_go_out_and_on() {
    for (smallest, largest) in (0..=255).flat_map(|one| (0..=255).map(move |other| (one, other))) {
        let mut line = Line::fresh();
        for _ in 0..99 {
            line.tick();
        }
        line.thermostat(frame(READ_25, smallest, largest)).unwrap();
        assert_eq!(line.tick(), Ticked::Sent(frame(READ_25, smallest, largest)));
        for _ in 0..84 {
            line.tick();
        }
        let answer = frame(ACK_25, largest.wrapping_add(1), smallest);
        assert_eq!(line.boiler(answer), Answered::Passed(answer));
    }
}

#[test]
fn they_are_printed_in_decimal_unless_both_are_0() {
    let printed = [(0, 0), (0, 7), (7, 0), (18, 23), (255, 3), (255, 255)]
        .map(|(smallest, largest)| frame(READ_25, smallest, largest).to_string());
    let numbers = ["", " 0 7", " 7 0", " 18 23", " 255 3", " 255 255"];
    assert_eq!(printed, numbers.map(|numbers| format!("80190000{numbers}")));
    assert_eq!(Frame::from(READ_25), frame(READ_25, 0, 0));
}

#[test]
fn a_later_frame_brings_its_own_and_a_refused_one_none() {
    let [older, later, refused] = [(18, 19), (21, 22), (20, 20)];
    for later in [later, (0, 0), (19, 18)] {
        for word in [READ_25, READ_26] {
            let mut gateway = Gateway::fresh(Wrapping::Serial);
            gateway.thermostat(3, frame(READ_25, older.0, older.1));
            gateway.thermostat(3, frame(word, later.0, later.1));
            gateway.thermostat(2, frame(READ_25, 23, 23));
            for (line, word, number) in [
                (5, READ_25, 9),
                (3, READ_25 ^ 1, 5),
                (3, 0x0119_0000, 16),
                (3, ACK_25, 6),
            ] {
                let given = gateway.thermostat(line, frame(word, refused.0, refused.1));
                assert_eq!(given, Event::Refused(number));
            }
            let expected = [
                (2, frame(READ_25, 23, 23)),
                (3, frame(word, later.0, later.1)),
            ];
            assert_eq!(sent_frames(&mut gateway, 100), expected);
        }
    }
}

/// "An order's word has none; a Modbus reply shows none."
#[test]
fn an_order_has_none() {
    let mut gateway = Gateway::fresh(Wrapping::Serial);
    gateway.thermostat(1, frame(READ_25, 19, 22));
    gateway.message(&closed(&[1, 3, 0, 26, 0, 1]), 16);
    assert_eq!(
        sent_frames(&mut gateway, 184),
        [(1, frame(READ_25, 19, 22))]
    );
    gateway.boiler(1, frame(ACK_25, 18, 23), 16);
    gateway.thermostat(1, frame(READ_25, 20, 21));
    assert_eq!(sent_frames(&mut gateway, 184), [(1, READ_26.into())]);
    let Event::Outcome { bytes, .. } = gateway.boiler(1, frame(ACK_26, 22, 23), 16) else {
        panic!("no outcome");
    };
    assert_eq!(bytes, closed(&[1, 3, 2, 0x32, 0x80]));
    assert_eq!(
        sent_frames(&mut gateway, 100),
        [(1, frame(READ_25, 20, 21))]
    );
}

/// What the box says to each event of a day, the numbers left out.
fn a_day(numbers: [(u8, u8); 3]) -> Vec<Event> {
    let [first, second, third] = numbers;
    let of = |word, (smallest, largest)| frame(word, smallest, largest);
    let mut gateway = Gateway::fresh(Wrapping::Serial);
    let mut events = vec![
        gateway.thermostat(1, of(READ_25, first)),
        gateway.thermostat(1, of(READ_25, second)),
        gateway.thermostat(1, of(ACK_25, third)),
        gateway.message(&closed(&[1, 3, 0, 25, 0, 1]), 16),
    ];
    for (ticks, word) in [
        (183, ACK_25),
        (1, ACK_26),
        (0, READ_25),
        (0, ACK_25),
        (184, ACK_25),
    ] {
        events.extend((0..ticks).flat_map(|_| gateway.tick(16)));
        events.push(gateway.boiler(1, of(word, first), 16));
    }
    // Twice the same word: later is later, and the answer is dropped.
    events.push(gateway.thermostat(1, of(READ_25, second)));
    events.extend((0..184).flat_map(|_| gateway.tick(16)));
    events.push(gateway.thermostat(1, of(READ_25, third)));
    events.push(gateway.boiler(1, of(ACK_25, second), 16));
    for event in &mut events {
        if let Event::Sent { frame, .. } | Event::Passed { frame, .. } = event {
            frame.edges = NO_EDGES;
        }
    }
    events
}

#[test]
fn no_decision_looks_at_them() {
    let plain = a_day([(0, 0); 3]);
    let refused = plain
        .iter()
        .filter(|event| matches!(event, Event::Refused(_)));
    assert_eq!(refused.count(), 4);
    for kind in [
        |event: &Event| matches!(event, Event::Passed { .. }),
        |event: &Event| matches!(event, Event::Dropped { .. }),
        |event: &Event| matches!(event, Event::Outcome { .. }),
    ] {
        assert_eq!(plain.iter().filter(|event| kind(event)).count(), 1);
    }
    let pairs = [
        (0, 0),
        (0, 255),
        (255, 0),
        (17, 24),
        (20, 20),
        (23, 18),
        (255, 255),
    ];
    for first in pairs {
        for second in pairs {
            for third in pairs {
                assert_eq!(a_day([first, second, third]), plain);
            }
        }
    }
}
