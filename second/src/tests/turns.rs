//! A line's turns and waiting times, and the box around four of them.

use crate::gateway::{Event, Gateway};
use crate::line::{Answered, Line, Owner, State, Ticked};
use crate::modbus::{self, Wrapping};
use crate::status::Question;

const READ_25: u32 = 0x8019_0000;
const ACK_25: u32 = 0x4019_3280;

/// A line whose order has just been sent.
fn talking() -> Line {
    let mut line = Line::fresh();
    line.order(Question::Word(READ_25));
    for _ in 0..99 {
        assert_eq!(line.tick(), Ticked::Nothing);
    }
    assert_eq!(line.tick(), Ticked::Sent(READ_25.into()));
    line
}

#[test]
fn p9_a_match_at_83_and_84() {
    let mut line = talking();
    for _ in 0..83 {
        line.tick();
    }
    let before = line;
    assert_eq!(line.boiler(ACK_25), Answered::Refused(7));
    assert_eq!(line, before);
    line.tick();
    assert_eq!(
        line.boiler(ACK_25),
        Answered::Outcome {
            word: ACK_25,
            wait: 184
        }
    );
    assert_eq!(line.state, State::Rests(0));
}

#[test]
fn p10_a_match_at_874_and_tick_875() {
    let mut line = talking();
    for _ in 0..874 {
        assert_eq!(line.tick(), Ticked::Nothing);
    }
    let mut answered = line;
    assert_eq!(
        answered.boiler(ACK_25),
        Answered::Outcome {
            word: ACK_25,
            wait: 974
        }
    );
    assert_eq!(line.tick(), Ticked::NoAnswer { wait: 975 });
    assert_eq!(line.boiler(ACK_25), Answered::Refused(7));
}

#[test]
fn p12_the_longest_wait() {
    let mut gateway = Gateway::fresh(Wrapping::Serial);
    assert!(matches!(gateway.thermostat(1, READ_25), Event::Held { .. }));
    let request = modbus::closed(&[1, 3, 0, 26, 0, 1]);
    assert!(matches!(
        gateway.message(&request, 16),
        Event::Accepted { .. }
    ));
    for tick in 1..1950 {
        let events = gateway.tick(16);
        assert_eq!(
            events.len(),
            usize::from(tick == 100 || tick == 1075),
            "tick {tick}"
        );
    }
    let events = gateway.tick(16);
    assert!(matches!(
        events[..],
        [Event::Outcome {
            wait: 1950,
            answer: None,
            ..
        }]
    ));
}

#[test]
fn run_thermostat_reply_at_800_and_801() {
    for (ticks, answer) in [
        (800, Answered::Passed(ACK_25.into())),
        (801, Answered::Dropped),
    ] {
        let mut line = Line::fresh();
        for _ in 0..100 {
            line.tick();
        }
        assert_eq!(line.thermostat(READ_25), Ok(()));
        for _ in 0..ticks {
            line.tick();
        }
        assert_eq!(line.last, Owner::Thermostat);
        assert_eq!(line.boiler(ACK_25), answer);
    }
}

#[test]
fn a_refused_call_leaves_the_box_as_it_was() {
    let mut gateway = Gateway::fresh(Wrapping::Serial);
    gateway.thermostat(2, READ_25);
    let lines = gateway.lines;
    assert_eq!(gateway.tick(15), [Event::Refused(15)]);
    assert_eq!(gateway.boiler(5, 1, 15), Event::Refused(15));
    assert_eq!(gateway.boiler(5, 1, 16), Event::Refused(9));
    assert_eq!(gateway.boiler(2, 1, 16), Event::Refused(5));
    assert_eq!(gateway.boiler(2, READ_25, 16), Event::Refused(6));
    assert_eq!(gateway.boiler(2, ACK_25, 16), Event::Refused(7));
    assert_eq!(gateway.thermostat(0, 1), Event::Refused(9));
    assert_eq!(gateway.thermostat(2, 1), Event::Refused(5));
    assert_eq!(gateway.thermostat(2, ACK_25), Event::Refused(6));
    assert_eq!(gateway.message(&[], 15), Event::Refused(15));
    assert_eq!(gateway.message(&[], 16), Event::Refused(11));
    assert_eq!(gateway.lines, lines);
}
