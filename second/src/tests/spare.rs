//! 02, Ask 1: "Frames with a spare bit set are to be refused at the line, from either side".

use crate::gateway::{Event, Gateway};
use crate::line::{Answered, Line, State};
use crate::modbus::{self, Wrapping};
use crate::programs::{self, Name};
use crate::samples;
use crate::status::Question;
use crate::word;

const READ_25: u32 = 0x8019_0000;
const READ_26: u32 = 0x801A_0000;
const ACK_25: u32 = 0x4019_3280;
const ACK_26: u32 = 0x401A_3280;

/// The frame with each of the 15 spare values that aren't zero, of even parity.
fn spoilt(frame: u32) -> [u32; 15] {
    std::array::from_fn(|place| word::with_even_parity(frame | (place as u32 + 1) << 24))
}

/// Lines of every kind: at rest, with a frame held, talking for a thermostat and for an order, at
/// ages before, inside and behind the answer's.
fn lines() -> Vec<Line> {
    let mut held = Line::fresh();
    held.thermostat(READ_25).unwrap();
    let mut ordered = Line::fresh();
    ordered.order(Question::Word(READ_25));
    let mut all = vec![Line::fresh()];
    for mut line in [held, ordered] {
        for tick in 0..=975 {
            if [0, 99, 100, 183, 184, 900, 974, 975].contains(&tick) {
                all.push(line);
            }
            line.tick();
        }
    }
    all
}

#[test]
fn a_pair_of_flips_passes_where_neither_is_spare() {
    for good in [READ_25, ACK_25, 0, 0xF0FF_FFFF] {
        assert_eq!(word::check_at_the_line(good), Ok(()));
        for first in 0..32 {
            let one = good ^ 1 << first;
            assert_eq!(word::check_at_the_line(one), Err(5));
            for second in (0..32).filter(|second| *second != first) {
                let seen = [first, second].iter().any(|bit| (24..28).contains(bit));
                let expected = if seen { Err(16) } else { Ok(()) };
                assert_eq!(word::check_at_the_line(one ^ 1 << second), expected);
            }
        }
    }
}

#[test]
fn the_orders_are_15_9_5_16_6_7_8_and_9_5_16_6() {
    let mut gateway = Gateway::fresh(Wrapping::Serial);
    let request = modbus::closed(&[2, 3, 0, 25, 0, 1]);
    gateway.message(&request, 16);
    for _ in 0..183 {
        gateway.tick(16);
    }
    // Everything is wrong at first; then one thing after the other is put right.
    let odd = spoilt(READ_26)[0] ^ 1 << 31;
    assert_eq!(gateway.boiler(5, odd, 15), Event::Refused(15));
    assert_eq!(gateway.boiler(5, odd, 16), Event::Refused(9));
    assert_eq!(gateway.boiler(2, odd, 16), Event::Refused(5));
    assert_eq!(
        gateway.boiler(2, spoilt(READ_26)[0], 16),
        Event::Refused(16)
    );
    assert_eq!(gateway.boiler(2, READ_26, 16), Event::Refused(6));
    assert_eq!(gateway.boiler(2, spoilt(ACK_26)[0], 16), Event::Refused(16));
    assert_eq!(gateway.boiler(2, ACK_26, 16), Event::Refused(7));
    gateway.tick(16);
    assert_eq!(gateway.boiler(2, spoilt(ACK_26)[0], 16), Event::Refused(16));
    assert_eq!(gateway.boiler(2, ACK_26, 16), Event::Refused(8));
    let odd = spoilt(ACK_25)[0] ^ 1 << 31;
    assert_eq!(gateway.thermostat(0, odd), Event::Refused(9));
    assert_eq!(gateway.thermostat(2, odd), Event::Refused(5));
    assert_eq!(gateway.thermostat(2, spoilt(ACK_25)[0]), Event::Refused(16));
    assert_eq!(gateway.thermostat(2, ACK_25), Event::Refused(6));
}

#[test]
fn sixteen_has_no_effect_on_any_line() {
    for before in lines() {
        let mut line = before;
        for frame in spoilt(READ_25).into_iter().chain(spoilt(ACK_25)) {
            assert_eq!(line.boiler(frame), Answered::Refused(16));
            assert_eq!(line.thermostat(frame), Err(16));
            assert_eq!(line, before);
        }
    }
}

/// "A matching frame in demand 3 is from then on one that passes this too."
#[test]
fn spare_bits_spoil_a_match_and_the_good_answer_still_counts() {
    assert!(word::matches(READ_25, ACK_25));
    for frame in spoilt(ACK_25) {
        assert!(!word::matches(READ_25, frame));
    }
    for mut line in lines() {
        let mut untouched = line;
        for frame in spoilt(ACK_25) {
            line.boiler(frame);
        }
        assert_eq!(line.boiler(ACK_25), untouched.boiler(ACK_25));
        assert_eq!(line, untouched);
    }
}

#[test]
fn the_held_frame_stays_and_no_later_one_is_held() {
    let mut line = Line::fresh();
    line.thermostat(READ_25).unwrap();
    for _ in 0..184 {
        assert_eq!(line.thermostat(spoilt(READ_26)[14]), Err(16));
        line.tick();
    }
    assert_eq!(line.thermostat(spoilt(READ_25)[0]), Err(16));
    assert_eq!(line.boiler(ACK_25), Answered::Passed(ACK_25.into()));
    assert_eq!(line.state, State::Rests(0));
}

/// "The listing stays", and so do the sample writer, the reader and what is built.
#[test]
fn spare_bits_are_looked_at_by_the_line_alone() {
    for frame in spoilt(ACK_25) {
        let listed = programs::run(Name::List, &frame.to_be_bytes().to_vec().into());
        assert_eq!(listed, b"4 25 3280 real 12928\n");
        let all = [vec![0; 24], samples::write(frame).to_vec()].concat();
        let read = format!("694 frame {frame:08X} 20 20\n");
        assert_eq!(programs::run(Name::Decode, &all.into()), read.into_bytes());
    }
    for kind in 0..=7 {
        for id in 0..=255 {
            let built = word::build(kind, id, 0xFFFF).unwrap();
            assert_eq!(word::check_at_the_line(built), Ok(()));
        }
    }
}
