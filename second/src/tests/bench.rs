//! A box on the bench for the tests of the status and of the numbers carried along: requests by the
//! byte, what they are given, and what goes out.

use crate::frame::Frame;
use crate::gateway::{Event, Gateway};
use crate::modbus::{closed, Wrapping};

// READ-DATA of the two ids with their values, the parity bit counted by hand.
pub const ID_0_0312: u32 = 0x0000_0312;
pub const ID_0_0300: u32 = 0x0000_0300;
pub const ID_0_0701: u32 = 0x0000_0701;
pub const ID_0_0700: u32 = 0x8000_0700;
pub const ID_70_0155: u32 = 0x0046_0155;
pub const ID_70_0100: u32 = 0x0046_0100;

/// "Codes 03 and 04 and code 17 with a read alone", at this offset.
pub fn asking(unit: u8, offset: u16) -> [Vec<u8>; 3] {
    let [high, low] = offset.to_be_bytes();
    [
        closed(&[unit, 0x03, high, low, 0, 1]),
        closed(&[unit, 0x04, high, low, 0, 1]),
        read_17(unit, offset, 0xABCD),
    ]
}

pub fn read_17(unit: u8, offset: u16, other: u16) -> Vec<u8> {
    let ([high, low], [oh, ol]) = (offset.to_be_bytes(), other.to_be_bytes());
    closed(&[unit, 0x17, high, low, 0, 1, oh, ol, 0, 0, 0])
}

pub fn message_41(unit: u8, id: u8, value: u16) -> Vec<u8> {
    let [high, low] = value.to_be_bytes();
    closed(&[unit, 0x41, 0, id, high, low, 0, 0])
}

pub fn both_17(unit: u8, id: u8, value: u16) -> Vec<u8> {
    let [high, low] = value.to_be_bytes();
    closed(&[unit, 0x17, 0, id, 0, 1, 0, id, 0, 1, 2, high, low])
}

/// What a message is given: nothing where it is accepted, else its exception.
pub fn ask(gateway: &mut Gateway, message: &[u8]) -> Option<u8> {
    match gateway.message(message, 16) {
        Event::Accepted { .. } => None,
        Event::Reply { bytes } => {
            assert_eq!(bytes, closed(&[message[0], message[1] | 0x80, bytes[2]]));
            Some(bytes[2])
        }
        other => panic!("{other:?}"),
    }
}

/// The words that go out in so many ticks, each with its line.
pub fn sent(gateway: &mut Gateway, ticks: u32) -> Vec<(u8, u32)> {
    let frames = sent_frames(gateway, ticks).into_iter();
    frames.map(|(line, frame)| (line, frame.word)).collect()
}

/// The same as frames.
pub fn sent_frames(gateway: &mut Gateway, ticks: u32) -> Vec<(u8, Frame)> {
    let mut all = Vec::new();
    for _ in 0..ticks {
        for event in gateway.tick(16) {
            if let Event::Sent { line, frame, .. } = event {
                all.push((line, frame));
            }
        }
    }
    all
}

/// A box in which these frames of thermostats went out, one after the other, each without an answer;
/// all four lines have rested.
pub fn after(frames: &[(u8, u32)]) -> Gateway {
    let mut gateway = Gateway::fresh(Wrapping::Serial);
    for frame in frames {
        gateway.thermostat(frame.0, frame.1);
        assert_eq!(sent(&mut gateway, 975), [*frame]);
    }
    sent(&mut gateway, 100);
    gateway
}

/// A TCP message or reply by the byte, apart from the one that the box writes.
pub fn tcp(transaction: u16, body: &[u8]) -> Vec<u8> {
    let (high, low) = ((transaction >> 8) as u8, transaction as u8);
    let head = [high, low, 0, 0, 0, body.len() as u8];
    [&head, body].concat()
}
