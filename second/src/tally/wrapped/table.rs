//! The counts of what stood around the messages by name; each must have been seen.

use std::ops::RangeInclusive;

use super::Wrapped;
use crate::modbus::Wrapping;
use crate::refusals;
use crate::tally::entry::Entry;
use crate::tally::modbus::FORMS;
use crate::tally::{Tally, Thing};

type Named = (String, Wrapped);

/// A shape of a protocol that isn't 0 by name, and which have it.
type ProtocolShape = (&'static str, fn(u16) -> bool);
/// The same of a wrong length, beside the right one.
type LengthShape = (&'static str, fn(u16, u16) -> bool);

#[rustfmt::skip]
pub const PROTOCOLS: [ProtocolShape; 6] = [
    ("0001", |protocol| protocol == 1),
    ("0100", |protocol| protocol == 0x0100),
    ("FFFF", |protocol| protocol == 0xFFFF),
    ("low byte alone", |protocol| protocol & 0xFF00 == 0),
    ("high byte alone", |protocol| protocol & 0x00FF == 0),
    ("both bytes", |protocol| protocol & 0xFF00 != 0 && protocol & 0x00FF != 0),
];

#[rustfmt::skip]
pub const LENGTHS: [LengthShape; 10] = [
    ("one less, without the unit", |length, right| length == right - 1),
    ("one more", |length, right| length == right + 1),
    ("two less, the data alone", |length, right| length == right - 2),
    ("two more, with a checksum", |length, right| length == right + 2),
    ("six more, the whole message", |length, right| length == right + 6),
    ("its high byte alone", |length, right| length & 0xFF == right & 0xFF),
    ("its high byte 01", |length, right| length == right | 0x0100),
    ("its bytes swapped", |length, right| length == right.swap_bytes()),
    ("0000", |length, _| length == 0),
    ("FFFF", |length, _| length == 0xFFFF),
];

/// Numbers of bytes with the checksum or the length field right, and wrong. A message that is too short
/// for such a field counts as right.
#[rustfmt::skip]
const BYTES: [(Wrapping, bool, &[RangeInclusive<usize>]); 4] = [
    (Wrapping::Serial, true, &[0..=5, 255..=261]),
    (Wrapping::Serial, false, &[4..=5, 255..=258]),
    (Wrapping::Tcp, true, &[0..=9, 255..=262]),
    (Wrapping::Tcp, false, &[6..=9, 258..=262]),
];

#[rustfmt::skip]
const NAMES: [(&str, Wrapped); 12] = [
    ("serial: a message of the TCP form: refusal 12", Wrapped::Foreign(Wrapping::Serial, refusals::MODBUS_CHECKSUM)),
    ("serial: a message of the TCP form, its checksum right: refusal 13", Wrapped::Foreign(Wrapping::Serial, refusals::MODBUS_UNIT)),
    ("serial: a message of the TCP form, its checksum right: refusal 14", Wrapped::Foreign(Wrapping::Serial, refusals::MODBUS_FUNCTION)),
    ("serial: a message of both forms: a reply at once", Wrapped::Both(Wrapping::Serial, false)),
    ("serial: a TCP message with a checksum behind it: a reply at once", Wrapped::Closed(Wrapping::Serial)),
    ("TCP: a message of the serial form: refusal 11", Wrapped::Foreign(Wrapping::Tcp, refusals::MODBUS_LENGTH)),
    ("TCP: a message of the serial form: refusal 17", Wrapped::Foreign(Wrapping::Tcp, refusals::TCP_PROTOCOL)),
    ("TCP: a message of the serial form: refusal 18", Wrapped::Foreign(Wrapping::Tcp, refusals::TCP_LENGTH)),
    ("TCP: a message of the serial form: refusal 13", Wrapped::Foreign(Wrapping::Tcp, refusals::MODBUS_UNIT)),
    ("TCP: a message of both forms: accepted", Wrapped::Both(Wrapping::Tcp, true)),
    ("TCP: a message of both forms: a reply at once", Wrapped::Both(Wrapping::Tcp, false)),
    ("TCP: a message with a checksum behind it: refusal 18", Wrapped::Closed(Wrapping::Tcp)),
];

/// Each two of a form's refusals.
fn before() -> Vec<Named> {
    let mut all = Vec::new();
    for (form, name, refusals) in FORMS {
        for (place, first) in refusals.iter().enumerate() {
            for second in &refusals[place + 1..] {
                let name = format!("{name}: {first} for a message, else {second}");
                all.push((name, Wrapped::Before(form, *first, *second)));
            }
        }
    }
    all
}

fn shapes() -> Vec<Named> {
    let mut all = Vec::new();
    for (place, (shape, _)) in PROTOCOLS.iter().enumerate() {
        let name = format!("TCP: 17, the protocol: {shape}");
        all.push((name, Wrapped::Protocol(place)));
    }
    for (place, (shape, _)) in LENGTHS.iter().enumerate() {
        let name = format!("TCP: 18, the length: {shape}");
        all.push((name, Wrapped::Length(place)));
    }
    all
}

fn bytes() -> Vec<Named> {
    let mut all = Vec::new();
    for (form, right, ranges) in BYTES {
        let (name, field, number, good) = match form {
            Wrapping::Serial => ("serial", "checksum", refusals::MODBUS_CHECKSUM, 4..=256),
            Wrapping::Tcp => ("TCP", "length", refusals::TCP_LENGTH, 8..=260),
        };
        for count in ranges.iter().cloned().flatten() {
            let is = if right { "right" } else { "wrong" };
            let given = match (good.contains(&count), right) {
                (false, _) => format!("refusal {}", refusals::MODBUS_LENGTH),
                (true, false) => format!("refusal {number}"),
                (true, true) => "read".to_string(),
            };
            let name = format!("{name}: a message of {count} bytes, its {field} {is}: {given}");
            all.push((name, Wrapped::Bytes(form, count, right)));
        }
    }
    all
}

impl Tally {
    pub(in crate::tally) fn wrapped_entries(&self) -> Vec<Entry> {
        let plain = NAMES.map(|(name, wrapped)| (name.to_string(), wrapped));
        let all = [before(), shapes(), bytes(), plain.into()];
        all.into_iter()
            .flatten()
            .map(|(name, wrapped)| Entry::once(name, self.of(Thing::Wrapped(wrapped))))
            .collect()
    }
}
