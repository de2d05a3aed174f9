//! What Modbus brought under each of the two forms. The mapping is stated once, "so that demands 2 and
//! 3 read the same under either" (02, Ask 4): all of it must be seen under both.

use super::entry::Entry;
use super::{Tally, Thing};
use crate::gateway::Event;
use crate::modbus::{checksum, exceptions, Form, Wrapping, ROWS};
use crate::{refusals, word};

/// A `usize` is the place of a row in Modbus's table.
#[derive(Clone, Copy, PartialEq, Eq, PartialOrd, Ord, Debug)]
pub enum Modbus {
    /// To a message; 15 is given to ticks and frames too.
    Refusal(u8),
    Accepted(usize),
    NormalReply(usize),
    /// With the type of the boiler's answer, if there was one.
    Outcome(usize, Option<u8>),
    ExceptionAtOnce(u8),
    ExceptionAsOutcome(u8),
    OwnRead,
    OwnException(u8),
}

/// Each form's name, and the refusals of its messages in their order.
#[rustfmt::skip]
pub const FORMS: [(Wrapping, &str, &[u8]); 2] = [
    (Wrapping::Serial, "serial", &[refusals::ROOM, refusals::MODBUS_LENGTH, refusals::MODBUS_CHECKSUM,
        refusals::MODBUS_UNIT, refusals::MODBUS_FUNCTION]),
    (Wrapping::Tcp, "TCP", &[refusals::ROOM, refusals::MODBUS_LENGTH, refusals::TCP_PROTOCOL,
        refusals::TCP_LENGTH, refusals::MODBUS_UNIT, refusals::MODBUS_FUNCTION]),
];

/// Exceptions given at once; unit 5 gives the first three alone.
pub const AT_ONCE: [u8; 5] = [
    exceptions::ILLEGAL_FUNCTION,
    exceptions::ILLEGAL_ADDRESS,
    exceptions::ILLEGAL_VALUE,
    exceptions::DEVICE_FAILURE,
    exceptions::DEVICE_BUSY,
];
/// Exceptions that an outcome brings.
const AS_OUTCOME: [u8; 3] = [
    exceptions::ILLEGAL_ADDRESS,
    exceptions::DEVICE_FAILURE,
    exceptions::NO_ANSWER,
];

/// The body of a reply, if all that stands around it is right.
fn body(form: Wrapping, reply: &[u8]) -> Option<&[u8]> {
    match (form, reply) {
        (Wrapping::Serial, [body @ .., low, high]) if checksum(body) == [*low, *high] => Some(body),
        (Wrapping::Tcp, [_, _, 0, 0, high, low, body @ ..])
            if body.len() == usize::from(*high) * 256 + usize::from(*low) =>
        {
            Some(body)
        }
        _ => None,
    }
}

impl Tally {
    /// The code of a reply that is an exception.
    pub(super) fn exception(&self, reply: &[u8]) -> Option<u8> {
        match body(self.form(), reply) {
            Some([_, 0x80..=0xFF, code]) => Some(*code),
            _ => None,
        }
    }

    fn modbus(&mut self, modbus: Modbus) {
        let form = self.form();
        self.count(Thing::Modbus(form, modbus));
    }

    pub(super) fn modbus_event(&mut self, event: &Event) {
        match event {
            Event::Accepted { order } => self.modbus(Modbus::Accepted(order.row)),
            Event::Reply { bytes } => self.reply_at_once(bytes),
            Event::Outcome {
                order,
                answer,
                bytes,
                ..
            } if body(self.form(), bytes).is_some() => {
                self.modbus(Modbus::Outcome(order.row, answer.map(word::type_of)));
                self.modbus(match self.exception(bytes) {
                    Some(code) => Modbus::ExceptionAsOutcome(code),
                    None => Modbus::NormalReply(order.row),
                });
            }
            _ => {}
        }
    }

    /// At once units 1 to 4 give exceptions alone.
    fn reply_at_once(&mut self, bytes: &[u8]) {
        let Some(body) = body(self.form(), bytes) else {
            return;
        };
        let own = body[0] == 5;
        self.modbus(match (own, self.exception(bytes)) {
            (true, Some(code)) => Modbus::OwnException(code),
            (true, None) => Modbus::OwnRead,
            (false, _) => Modbus::ExceptionAtOnce(body[2]),
        });
    }

    pub(super) fn refused_message(&mut self, given: &Event) {
        if let Event::Refused(number) = given {
            self.modbus(Modbus::Refusal(*number));
        }
    }

    pub(super) fn modbus_entries(&self) -> Vec<Entry> {
        let mut all = Vec::new();
        for (form, form_name, refusals) in FORMS {
            for (name, modbus) in named(refusals) {
                let name = format!("{form_name}: {name}");
                all.push(Entry::once(name, self.of(Thing::Modbus(form, modbus))));
            }
        }
        all
    }
}

fn named(refusals: &[u8]) -> Vec<(String, Modbus)> {
    let mut all = Vec::new();
    for number in refusals {
        let name = format!("refusal {number} for a message");
        all.push((name, Modbus::Refusal(*number)));
    }
    for (place, row) in ROWS.iter().enumerate() {
        all.push((format!("accepted: {}", row.name), Modbus::Accepted(place)));
    }
    for (place, row) in ROWS.iter().enumerate() {
        if row.form != Form::NoNormalReply {
            let name = format!("normal reply: {}", row.name);
            all.push((name, Modbus::NormalReply(place)));
        }
    }
    all.extend(outcomes());
    for code in AT_ONCE {
        let name = format!("exception {code:02X} at once, units 1 to 4");
        all.push((name, Modbus::ExceptionAtOnce(code)));
    }
    for code in AS_OUTCOME {
        let name = format!("exception {code:02X} as an outcome");
        all.push((name, Modbus::ExceptionAsOutcome(code)));
    }
    all.push(("unit 5: register 0076 read".into(), Modbus::OwnRead));
    for code in &AT_ONCE[..3] {
        let name = format!("unit 5: exception {code:02X}");
        all.push((name, Modbus::OwnException(*code)));
    }
    all
}

/// An INVALID-DATA can't be acknowledged, so those places aren't asked for.
fn outcomes() -> Vec<(String, Modbus)> {
    let mut all = Vec::new();
    for (place, row) in ROWS.iter().enumerate() {
        let acknowledged = match row.question {
            word::READ_DATA => Some(("acknowledged", Some(word::READ_ACK))),
            word::WRITE_DATA => Some(("acknowledged", Some(word::WRITE_ACK))),
            _ => None,
        };
        let others = [
            ("type 6", Some(word::DATA_INVALID)),
            ("type 7", Some(word::UNKNOWN_DATAID)),
            ("no answer", None),
        ];
        for (name, answer) in acknowledged.into_iter().chain(others) {
            let name = format!("outcome of {}: {name}", row.name);
            all.push((name, Modbus::Outcome(place, answer)));
        }
    }
    all
}
