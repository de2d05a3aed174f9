//! What stood around the messages (02, Ask 4): which refusal came before which, what was wrong with the
//! numbers before the unit, how long the messages were, and what became of those of the other form.

mod faults;
mod table;

use super::{Tally, Thing};
use crate::gateway::Event;
use crate::modbus::Wrapping;
use crate::refusals;
use faults::{faults, is_closed};
use table::{LENGTHS, PROTOCOLS};

#[derive(Clone, Copy, PartialEq, Eq, PartialOrd, Ord, Debug)]
pub enum Wrapped {
    /// A box of this form gives the first number, though the message earns the second too.
    Before(Wrapping, u8, u8),
    /// Refusal 17 for a protocol of the shape that has this place, and 18 for a length.
    Protocol(usize),
    Length(usize),
    /// A message of so many bytes, its checksum or its length field right or wrong, and nothing else
    /// wrong with it: given what that earns.
    Bytes(Wrapping, usize, bool),
    /// A message that the other form takes, and this one refuses with the number.
    Foreign(Wrapping, u8),
    /// A message that both forms take: accepted, or a reply at once.
    Both(Wrapping, bool),
    /// A TCP message with the checksum of all its bytes behind it, which its length doesn't count.
    Closed(Wrapping),
}

impl Tally {
    fn wrapped(&mut self, wrapped: Wrapped) {
        self.count(Thing::Wrapped(wrapped));
    }

    /// Counted only where a refusal is the first that the message earns.
    pub(super) fn wrapped_message(&mut self, message: &[u8], given: &Event) {
        let form = self.form();
        let earned = faults(form, message);
        let refused = match given {
            Event::Refused(number) => Some(*number),
            _ => None,
        };
        if refused == Some(refusals::ROOM) {
            return self.before(form, refusals::ROOM, &earned);
        }
        if refused != earned.first().copied() {
            return;
        }
        if let [first, others @ ..] = &earned[..] {
            self.before(form, *first, others);
        }
        self.numbers_before_the_unit(message, refused);
        self.bytes(form, message, &earned);
        self.either_form(form, message, given);
    }

    fn before(&mut self, form: Wrapping, first: u8, others: &[u8]) {
        for other in others {
            self.wrapped(Wrapped::Before(form, first, *other));
        }
    }

    fn numbers_before_the_unit(&mut self, message: &[u8], refused: Option<u8>) {
        let number = |place| u16::from_be_bytes([message[place], message[place + 1]]);
        if refused == Some(refusals::TCP_PROTOCOL) {
            let shape = |place: &usize| PROTOCOLS[*place].1(number(2));
            for place in (0..PROTOCOLS.len()).filter(shape) {
                self.wrapped(Wrapped::Protocol(place));
            }
        }
        if refused == Some(refusals::TCP_LENGTH) {
            let right = message.len() as u16 - 6;
            let shape = |place: &usize| LENGTHS[*place].1(number(4), right);
            for place in (0..LENGTHS.len()).filter(shape) {
                self.wrapped(Wrapped::Length(place));
            }
        }
    }

    /// Where anything else is wrong too, it would hide what the length alone brings.
    fn bytes(&mut self, form: Wrapping, message: &[u8], earned: &[u8]) {
        let field = match form {
            Wrapping::Serial => refusals::MODBUS_CHECKSUM,
            Wrapping::Tcp => refusals::TCP_LENGTH,
        };
        let looked_at = [refusals::MODBUS_LENGTH, field];
        if earned.iter().all(|number| looked_at.contains(number)) {
            let right = !earned.contains(&field);
            self.wrapped(Wrapped::Bytes(form, message.len(), right));
        }
    }

    fn either_form(&mut self, form: Wrapping, message: &[u8], given: &Event) {
        let other = match form {
            Wrapping::Serial => Wrapping::Tcp,
            Wrapping::Tcp => Wrapping::Serial,
        };
        if faults(other, message).is_empty() {
            self.wrapped(match given {
                Event::Refused(number) => Wrapped::Foreign(form, *number),
                Event::Accepted { .. } => Wrapped::Both(form, true),
                _ => Wrapped::Both(form, false),
            });
        }
        // The serial form takes the transaction for unit and function; the TCP form gives 18.
        let expected = match form {
            Wrapping::Serial => matches!(given, Event::Reply { .. }),
            Wrapping::Tcp => *given == Event::Refused(refusals::TCP_LENGTH),
        };
        let (inner, closed) = is_closed(message);
        if closed && expected && faults(Wrapping::Tcp, inner).is_empty() {
            self.wrapped(Wrapped::Closed(form));
        }
    }
}
