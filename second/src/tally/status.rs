//! What the status exchange did (02, Ask 2): on what grounds 04 was given at once and what it stood
//! before, after what a status was known, which byte went out with an order's own frame, and how that
//! ended.

mod table;

use super::grounds::Ground;
use super::history::Talk;
use super::{Tally, Thing};
use crate::gateway::Event;
use crate::line::Owner;
use crate::modbus::{self, exceptions, Judged, Order};
use crate::status::{Question, IDS};
use crate::word;

/// A 'status' is a READ-DATA with one of the two ids from a thermostat.
#[derive(Clone, Copy, PartialEq, Eq, PartialOrd, Ord, Debug)]
pub enum Status {
    /// 04 at once, where this is so.
    Unknown(Ground),
    /// This exception at once, an order being under way on the same line or on another.
    Busy(u8, bool),
    /// A question of this function and id, its offset's high byte not 0: accepted or 04.
    Page(u8, u8, bool),
    /// Accepted, the status' own talk being so; of the first status, or of any.
    AcceptedFirst(Talk),
    Accepted(Talk),
    /// The order's own frame went out with the status' high byte, where this is so.
    Sent(Ground),
    /// The same for this function and id.
    SentBy(u8, u8),
    /// READ-DATA with the message's own value, for this function and id: no status is known, or
    /// one with another high byte.
    WithValue(u8, u8, bool),
    /// The outcome of a status question: its exception, if it is one.
    Outcome(u8, Option<u8>),
}

impl Tally {
    /// A message and what it was given; only those that ask for a status are looked at.
    pub(super) fn asked(&mut self, message: &[u8], given: &Event) {
        let Ok(message) = self.form().taken_off(message) else {
            return;
        };
        let Judged::Order(order) = modbus::judge(message.body) else {
            return;
        };
        let Question::Status(id) = order.question else {
            return;
        };
        let code = match given {
            Event::Reply { bytes } => self.exception(bytes),
            Event::Accepted { .. } => None,
            _ => return,
        };
        if code == Some(exceptions::DEVICE_FAILURE) {
            let grounds = self.history.unknown(order.unit, id);
            self.count_all(grounds.into_iter().map(Status::Unknown));
            self.fresh_unknown(order.unit, id);
        }
        if let (Some(code), Some((under_way, _))) = (code, self.history.order) {
            self.count_all([Status::Busy(code, under_way.unit == order.unit)]);
        }
        if order.offset > 0xFF && code != Some(exceptions::DEVICE_BUSY) {
            self.count_all([Status::Page(order.function, id, code.is_none())]);
        }
    }

    fn count_all(&mut self, all: impl IntoIterator<Item = Status>) {
        for status in all {
            self.count(Thing::Status(status));
        }
    }

    pub(super) fn status_event(&mut self, event: &Event) {
        let now = self.of(Thing::Tick);
        match event {
            Event::Accepted { order } => {
                if let Question::Status(id) = order.question {
                    self.accepted(*order, id, now);
                }
            }
            Event::Sent {
                owner: Owner::Modbus,
                frame,
                ..
            } => self.own_frame(frame.word),
            Event::Outcome { order, bytes, .. } => {
                if let Question::Status(_) = order.question {
                    let code = self.exception(bytes);
                    self.count_all([Status::Outcome(order.function, code)]);
                }
            }
            _ => {}
        }
        self.history.note(event, now);
    }

    fn accepted(&mut self, order: Order, id: u8, now: u64) {
        if let Some(out) = self.history.of(order.unit, id).out {
            self.count_all([Status::Accepted(out.talk(now))]);
            self.count_all(out.first.then_some(Status::AcceptedFirst(out.talk(now))));
        }
    }

    /// An order's own frame goes out.
    fn own_frame(&mut self, frame: u32) {
        let (order, at_acceptance) = self.history.order.expect("an order was accepted before");
        match order.question {
            Question::Status(id) => self.status_frame(order, id, frame, at_acceptance),
            Question::Word(asked) if frame == asked => self.frame_with_value(order, frame),
            Question::Word(_) => {}
        }
    }

    fn frame_with_value(&mut self, order: Order, frame: u32) {
        let (id, [high, _]) = (word::id_of(frame), word::value_of(frame).to_be_bytes());
        if word::type_of(frame) != word::READ_DATA || !IDS.contains(&id) {
            return;
        }
        let known = self.history.of(order.unit, id).out.map(|out| out.high());
        if known != Some(high) {
            self.count_all([Status::WithValue(order.function, id, known.is_some())]);
        }
    }

    /// Counted only where the frame has the byte that the history asks for.
    fn status_frame(&mut self, order: Order, id: u8, frame: u32, at_acceptance: Option<u8>) {
        let Some(out) = self.history.of(order.unit, id).out else {
            return;
        };
        if word::build(word::READ_DATA, id, out.value & 0xFF00) != Ok(frame) {
            return;
        }
        let mut grounds = self.history.other_bytes(order.unit, id, out.high());
        if at_acceptance != Some(out.high()) {
            grounds.push(Ground::Newer);
        }
        if out.value & 0xFF != 0 {
            grounds.push(Ground::LowByte);
        }
        grounds.push(match out.high() {
            0 => Ground::High00,
            _ => Ground::HighNot00,
        });
        self.count_all(grounds.into_iter().map(Status::Sent));
        self.count_all([Status::SentBy(order.function, id)]);
    }
}
