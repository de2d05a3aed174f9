//! The box: four lines, one order, the lent reply room (01, 'A line and its turns', 'Numbered
//! answers').

use crate::frame::Frame;
use crate::line::{Answered, Line, Owner, Ticked};
use crate::modbus::{self, exceptions, Judged, Order, Transaction, Wrapping};
use crate::refusals;
use crate::status::Question;

/// "Lent room below 16 bytes (reply)."
const REPLY_ROOM: usize = 16;

/// Where a frame comes from.
#[derive(Clone, Copy, PartialEq, Eq, PartialOrd, Ord, Debug)]
pub enum Side {
    Thermostat,
    Boiler,
}

#[derive(Clone, PartialEq, Eq, Debug)]
pub enum Event {
    Sent {
        line: u8,
        owner: Owner,
        frame: Frame,
    },
    Passed {
        line: u8,
        frame: Frame,
    },
    Dropped {
        line: u8,
    },
    Held {
        line: u8,
        word: u32,
    },
    Accepted {
        order: Order,
    },
    /// A reply at once: an exception or unit 5's.
    Reply {
        bytes: Vec<u8>,
    },
    /// The reply of an order, with the boiler's answer if there was one.
    Outcome {
        order: Order,
        answer: Option<u32>,
        bytes: Vec<u8>,
        wait: u32,
    },
    Refused(u8),
}

#[derive(Clone)]
pub struct Gateway {
    /// "A box has either the serial or the TCP form" (02, Ask 4), from its start to its end.
    pub wrapping: Wrapping,
    pub lines: [Line; 4],
    /// "Only one order waits in the whole box, from acceptance until its outcome."
    pub order: Option<Order>,
    /// That of the order's own message: others come and are answered before its reply.
    transaction: Transaction,
}

impl Gateway {
    pub fn fresh(wrapping: Wrapping) -> Gateway {
        Gateway {
            wrapping,
            lines: [Line::fresh(); 4],
            order: None,
            transaction: 0,
        }
    }

    /// "A tick (1 ms) moves all four lines." "Ticks and boiler frames need the reply room too,
    /// since they may bring the outcome"; "a refused tick passes no time".
    pub fn tick(&mut self, room: usize) -> Vec<Event> {
        if room < REPLY_ROOM {
            return vec![Event::Refused(refusals::ROOM)];
        }
        let mut events = Vec::new();
        let mut outcome = None;
        for (place, line) in self.lines.iter_mut().enumerate() {
            match line.tick() {
                Ticked::Nothing => {}
                Ticked::Sent(frame) => events.push(Event::Sent {
                    line: place as u8 + 1,
                    owner: line.last,
                    frame,
                }),
                Ticked::NoAnswer { wait } => outcome = Some(wait),
            }
        }
        if let Some(wait) = outcome {
            events.push(self.outcome(None, wait));
        }
        events
    }

    pub fn frame(&mut self, side: Side, line: u8, frame: Frame, room: usize) -> Event {
        match side {
            Side::Thermostat => self.thermostat(line, frame),
            Side::Boiler => self.boiler(line, frame, room),
        }
    }

    /// A thermostat frame needs no room: its order is 9, 5, 16, 6.
    pub fn thermostat(&mut self, line: u8, frame: impl Into<Frame>) -> Event {
        let frame = frame.into();
        if !(1..=4).contains(&line) {
            return Event::Refused(refusals::LINE);
        }
        match self.lines[usize::from(line) - 1].thermostat(frame) {
            Ok(()) => Event::Held {
                line,
                word: frame.word,
            },
            Err(number) => Event::Refused(number),
        }
    }

    /// "Order: 15, 9, 5, 6, 7, 8", with 16 "after 5 and before 6" (02, Ask 1).
    pub fn boiler(&mut self, line: u8, frame: impl Into<Frame>, room: usize) -> Event {
        if room < REPLY_ROOM {
            return Event::Refused(refusals::ROOM);
        }
        if !(1..=4).contains(&line) {
            return Event::Refused(refusals::LINE);
        }
        match self.lines[usize::from(line) - 1].boiler(frame) {
            Answered::Refused(number) => Event::Refused(number),
            Answered::Outcome { word, wait } => self.outcome(Some(word), wait),
            Answered::Passed(frame) => Event::Passed { line, frame },
            Answered::Dropped => Event::Dropped { line },
        }
    }

    /// "For Modbus messages 15 comes before 11." "An order goes out on its unit's line."
    pub fn message(&mut self, message: &[u8], room: usize) -> Event {
        if room < REPLY_ROOM {
            return Event::Refused(refusals::ROOM);
        }
        let message = match self.wrapping.taken_off(message) {
            Ok(message) => message,
            Err(number) => return Event::Refused(number),
        };
        match modbus::judge(message.body) {
            Judged::Refused(number) => Event::Refused(number),
            Judged::Reply(body) => self.at_once(message.transaction, &body),
            Judged::Order(order) => self.order(order, message.transaction),
        }
    }

    fn at_once(&self, transaction: Transaction, body: &[u8]) -> Event {
        Event::Reply {
            bytes: self.wrapping.put_on(transaction, body),
        }
    }

    /// The last checks: "exception 04 at once where no such frame went out, after the offset check
    /// and before 06" (02, Ask 2); "an order already waiting (06, units 1 to 4 only); accepted".
    fn order(&mut self, order: Order, transaction: Transaction) -> Event {
        let place = usize::from(order.unit) - 1;
        let unknown = match order.question {
            Question::Status(id) => self.lines[place].status.of(id).is_none(),
            Question::Word(_) => false,
        };
        let exception = |code| {
            let body = modbus::exception(order.unit, order.function, code);
            self.at_once(transaction, &body)
        };
        if unknown {
            return exception(exceptions::DEVICE_FAILURE);
        }
        if self.order.is_some() {
            return exception(exceptions::DEVICE_BUSY);
        }
        self.lines[place].order(order.question);
        self.order = Some(order);
        self.transaction = transaction;
        Event::Accepted { order }
    }

    /// "With each outcome comes the wait in ticks."
    fn outcome(&mut self, answer: Option<u32>, wait: u32) -> Event {
        let order = self
            .order
            .take()
            .expect("an order talked, so one waits in the box");
        let body = modbus::outcome(&order, answer);
        let bytes = self.wrapping.put_on(self.transaction, &body);
        Event::Outcome {
            order,
            answer,
            bytes,
            wait,
        }
    }
}
