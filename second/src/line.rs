//! One line: its turns and waiting times (01, 'A line and its turns').

use crate::frame::Frame;
use crate::status::{Known, Question};
use crate::{refusals, word};

const REST_FULL: u32 = 100;
const ANSWER_FROM: u32 = 84;
const ANSWER_UP_TO: u32 = 874;
const TALK_ENDS: u32 = 875;
const THERMOSTAT_WAITS: u32 = 800;

#[derive(Clone, Copy, PartialEq, Eq, Debug)]
pub enum Owner {
    Thermostat,
    Modbus,
}

/// A thermostat frame, or an order whose word is being sent, with the ticks since it came.
#[derive(Clone, Copy, PartialEq, Eq, Debug)]
pub struct Item {
    pub frame: Frame,
    pub age: u32,
}

/// An order that waits, with the ticks since it came. Its word is made when it goes out.
#[derive(Clone, Copy, PartialEq, Eq, Debug)]
pub struct Waiting {
    pub question: Question,
    pub age: u32,
}

/// "A line rests (0 to 100) or talks (owner thermostat or Modbus, the word sent, an age)."
/// The item keeps its own age, since the frame or order being sent grows older too.
#[derive(Clone, Copy, PartialEq, Eq, Debug)]
pub enum State {
    Rests(u32),
    Talks { owner: Owner, item: Item, age: u32 },
}

/// "It has room for one held thermostat frame and one waiting order, and knows who talked
/// last." From 02's Ask 2 on it knows its thermostat's status too.
#[derive(Clone, Copy, PartialEq, Eq, Debug)]
pub struct Line {
    pub state: State,
    pub held: Option<Item>,
    pub order: Option<Waiting>,
    pub last: Owner,
    pub status: Known,
}

#[derive(Clone, Copy, PartialEq, Eq, Debug)]
pub enum Ticked {
    Nothing,
    Sent(Frame),
    NoAnswer { wait: u32 },
}

#[derive(Clone, Copy, PartialEq, Eq, Debug)]
pub enum Answered {
    Refused(u8),
    Outcome { word: u32, wait: u32 },
    Passed(Frame),
    Dropped,
}

impl Line {
    /// "Fresh: rest 0, nothing held or waiting, last talker Modbus."
    pub fn fresh() -> Line {
        Line {
            state: State::Rests(0),
            held: None,
            order: None,
            last: Owner::Modbus,
            status: Known::fresh(),
        }
    }

    pub fn tick(&mut self) -> Ticked {
        // "The held frame and the order grow one tick older, a frame or order being sent too."
        if let Some(frame) = &mut self.held {
            frame.age += 1;
        }
        if let Some(order) = &mut self.order {
            order.age += 1;
        }
        match &mut self.state {
            State::Talks { owner, item, age } => {
                item.age += 1;
                // "If the line talks, its age grows by one; at 875 the talk ends: no answer
                // for an order, nothing for the thermostat, rest 0."
                *age += 1;
                if *age < TALK_ENDS {
                    return Ticked::Nothing;
                }
                let (owner, wait) = (*owner, item.age);
                self.state = State::Rests(0);
                match owner {
                    Owner::Modbus => Ticked::NoAnswer { wait },
                    Owner::Thermostat => Ticked::Nothing,
                }
            }
            State::Rests(rest) => {
                // "If it rests, rest grows by one up to 100; at 100 a talk starts at age 0 if
                // anything waits."
                *rest = (*rest + 1).min(REST_FULL);
                if *rest == REST_FULL {
                    self.start_talk()
                } else {
                    Ticked::Nothing
                }
            }
        }
    }

    /// "If both wait, the one that didn't talk last goes first."
    fn start_talk(&mut self) -> Ticked {
        let owner = match (self.held, self.order, self.last) {
            (None, None, _) => return Ticked::Nothing,
            (Some(_), None, _) => Owner::Thermostat,
            (None, Some(_), _) => Owner::Modbus,
            (Some(_), Some(_), Owner::Modbus) => Owner::Thermostat,
            (Some(_), Some(_), Owner::Thermostat) => Owner::Modbus,
        };
        let goes = match owner {
            Owner::Thermostat => self.held_goes_out(),
            Owner::Modbus => self.order_goes_out(),
        };
        match goes {
            Some(item) => {
                self.state = State::Talks {
                    owner,
                    item,
                    age: 0,
                };
                self.last = owner;
                Ticked::Sent(item.frame)
            }
            None => Ticked::Nothing,
        }
    }

    /// "The word goes out unchanged", and "the relay carries both along" (02, Ask 3).
    fn held_goes_out(&mut self) -> Option<Item> {
        let item = self.held.take()?;
        self.status.went_out(item.frame.word);
        Some(item)
    }

    /// Nobody read an order's word from samples, so it has no edges.
    fn order_goes_out(&mut self) -> Option<Item> {
        let Waiting { question, age } = self.order.take()?;
        let frame = self.status.word_of(question).into();
        Some(Item { frame, age })
    }

    /// "A thermostat frame of type 0 to 2 becomes the held frame, in place of an older one,
    /// with age 0. Nothing is sent before a tick." Its order is 5, 16, 6; 9 is the box's.
    pub fn thermostat(&mut self, frame: impl Into<Frame>) -> Result<(), u8> {
        let frame = frame.into();
        word::check_at_the_line(frame.word)?;
        if word::type_of(frame.word) > word::INVALID_DATA {
            return Err(refusals::TYPE);
        }
        self.held = Some(Item { frame, age: 0 });
        Ok(())
    }

    pub fn order(&mut self, question: Question) {
        self.order = Some(Waiting { question, age: 0 });
    }

    /// "Order: 15, 9, 5, 6, 7, 8", with 16 "after 5 and before 6" (02, Ask 1); the first two are
    /// the box's.
    pub fn boiler(&mut self, frame: impl Into<Frame>) -> Answered {
        let frame = frame.into();
        if let Err(number) = word::check_at_the_line(frame.word) {
            return Answered::Refused(number);
        }
        if word::type_of(frame.word) < word::READ_ACK {
            return Answered::Refused(refusals::TYPE);
        }
        let State::Talks { owner, item, age } = self.state else {
            return Answered::Refused(refusals::AGE);
        };
        if !(ANSWER_FROM..=ANSWER_UP_TO).contains(&age) {
            return Answered::Refused(refusals::AGE);
        }
        if !word::matches(item.frame.word, frame.word) {
            return Answered::Refused(refusals::NO_MATCH);
        }
        // "A boiler frame that matches while the age is 84 to 874 ends the talk; rest
        // becomes 0."
        self.state = State::Rests(0);
        // "For an order it is the outcome. For the thermostat it is passed on unchanged if its
        // own frame came at most 800 ticks ago and no later one is held; otherwise it is
        // dropped and the talk still ends."
        match owner {
            Owner::Modbus => Answered::Outcome {
                word: frame.word,
                wait: item.age,
            },
            Owner::Thermostat if item.age <= THERMOSTAT_WAITS && self.held.is_none() => {
                Answered::Passed(frame)
            }
            Owner::Thermostat => Answered::Dropped,
        }
    }
}
