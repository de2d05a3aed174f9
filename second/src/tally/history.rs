//! What a script and its trace have shown of the thermostats' status so far (02, Ask 2). It is kept
//! apart from the box's own memory, so that no count goes by what it is to check.

use crate::gateway::Event;
use crate::line::Owner;
use crate::modbus::Order;
use crate::status::{Question, IDS};
use crate::word;

/// "At 875 the talk ends": of a thermostat's talk without an answer nothing else tells.
const TALK_ENDS: u64 = 875;

/// Frames of the two ids that go out and don't count: two of the thermostat's types, and READ-DATA
/// of orders that send a value of their own.
#[derive(Clone, Copy, PartialEq, Eq, PartialOrd, Ord, Debug)]
pub enum Other {
    Write,
    Invalid,
    By41,
    By17,
}

pub const OTHERS: [Other; 4] = [Other::Write, Other::Invalid, Other::By41, Other::By17];

/// How the talk of a thermostat's frame went.
#[derive(Clone, Copy, PartialEq, Eq, PartialOrd, Ord, Debug)]
pub enum Talk {
    UnderWay,
    NoAnswer,
    Passed,
    Dropped,
}

/// A READ-DATA that went out for the thermostat.
#[derive(Clone, Copy)]
pub struct Out {
    pub value: u16,
    /// None went out before it, so all that is known is this one.
    pub first: bool,
    at: u64,
    end: Option<Talk>,
}

impl Out {
    pub fn high(&self) -> u8 {
        self.value.to_be_bytes()[0]
    }

    pub fn talk(&self, now: u64) -> Talk {
        let by_itself = match now - self.at < TALK_ENDS {
            true => Talk::UnderWay,
            false => Talk::NoAnswer,
        };
        self.end.unwrap_or(by_itself)
    }
}

/// Of one line and one id.
#[derive(Clone, Copy, Default)]
pub struct Seen {
    /// A READ-DATA came from the thermostat; it was held at least.
    pub came: bool,
    /// The last that went out.
    pub out: Option<Out>,
    /// The high bytes of frames that don't count and went out since then.
    others: [Option<u8>; 4],
}

impl Seen {
    pub fn other(&self, other: Other) -> Option<u8> {
        self.others[other as usize]
    }
}

#[derive(Clone, Copy, Default)]
struct LineSeen {
    held: Option<u32>,
    /// The place of the id whose status is being talked, or was talked last.
    talks: Option<usize>,
    ids: [Seen; 2],
}

#[derive(Default)]
pub struct History {
    lines: [LineSeen; 4],
    /// The order under way, and the status' high byte when it was accepted.
    pub order: Option<(Order, Option<u8>)>,
}

fn place_of(id: u8) -> Option<usize> {
    IDS.iter().position(|status| *status == id)
}

/// The id's place, where the frame is a READ-DATA.
fn status_place(frame: u32) -> Option<usize> {
    let place = place_of(word::id_of(frame))?;
    (word::type_of(frame) == word::READ_DATA).then_some(place)
}

impl History {
    /// Of a line 1 to 4 and one of the two ids.
    pub fn of(&self, line: u8, id: u8) -> &Seen {
        let place = place_of(id).expect("one of the two ids");
        &self.lines[usize::from(line) - 1].ids[place]
    }

    /// The lines and places of ids whose status went out.
    pub fn known(&self) -> [[bool; 2]; 4] {
        self.lines.map(|line| line.ids.map(|id| id.out.is_some()))
    }

    /// The high byte of a READ-DATA with this id that is held now.
    pub fn held(&self, line: u8, id: u8) -> Option<u8> {
        let frame = self.lines[usize::from(line) - 1].held?;
        let status = word::type_of(frame) == word::READ_DATA && word::id_of(frame) == id;
        status.then(|| word::value_of(frame).to_be_bytes()[0])
    }

    pub fn note(&mut self, event: &Event, now: u64) {
        match *event {
            Event::Held { line, word } => self.comes(line, word),
            Event::Sent { line, owner, frame } => match owner {
                Owner::Thermostat => self.goes_out(line, frame.word, now),
                Owner::Modbus => self.order_goes_out(line, frame.word),
            },
            Event::Passed { line, .. } => self.ends(line, Talk::Passed),
            Event::Dropped { line } => self.ends(line, Talk::Dropped),
            Event::Accepted { order } => {
                let known = match order.question {
                    Question::Status(id) => self.of(order.unit, id).out.map(|out| out.high()),
                    Question::Word(_) => None,
                };
                self.order = Some((order, known));
            }
            Event::Outcome { .. } => self.order = None,
            Event::Reply { .. } | Event::Refused(_) => {}
        }
    }

    fn comes(&mut self, line: u8, frame: u32) {
        let seen = &mut self.lines[usize::from(line) - 1];
        seen.held = Some(frame);
        if let Some(place) = status_place(frame) {
            seen.ids[place].came = true;
        }
    }

    /// The thermostat's frame goes out.
    fn goes_out(&mut self, line: u8, frame: u32, now: u64) {
        let seen = &mut self.lines[usize::from(line) - 1];
        (seen.held, seen.talks) = (None, None);
        let Some(place) = place_of(word::id_of(frame)) else {
            return;
        };
        let value = word::value_of(frame);
        let high = value.to_be_bytes()[0];
        match word::type_of(frame) {
            word::READ_DATA => {
                let out = Out {
                    value,
                    first: seen.ids[place].out.is_none(),
                    at: now,
                    end: None,
                };
                seen.talks = Some(place);
                seen.ids[place] = Seen {
                    came: true,
                    out: Some(out),
                    others: [None; 4],
                };
            }
            word::WRITE_DATA => seen.ids[place].others[Other::Write as usize] = Some(high),
            _ => seen.ids[place].others[Other::Invalid as usize] = Some(high),
        }
    }

    /// An order's own frame goes out; one with a value of its own might be taken for a status.
    fn order_goes_out(&mut self, line: u8, frame: u32) {
        let seen = &mut self.lines[usize::from(line) - 1];
        seen.talks = None;
        let (order, _) = self.order.expect("an order was accepted before");
        let other = match order.function {
            0x41 => Other::By41,
            _ => Other::By17,
        };
        if let (true, Some(place)) = (order.question == Question::Word(frame), status_place(frame))
        {
            seen.ids[place].others[other as usize] = Some(word::value_of(frame).to_be_bytes()[0]);
        }
    }

    fn ends(&mut self, line: u8, end: Talk) {
        let seen = &mut self.lines[usize::from(line) - 1];
        if let Some(place) = seen.talks.take() {
            if let Some(out) = &mut seen.ids[place].out {
                out.end = Some(end);
            }
        }
    }
}
