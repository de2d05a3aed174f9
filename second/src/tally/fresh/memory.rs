//! What a script and its trace have shown of the box as it is and of the one before. It is kept apart
//! from the box's own memory, so that no count goes by what it is to check.

use crate::gateway::Event;
use crate::line::Owner;
use crate::modbus::Wrapping;
use crate::status::IDS;
use crate::word;

/// The tick behind the one with which a fresh line sends its first word.
const BEHIND_THE_FIRST: u64 = 101;

#[derive(Clone, Copy)]
struct Talk {
    owner: Owner,
    word: u32,
    at: u64,
}

/// What a box has under way.
#[derive(Clone, Copy, Default)]
struct UnderWay {
    talks: [Option<Talk>; 4],
    held: [bool; 4],
    /// The order, and whether its own frame is out.
    order: Option<bool>,
}

pub struct Memory {
    /// "A script begins with a serial box."
    pub form: Wrapping,
    /// No `room` came since the box began.
    pub room_stays: bool,
    began: u64,
    now: UnderWay,
    /// Of the box before, and how long it lasted.
    old: UnderWay,
    lasted: u64,
    /// The lines and places of ids whose status the box before knew.
    knew: [[bool; 2]; 4],
}

impl Default for Memory {
    fn default() -> Memory {
        Memory {
            form: Wrapping::Serial,
            room_stays: false,
            began: 0,
            now: UnderWay::default(),
            old: UnderWay::default(),
            lasted: 0,
            knew: [[false; 2]; 4],
        }
    }
}

impl Memory {
    pub fn begins(&mut self, form: Wrapping, now: u64, knew: [[bool; 2]; 4]) {
        *self = Memory {
            form,
            room_stays: true,
            began: now,
            now: UnderWay::default(),
            old: self.now,
            lasted: now - self.began,
            knew,
        };
    }

    /// True once for each box.
    pub fn is_before_the_end_of_the_last(&mut self, now: u64) -> bool {
        let lasted = std::mem::take(&mut self.lasted);
        now - self.began < lasted
    }

    /// The order of the box before, while the new one is as it began: was its frame out?
    pub fn forgotten_order(&mut self, now: u64) -> Option<bool> {
        self.old.order.take().filter(|_| now == self.began)
    }

    /// Whose talk this frame would have answered in the box before.
    pub fn forgotten_talk(&self, line: u8, frame: u32, now: u64) -> Option<Owner> {
        let talk = self.old.talks[usize::from(line) - 1]?;
        let age = now - talk.at;
        let answers = (84..=874).contains(&age) && word::matches(talk.word, frame);
        (answers && now == self.began).then_some(talk.owner)
    }

    /// How many lines had a held frame and sent nothing, now that it would have gone out.
    pub fn forgotten_frames(&self, now: u64) -> usize {
        match now - self.began == BEHIND_THE_FIRST {
            true => self.old.held.iter().filter(|held| **held).count(),
            false => 0,
        }
    }

    pub fn knew(&self, line: u8, id: u8) -> bool {
        let place = IDS.iter().position(|status| *status == id);
        place.is_some_and(|place| self.knew[usize::from(line) - 1][place])
    }

    pub fn note(&mut self, event: &Event, now: u64) {
        match *event {
            Event::Held { line, .. } => {
                self.now.held[usize::from(line) - 1] = true;
                self.old.held[usize::from(line) - 1] = false;
            }
            Event::Sent { line, owner, frame } => {
                let place = usize::from(line) - 1;
                let (word, at) = (frame.word, now);
                self.now.talks[place] = Some(Talk { owner, word, at });
                self.old.held[place] = false;
                match owner {
                    Owner::Thermostat => self.now.held[place] = false,
                    Owner::Modbus => self.now.order = Some(true),
                }
            }
            Event::Passed { line, .. } | Event::Dropped { line } => self.ends(line),
            Event::Accepted { .. } => self.now.order = Some(false),
            Event::Outcome { order, .. } => {
                self.now.order = None;
                self.ends(order.unit);
            }
            Event::Reply { .. } | Event::Refused(_) => {}
        }
    }

    fn ends(&mut self, line: u8) {
        self.now.talks[usize::from(line) - 1] = None;
    }
}
