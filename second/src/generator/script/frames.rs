//! Frames of a script: the thermostat's, a boiler's answer that fits, and one that is wrong somewhere.

use super::{End, Script, ENDS, LONGEST_WAITS};
use crate::generator::splice;
use crate::line::{Owner, State};
use crate::word;

impl Script {
    pub(super) fn thermostat(&mut self) {
        let lines: Vec<u64> = (0..4)
            .flat_map(|place| vec![place as u64 + 1; self.chatty[place] as usize])
            .collect();
        if lines.is_empty() {
            return;
        }
        let mut line = self.random.pick(&lines);
        let mut kind = self.random.below(3) as u32;
        let odd = self.random.percent(8);
        if self.random.percent(6) {
            line = self.random.pick(&[0, 5, 6, 128, 255]);
        }
        if self.random.percent(8) {
            kind = self.random.between(3, 7) as u32;
        }
        let value = u32::from(self.random.word() as u16);
        let mut frame = kind << 28 | u32::from(self.id()) << 16 | value;
        let place = (line as usize).clamp(1, 4) - 1;
        match self.random.below(10) {
            // The word of a talk, or the one that is held, once more: later is later, though nothing
            // in it is new but how straight its edges were.
            0 | 1 => frame = self.talked(place).unwrap_or(frame),
            2 => frame = self.held(place).unwrap_or(frame),
            3..=6 if kind <= 2 => frame = self.status_frame(),
            _ => {}
        }
        frame = self.in_its_time(place, frame);
        frame = word::with_even_parity(frame) ^ u32::from(odd) << 31;
        if self.random.percent(20) {
            frame = splice::noisy(&mut self.random, frame);
        }
        self.frame("thermostat", line, frame);
    }

    /// The word talked on a line, if it talks.
    pub(super) fn talked(&self, place: usize) -> Option<u32> {
        match self.model.gateway.lines[place].state {
            State::Talks { item, .. } => Some(item.frame.word),
            State::Rests(_) => None,
        }
    }

    /// The word held on a line, if there is one.
    fn held(&self, place: usize) -> Option<u32> {
        let held = self.model.gateway.lines[place].held;
        held.map(|item| item.frame.word)
    }

    /// A frame that answers the question and comes to this end.
    pub(super) fn answer(&mut self, question: u32, end: End) -> u32 {
        let kind = match (end, word::type_of(question)) {
            (End::Acknowledged, word::READ_DATA) => word::READ_ACK,
            (End::Acknowledged, word::WRITE_DATA) => word::WRITE_ACK,
            (End::Unknown, _) => word::UNKNOWN_DATAID,
            _ => word::DATA_INVALID,
        };
        let value = self.random.word() as u16;
        word::build(kind, word::id_of(question), value).expect("a type up to 7")
    }

    /// A frame that matches the line's talk, whatever its age; nothing where it rests. Now and then
    /// it comes spoilt first: nothing may come of that, and the good one still counts. Where silence
    /// is planned the spoilt one comes alone.
    pub(super) fn shoot(&mut self, place: usize) {
        let Some(question) = self.talked(place) else {
            return;
        };
        let owner = self.model.gateway.lines[place].last;
        let end = match (owner, self.plan) {
            (Owner::Modbus, Some(plan)) => plan.end,
            _ => self.random.pick(&ENDS[..3]),
        };
        let (line, frame) = (place as u64 + 1, self.answer(question, end));
        if end == End::Silent || self.random.percent(20) {
            let spoilt = splice::spoilt(&mut self.random, frame);
            self.frame("boiler", line, spoilt);
        }
        if end == End::Silent {
            return;
        }
        self.frame("boiler", line, frame);
        let spent = self.longest_waits >= LONGEST_WAITS;
        if owner == Owner::Modbus && !spent && self.random.percent(3) {
            self.longest_wait();
        }
    }

    /// A boiler frame on any line, at a moment nobody chose.
    pub(super) fn boiler(&mut self) {
        let place = self.random.below(4) as usize;
        if self.random.percent(12) {
            self.shoot(place);
        } else {
            self.wrong_frame(place);
        }
    }

    /// A boiler frame with something wrong, or with several things wrong at once.
    pub(super) fn wrong_frame(&mut self, place: usize) {
        let question = self.talked(place).unwrap_or(u32::from(self.id()) << 16);
        let mut frame = self.wrong_answer(question);
        if self.random.percent(20) {
            frame = splice::noisy(&mut self.random, frame);
        }
        if self.planned_silence() && word::matches(question, frame) {
            return;
        }
        let line = match self.random.below(12) {
            0 => self.random.pick(&[0, 5, 6, 128, 255]),
            1 => self.random.between(1, 4),
            _ => place as u64 + 1,
        };
        self.frame("boiler", line, frame);
    }

    fn wrong_answer(&mut self, question: u32) -> u32 {
        let good = self.answer(question, End::Acknowledged);
        let wrong_kind = good ^ self.random.pick(&[0x1000_0000, 0x2000_0000, 0x3000_0000]);
        let from_master = good & 0x3FFF_FFFF;
        let other_id = good ^ 0x0001_0000 << self.random.below(8);
        match self.random.below(10) {
            0 | 1 => word::with_even_parity(wrong_kind),
            2 | 3 => word::with_even_parity(other_id),
            4 => good ^ 0x8000_0000,
            5 => word::with_even_parity(from_master),
            6 => word::with_even_parity(from_master) ^ 0x8000_0000,
            7 => word::without_spare(self.random.word()),
            8 => self.random.word(),
            _ => splice::spoilt(&mut self.random, good),
        }
    }
}
