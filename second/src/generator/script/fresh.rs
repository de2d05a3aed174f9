//! New boxes in a script (02, Ask 4): while something is under way in the box before, and then what
//! would show it, had it been kept.

use super::{End, Script};
use crate::line::State;
use crate::status::IDS;

impl Script {
    /// `fresh` for either form, also for the one that the box has.
    pub(super) fn new_box(&mut self) {
        let line = self.random.pick(&[&b"fresh serial"[..], b"fresh tcp"]);
        self.say(line);
        self.first_asked = [[false; 2]; 4];
    }

    /// A new box at a telling moment, then what the one before would have given another answer to.
    pub(super) fn fresh(&mut self) {
        self.something_under_way();
        let talked: Vec<(usize, u32)> = (0..4)
            .filter_map(|place| Some((place, self.talked(place)?)))
            .collect();
        let known = self.known();
        self.new_box();
        for (place, question) in talked {
            if self.random.percent(70) {
                let answer = self.answer(question, End::Acknowledged);
                self.frame("boiler", place as u64 + 1, answer);
            }
        }
        match self.random.below(5) {
            0 | 1 => self.order(),
            2 => self.odd_message(),
            3 => self.ask_one(&known),
            _ => self.tick(101),
        }
    }

    /// Now and then an order, a held frame, and a talk that could be answered.
    fn something_under_way(&mut self) {
        if self.model.gateway.order.is_none() && self.random.percent(60) {
            self.order();
        }
        if self.model.gateway.order.is_some() && self.random.percent(30) {
            // On a free line the order's own talk could then be answered.
            self.tick(184);
        }
        let talk = |place: usize| match self.model.gateway.lines[place].state {
            State::Talks { age, .. } if age < 84 => Some(84 - u64::from(age)),
            _ => None,
        };
        let soon: Vec<u64> = (0..4).filter_map(talk).collect();
        if !soon.is_empty() && self.random.percent(60) {
            let count = self.random.pick(&soon);
            self.tick(count);
        }
        if self.random.percent(40) {
            self.thermostat();
        }
    }

    /// The lines' places and the ids whose status is known.
    fn known(&self) -> Vec<(usize, u8)> {
        let all = (0..4).flat_map(|place| IDS.map(|id| (place, id)));
        all.filter(|(place, id)| self.model.gateway.lines[*place].status.of(*id).is_some())
            .collect()
    }

    fn ask_one(&mut self, known: &[(usize, u8)]) {
        if !known.is_empty() {
            let (place, id) = self.random.pick(known);
            self.ask_status(place, id);
        }
    }
}
