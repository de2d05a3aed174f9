//! Time in a script: ticks up to the ages where an answer changes, and the longest wait.

use super::{End, Plan, Script, TICKS_AHEAD, TICKS_PER_LINE};
use crate::generator::{messages, strange_lines};
use crate::line::{Owner, State};
use crate::modbus::ROWS;
use crate::tally::Thing;
use crate::word;

impl Script {
    /// Lets time pass up to a moment that matters to one line.
    pub(super) fn advance(&mut self) {
        let allowed = TICKS_PER_LINE * self.lines as u64 + TICKS_AHEAD;
        if self.model.room < 16 || self.model.tally.of(Thing::Tick) > allowed {
            return;
        }
        let place = match self.model.gateway.order {
            Some(order) if self.random.percent(60) => usize::from(order.unit) - 1,
            _ => self.random.below(4) as usize,
        };
        let line = self.model.gateway.lines[place];
        match line.state {
            State::Rests(rest) => {
                let something_waits = line.held.is_some() || line.order.is_some();
                let start = (100 - u64::from(rest)).max(1);
                let few = self.random.between(1, 5);
                let count = match something_waits {
                    true => self
                        .random
                        .pick(&[start, start, start, start.max(2) - 1, few]),
                    false => few,
                };
                self.tick(count);
            }
            State::Talks { owner, item, age } => {
                self.aim(place, owner, u64::from(item.age), u64::from(age));
            }
        }
    }

    /// Ticks up to a chosen age of the talk and sends the matching frame there.
    pub(super) fn aim(&mut self, place: usize, owner: Owner, item_age: u64, age: u64) {
        if owner == Owner::Modbus && self.planned_silence() {
            let few = age + self.random.between(1, 200);
            let target = self.random.pick(&[83, 84, 873, 874, 875, 875, few]);
            self.tick_up_to(place, age, target.min(875));
            if self.random.percent(30) {
                self.shoot(place);
            }
            return;
        }
        let target = match self.random.below(100) {
            0..=29 => 83,
            30..=57 => 84,
            58..=68 => 85,
            69..=90 => self.random.between(86, 150),
            91 => 873,
            92..=93 => 874,
            94 => 875,
            95 => self.random.between(150, 872),
            // The frame's own age, counted from its coming.
            96..=97 => age + 800u64.saturating_sub(item_age),
            _ => age + 801u64.saturating_sub(item_age),
        };
        self.tick_up_to(place, age, target.min(876));
        if self.random.percent(30) {
            self.wrong_frame(place);
        }
        self.shoot(place);
        if target == 83 {
            self.tick(1);
            self.shoot(place);
        }
    }

    /// Passes from one age to another, now and then in two steps. Where the talk ends by itself
    /// the matching frame may still come, too late.
    pub(super) fn tick_up_to(&mut self, place: usize, age: u64, target: u64) {
        if target <= age {
            return;
        }
        let question = self.talked(place);
        let count = target - age;
        if count > 1 && self.random.percent(20) {
            let first = self.random.between(1, count - 1);
            self.tick(first);
            self.harmless();
            self.tick(count - first);
        } else {
            self.tick(count);
        }
        if let (Some(question), None) = (question, self.talked(place)) {
            if self.random.percent(60) {
                let late = self.answer(question, End::Acknowledged);
                self.frame("boiler", place as u64 + 1, late);
            }
        }
    }

    /// A line that ends no talk and takes no order.
    pub(super) fn harmless(&mut self) {
        if self.random.percent(30) {
            let form = self.form();
            let message = messages::version_request(&mut self.random, form);
            return self.modbus(&message);
        }
        let line = match self.random.below(6) {
            0 => b"thermostat 009 80190000 018 0023".to_vec(),
            1 => b"boiler 1 00190000 255 0".to_vec(),
            2 => b"modbus 0503007600016454".to_vec(),
            // Good but for a spare bit.
            3 => b"thermostat 1 01190000 20 20".to_vec(),
            4 => b"boiler 1 C1193280".to_vec(),
            _ => strange_lines::comment(&mut self.random),
        };
        self.say(&line);
    }

    /// An order taken at rest 0 after a Modbus talk, a thermostat frame held, a silent boiler.
    pub(super) fn longest_wait(&mut self) {
        let ready = |place: &usize| {
            let line = &self.model.gateway.lines[*place];
            line.state == State::Rests(0) && line.last == Owner::Modbus
        };
        let places: Vec<usize> = (0..4).filter(ready).collect();
        if places.is_empty() || self.model.gateway.order.is_some() || self.model.room < 16 {
            return;
        }
        self.longest_waits += 1;
        let place = self.random.pick(&places);
        if self.model.gateway.lines[place].held.is_none() {
            let frame = word::build(self.random.below(3) as u8, self.id(), 0).expect("a low type");
            let frame = self.in_its_time(place, frame);
            self.frame("thermostat", place as u64 + 1, frame);
        }
        // A status that isn't known is answered at once, and then another order is tried.
        while self.model.gateway.order.is_none() && self.lines < self.size {
            let row = self.random.below(ROWS.len() as u64) as usize;
            let (end, id) = (End::Silent, self.order_id());
            self.order_on(place, Plan { row, end }, id);
        }
        let mut left = 1950;
        while left > 0 && self.lines < self.size {
            let count = self.random.between(1, 700).min(left);
            self.tick(count);
            left -= count;
            self.harmless();
        }
    }
}
