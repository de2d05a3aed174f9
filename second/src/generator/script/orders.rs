//! Modbus messages of a script: orders, dealt so that each row meets each end, odd ones, and rooms that are too small.

use super::{Plan, Script, ENDS};
use crate::generator::messages;
use crate::line::State;
use crate::modbus::ROWS;

impl Script {
    pub(super) fn next_plan(&mut self) -> Plan {
        if self.deck.is_empty() {
            for row in 0..ROWS.len() {
                self.deck
                    .extend(ENDS.iter().map(|end| Plan { row, end: *end }));
            }
            self.random.shuffle(&mut self.deck);
        }
        self.deck.pop().expect("the deck was just filled")
    }

    /// A well-formed request: an order if none waits, else exception 06; exception 04 where it asks
    /// for a status that isn't known.
    pub(super) fn order(&mut self) {
        let full_rest = |place: &usize| {
            let line = &self.model.gateway.lines[*place];
            line.state == State::Rests(100) && line.held.is_none()
        };
        let rested: Vec<usize> = (0..4).filter(full_rest).collect();
        let place = if !rested.is_empty() && self.random.percent(30) {
            self.random.pick(&rested)
        } else {
            self.random.below(4) as usize
        };
        let (plan, id) = (self.next_plan(), self.order_id());
        if !self.order_on(place, plan, id) {
            self.deck.push(plan);
        }
    }

    /// True where it is accepted.
    pub(super) fn order_on(&mut self, place: usize, plan: Plan, id: u8) -> bool {
        let (form, unit) = (self.form(), place as u8 + 1);
        let message = messages::request(&mut self.random, form, plan.row, unit, id);
        let waited = self.model.gateway.order.is_some();
        self.modbus(&message);
        let accepted = !waited && self.model.gateway.order.is_some();
        if accepted {
            self.plan = Some(plan);
        }
        accepted
    }

    pub(super) fn odd_message(&mut self) {
        let form = self.form();
        let message = match self.random.below(10) {
            0..=6 => messages::strange(&mut self.random, form),
            7 | 8 => messages::of_length(&mut self.random, form),
            _ => messages::of_either_form(&mut self.random, form),
        };
        let waited = self.model.gateway.order.is_some();
        self.modbus(&message);
        if let (false, Some(order)) = (waited, self.model.gateway.order) {
            // What was to be strange can still be good; it then ends as any other.
            let end = self.random.pick(&ENDS);
            self.plan = Some(Plan {
                row: order.row,
                end,
            });
        }
    }

    /// A few events in a room that is too small, then a good one again.
    pub(super) fn short_room(&mut self) {
        let small = self.random.pick(&[0, 5, 15, 15]);
        self.say(format!("room {small}").as_bytes());
        for _ in 0..self.random.between(1, 5) {
            let place = self.random.below(4) as usize;
            match self.random.below(7) {
                0 => {
                    let count = self.random.between(1, 4);
                    self.tick(count);
                }
                1 => self.shoot(place),
                2 => self.boiler(),
                3 => self.order(),
                4 => self.odd_message(),
                5 if self.random.percent(self.fresh_often) => self.new_box(),
                _ => self.thermostat(),
            }
        }
        let random_room = self.random.between(16, 300);
        let good = self.random.pick(&[16, 16, 17, 256, 300, random_room]);
        self.say(format!("room {good}").as_bytes());
    }
}
