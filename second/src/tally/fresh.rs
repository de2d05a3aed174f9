//! What showed that a new box knows nothing of the one before (02, Ask 4), for each form that it has.

mod memory;

use super::entry::Entry;
use super::modbus::FORMS;
use super::{Tally, Thing};
use crate::gateway::{Event, Side};
use crate::generator::fresh_lines::WRONG;
use crate::line::Owner;
use crate::modbus::Wrapping;
use crate::programs::command::{Came, Command};
use crate::refusals;

pub use memory::Memory;

#[derive(Clone, Copy, PartialEq, Eq, PartialOrd, Ord, Debug)]
pub enum Fresh {
    /// A box of the first form is followed by one of the second.
    After(Wrapping, Wrapping),
    /// A new box of this form showed what became of this.
    Shown(Wrapping, Old),
    /// The place of a line that is none.
    Wrong(usize),
}

/// What the box before had.
#[derive(Clone, Copy, PartialEq, Eq, PartialOrd, Ord, Debug)]
pub enum Old {
    /// Something is said at a time that the box before had passed.
    Time,
    /// An order that waited, or one whose frame was out: another is accepted before any tick.
    Waiting,
    Talking,
    /// A talk of the thermostat's or of an order: what would have been its answer is given 7.
    OfThermostat,
    OfOrder,
    /// A held frame doesn't go out with the hundredth tick.
    Held,
    /// A status that went out: it is asked for and given exception 04.
    Status,
    /// A room below 16: refusal 15, since that alone stays.
    Room,
}

const NAMES: [(&str, Old); 8] = [
    ("time starts again", Old::Time),
    ("an order is accepted, one waited before", Old::Waiting),
    ("an order is accepted, one talked before", Old::Talking),
    ("7 for the answer to a thermostat's talk", Old::OfThermostat),
    ("7 for the answer to an order's talk", Old::OfOrder),
    ("a held frame doesn't go out", Old::Held),
    ("04 at once, the status went out before", Old::Status),
    ("15 at once, the room stays", Old::Room),
];

impl Tally {
    /// The form of the box, as the script says.
    pub(super) fn form(&self) -> Wrapping {
        self.boxes.form
    }

    fn shown(&mut self, olds: impl IntoIterator<Item = Old>) {
        for old in olds {
            self.count(Thing::Fresh(Fresh::Shown(self.boxes.form, old)));
        }
    }

    /// A new box; what the others remember of the one before is theirs to forget.
    pub(super) fn fresh_box(&mut self, form: Wrapping) {
        self.count(Thing::Fresh(Fresh::After(self.boxes.form, form)));
        let known = self.history.known();
        self.boxes.begins(form, self.of(Thing::Tick), known);
    }

    pub fn room(&mut self) {
        self.boxes.room_stays = false;
    }

    pub(super) fn fresh_tick(&mut self) {
        let many = self.boxes.forgotten_frames(self.of(Thing::Tick));
        self.shown(vec![Old::Held; many]);
    }

    pub(super) fn fresh_event(&mut self, event: &Event) {
        let now = self.of(Thing::Tick);
        if self.boxes.is_before_the_end_of_the_last(now) {
            self.shown([Old::Time]);
        }
        match event {
            Event::Accepted { .. } => {
                let talked = self.boxes.forgotten_order(now);
                self.shown(talked.map(|talked| match talked {
                    true => Old::Talking,
                    false => Old::Waiting,
                }));
            }
            Event::Refused(refusals::ROOM) if self.boxes.room_stays => self.shown([Old::Room]),
            _ => {}
        }
        self.boxes.note(event, now);
    }

    pub(super) fn fresh_frame(&mut self, side: Side, line: u8, came: Came, given: &Event) {
        if side == Side::Boiler && *given == Event::Refused(refusals::AGE) {
            let now = self.of(Thing::Tick);
            let owner = self.boxes.forgotten_talk(line, came.word, now);
            self.shown(owner.map(|owner| match owner {
                Owner::Thermostat => Old::OfThermostat,
                Owner::Modbus => Old::OfOrder,
            }));
        }
    }

    /// Exception 04 was given at once.
    pub(super) fn fresh_unknown(&mut self, line: u8, id: u8) {
        if self.boxes.knew(line, id) {
            self.shown([Old::Status]);
        }
    }

    pub(super) fn fresh_spelled(&mut self, line: &[u8], command: Option<&Command>) {
        let place = WRONG.iter().position(|wrong| wrong.as_bytes() == line);
        if let (Some(place), None) = (place, command) {
            self.count(Thing::Fresh(Fresh::Wrong(place)));
        }
    }

    pub(super) fn fresh_entries(&self) -> Vec<Entry> {
        let mut all = Vec::new();
        for (form, name, _) in FORMS {
            for (after, after_name, _) in FORMS {
                let name = format!("{after_name} box after a {name} box");
                all.push((name, Fresh::After(form, after)));
            }
        }
        for (form, form_name, _) in FORMS {
            for (name, old) in NAMES {
                let name = format!("new {form_name} box: {name}");
                all.push((name, Fresh::Shown(form, old)));
            }
        }
        for (place, line) in WRONG.iter().enumerate() {
            all.push((format!("wrong line: {line:?}"), Fresh::Wrong(place)));
        }
        all.into_iter()
            .map(|(name, fresh)| Entry::once(name, self.of(Thing::Fresh(fresh))))
            .collect()
    }
}
