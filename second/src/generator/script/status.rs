//! The status of ids 0 and 70 in a script (02, Ask 2). A line's status, once out, is known for good,
//! so each line and id has a time of its own before which no status goes out: some scripts begin with
//! one, in some it comes in the middle or never.

use super::{Plan, Script, ENDS};
use crate::line::Owner;
use crate::modbus::ROWS;
use crate::random::Random;
use crate::status::IDS;
use crate::word;

/// For each line and id the script's line from which on a status may go out.
pub(super) fn times(random: &mut Random, size: usize) -> [[usize; 2]; 4] {
    let mut times = [[0; 2]; 4];
    for time in times.iter_mut().flatten() {
        let middle = random.below(size as u64 + 1) as usize;
        *time = random.pick(&[0, middle, middle, size]);
    }
    times
}

impl Script {
    /// A frame of one of the two ids, most often the status itself.
    pub(super) fn status_frame(&mut self) -> u32 {
        let kind = self.random.pick(&[
            word::READ_DATA,
            word::READ_DATA,
            word::READ_DATA,
            word::WRITE_DATA,
            word::INVALID_DATA,
        ]);
        let (id, value) = (self.random.pick(&IDS), self.status_value());
        word::build(kind, id, value).expect("a type up to 2")
    }

    /// Few high bytes, so that they are often equal and often not; 00 is one as any other.
    fn status_value(&mut self) -> u16 {
        let (high, low) = (self.random.byte(), self.random.byte());
        let high = self.random.pick(&[0x00, 0x00, 0x01, 0x03, high, high]);
        u16::from_be_bytes([high, self.random.pick(&[0, low, low])])
    }

    /// The frame, or where its status mayn't go out yet, a frame that looks like one.
    pub(super) fn in_its_time(&mut self, place: usize, frame: u32) -> u32 {
        let Some(id) = IDS.iter().position(|id| *id == word::id_of(frame)) else {
            return frame;
        };
        if word::type_of(frame) != word::READ_DATA || self.lines >= self.status_from[place][id] {
            return frame;
        }
        let kind = self.random.pick(&[word::WRITE_DATA, word::INVALID_DATA]);
        word::build(kind, IDS[id], word::value_of(frame)).expect("a type up to 2")
    }

    /// The id of an order, often one of the two.
    pub(super) fn order_id(&mut self) -> u8 {
        let id = self.id();
        let status = self.random.pick(&IDS);
        self.random.pick(&[status, status, id, id, id])
    }

    /// A status with this id.
    fn status(&mut self, id: u8) -> u32 {
        word::build(word::READ_DATA, id, self.status_value()).expect("READ-DATA is a type")
    }

    /// A status is held and asked for before any tick; where it mayn't go out yet, a frame that looks
    /// like it takes its place.
    pub(super) fn held_status(&mut self) {
        let (place, id) = (self.random.below(4) as usize, self.random.pick(&IDS));
        let (line, status) = (place as u64 + 1, self.status(id));
        self.frame("thermostat", line, status);
        for _ in 0..self.random.between(1, 2) {
            self.ask_status(place, id);
        }
        let later = self.in_its_time(place, status);
        if later != status {
            self.frame("thermostat", line, later);
        }
    }

    /// A line's first status has gone out: it is asked for during its talk, or when no answer came.
    pub(super) fn first_status(&mut self) {
        for (place, id) in (0..4).flat_map(|place| [(place, 0), (place, 1)]) {
            let known = self.model.gateway.lines[place].status.of(IDS[id]).is_some();
            let can_ask = self.model.gateway.order.is_none() && self.model.room >= 16;
            if known && can_ask && !self.first_asked[place][id] {
                self.first_asked[place][id] = true;
                if self.random.percent(50) {
                    self.tick(875);
                }
                self.ask_status(place, IDS[id]);
            }
        }
    }

    /// Asks for a status where it is most telling: while it is talked, or while a newer one is held.
    pub(super) fn status_order(&mut self) {
        let talked: Vec<(usize, u8)> = (0..4)
            .filter_map(|place| self.talked_status(place))
            .collect();
        let (place, id) = if !talked.is_empty() && self.random.percent(50) {
            self.random.pick(&talked)
        } else {
            (self.random.below(4) as usize, self.random.pick(&IDS))
        };
        let known = self.model.gateway.lines[place].status.of(id).is_some();
        if known && self.random.percent(40) {
            let newer = self.status(id);
            self.frame("thermostat", place as u64 + 1, newer);
        }
        self.ask_status(place, id);
    }

    /// The line's place and the id, where the thermostat's status is being talked.
    fn talked_status(&self, place: usize) -> Option<(usize, u8)> {
        let (frame, owner) = (self.talked(place)?, self.model.gateway.lines[place].last);
        let id = word::id_of(frame);
        let reads = owner == Owner::Thermostat && word::type_of(frame) == word::READ_DATA;
        (reads && IDS.contains(&id)).then_some((place, id))
    }

    /// By one of the rows that send no value.
    pub(super) fn ask_status(&mut self, place: usize, id: u8) {
        let rows: Vec<usize> = (0..ROWS.len())
            .filter(|row| !ROWS[*row].sends_value)
            .collect();
        let plan = Plan {
            row: self.random.pick(&rows),
            end: self.random.pick(&ENDS),
        };
        self.order_on(place, plan, id);
    }
}
