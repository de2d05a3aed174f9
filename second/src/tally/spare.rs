//! What spare bits did (02, Ask 1): how often 16 was given on each side, for which spare bits, what
//! it stood before and behind, and how the talk went on.

use std::ops::RangeInclusive;

use super::entry::Entry;
use super::{Tally, Thing};
use crate::gateway::{Event, Side};
use crate::{refusals, word};

/// 'Else' in the names below: what the frame would have brought with its spare bits 0.
#[derive(Clone, Copy, PartialEq, Eq, PartialOrd, Ord, Debug)]
pub enum Spare {
    /// Refusal 16, for spare bits of this value.
    Refused(Side, u8),
    /// Refusal 16, else this number.
    ElseRefused(Side, u8),
    /// Refusal 16, else held.
    ElseHeld,
    /// Refusal 16, else an answer that ends the talk.
    ElseEnded(End),
    /// A number that stands before 16, though a spare bit was set.
    Behind(Side, u8),
    /// The end of a talk in which 16 was given to what else had been its answer.
    EndedAfter(End),
    /// Words that a line refuses with 16, where nothing looks at spare bits.
    Listed,
    Read,
    Written,
}

#[derive(Clone, Copy, PartialEq, Eq, PartialOrd, Ord, Debug)]
pub enum End {
    Answered,
    NoAnswer,
    Passed,
    Dropped,
}

const SIDES: [(Side, &str); 2] = [
    (Side::Thermostat, "a thermostat frame"),
    (Side::Boiler, "a boiler frame"),
];

#[rustfmt::skip]
const NAMES: [(&str, Spare); 19] = [
    ("16 for a thermostat frame, else 6", Spare::ElseRefused(Side::Thermostat, refusals::TYPE)),
    ("16 for a thermostat frame, else held", Spare::ElseHeld),
    ("16 for a boiler frame, else 6", Spare::ElseRefused(Side::Boiler, refusals::TYPE)),
    ("16 for a boiler frame, else 7", Spare::ElseRefused(Side::Boiler, refusals::AGE)),
    ("16 for a boiler frame, else 8", Spare::ElseRefused(Side::Boiler, refusals::NO_MATCH)),
    ("16 for a boiler frame, else an order's outcome", Spare::ElseEnded(End::Answered)),
    ("16 for a boiler frame, else passed on", Spare::ElseEnded(End::Passed)),
    ("16 for a boiler frame, else dropped", Spare::ElseEnded(End::Dropped)),
    ("an order answered, after 16 for an answer", Spare::EndedAfter(End::Answered)),
    ("an order without answer, after 16 for an answer", Spare::EndedAfter(End::NoAnswer)),
    ("an answer passed on, after 16 for an answer", Spare::EndedAfter(End::Passed)),
    ("9 for a thermostat frame with spare bits", Spare::Behind(Side::Thermostat, refusals::LINE)),
    ("5 for a thermostat frame with spare bits", Spare::Behind(Side::Thermostat, refusals::PARITY)),
    ("15 for a boiler frame with spare bits", Spare::Behind(Side::Boiler, refusals::ROOM)),
    ("9 for a boiler frame with spare bits", Spare::Behind(Side::Boiler, refusals::LINE)),
    ("5 for a boiler frame with spare bits", Spare::Behind(Side::Boiler, refusals::PARITY)),
    ("spare bits set: listed", Spare::Listed),
    ("spare bits set: read from samples", Spare::Read),
    ("spare bits set: written as samples", Spare::Written),
];

impl Tally {
    /// A frame with a spare bit set, what it was given, and what it would have brought else.
    pub fn spare_frame(&mut self, side: Side, frame: u32, given: &Event, otherwise: &Event) {
        let Event::Refused(number) = *given else {
            return;
        };
        if number != refusals::SPARE_BITS {
            return self.count(Thing::Spare(Spare::Behind(side, number)));
        }
        let spare = word::spare_of(frame);
        self.count(Thing::Spare(Spare::Refused(side, spare)));
        self.count(Thing::Spare(in_place_of(side, otherwise)));
        self.spoilt.extend(end_of(otherwise).map(|(line, _)| line));
    }

    /// Counts how a talk ends that 16 kept from ending earlier.
    pub(super) fn end_of_talk(&mut self, event: &Event) {
        if let Event::Sent { line, .. } = event {
            // A thermostat's talk without answer ended before, and nothing told of it.
            self.spoilt.remove(line);
        }
        if let Some((line, end)) = end_of(event) {
            if self.spoilt.remove(&line) {
                self.count(Thing::Spare(Spare::EndedAfter(end)));
            }
        }
    }

    /// Counts the words that a line would refuse with 16, at a place that doesn't.
    pub fn spare_words(&mut self, place: Spare, words: &[u8]) {
        let refused = |bytes: &&[u8]| {
            let frame = u32::from_be_bytes([bytes[0], bytes[1], bytes[2], bytes[3]]);
            word::check_at_the_line(frame) == Err(refusals::SPARE_BITS)
        };
        let many = words.chunks_exact(4).filter(refused).count();
        self.count_many(Thing::Spare(place), many);
    }

    pub(super) fn spare_entries(&self) -> Vec<Entry> {
        let mut all: Vec<Entry> = SIDES
            .into_iter()
            .flat_map(|(side, name)| self.refused_entries(side, name))
            .collect();
        for (name, spare) in NAMES {
            all.push(Entry::once(name, self.of(Thing::Spare(spare))));
        }
        all
    }

    /// A word of even parity with one spare bit set is a good one with a pair of bits flipped, one
    /// of them spare; with two spare bits set, both are.
    fn refused_entries(&self, side: Side, name: &str) -> [Entry; 4] {
        let of = |spare: u8| self.of(Thing::Spare(Spare::Refused(side, spare)));
        let sum = |ones: RangeInclusive<u32>| {
            let spares = (1..=15u8).filter(|spare| ones.contains(&spare.count_ones()));
            spares.map(of).sum()
        };
        let values = (1..=15).filter(|spare| of(*spare) > 0).count() as u64;
        let name = format!("refusal 16 for {name}");
        [
            Entry::once(&name, sum(1..=4)),
            Entry::exactly(15, format!("{name}: spare values"), values),
            Entry::once(format!("{name}: a pair of flips, one spare"), sum(1..=1)),
            Entry::once(format!("{name}: a pair of flips, both spare"), sum(2..=2)),
        ]
    }
}

/// What 16 was given in place of.
fn in_place_of(side: Side, otherwise: &Event) -> Spare {
    match (otherwise, end_of(otherwise)) {
        (Event::Refused(number), _) => Spare::ElseRefused(side, *number),
        (_, Some((_, end))) => Spare::ElseEnded(end),
        _ => Spare::ElseHeld,
    }
}

/// The line whose talk ends with the event, and how.
fn end_of(event: &Event) -> Option<(u8, End)> {
    match event {
        Event::Outcome { order, answer, .. } => {
            let end = answer.map_or(End::NoAnswer, |_| End::Answered);
            Some((order.unit, end))
        }
        Event::Passed { line, .. } => Some((*line, End::Passed)),
        Event::Dropped { line } => Some((*line, End::Dropped)),
        _ => None,
    }
}
