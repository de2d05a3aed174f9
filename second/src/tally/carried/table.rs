//! The counts of the numbers carried along by name; each must have been seen.

use super::{Carried, Other, SHAPES};
use crate::gateway::Side;
use crate::generator::numbers::WRONG;
use crate::refusals;
use crate::tally::entry::Entry;
use crate::tally::{Tally, Thing};

type Named = (String, Carried);

/// Each side as a script names it, what is said where its frame goes, and its refusals in their order.
#[rustfmt::skip]
const SIDES: [(Side, &str, &str, &[u8]); 2] = [
    (Side::Thermostat, "thermostat", "thermostat's frame sent",
        &[refusals::LINE, refusals::PARITY, refusals::SPARE_BITS, refusals::TYPE]),
    (Side::Boiler, "boiler", "boiler's frame passed on",
        &[refusals::ROOM, refusals::LINE, refusals::PARITY, refusals::SPARE_BITS, refusals::TYPE,
            refusals::AGE, refusals::NO_MATCH]),
];

#[rustfmt::skip]
const OTHERS: [(Side, Other, &str); 10] = [
    (Side::Thermostat, Other::Replaced, "the held frame's it replaced"),
    (Side::Thermostat, Other::SameWord, "the held frame's it replaced, with the same word"),
    (Side::Thermostat, Other::Refused, "a frame's refused since it came"),
    (Side::Thermostat, Other::Before, "those sent before"),
    (Side::Thermostat, Other::Opposite, "the boiler's last frame's"),
    (Side::Thermostat, Other::Elsewhere, "another line's later frame's"),
    (Side::Boiler, Other::Refused, "a frame's refused in this talk"),
    (Side::Boiler, Other::Before, "those passed on before"),
    (Side::Boiler, Other::Opposite, "the question's"),
    (Side::Boiler, Other::Elsewhere, "another line's last answer's"),
];

#[rustfmt::skip]
const NAMES: [(&str, Carried); 7] = [
    ("order's frame sent, no numbers, not the held frame's", Carried::Order(Other::Held)),
    ("order's frame sent, no numbers, not those sent before", Carried::Order(Other::Before)),
    ("order's frame sent, no numbers, not the boiler's last frame's", Carried::Order(Other::Opposite)),
    ("numbers of an order's answer: a normal reply", Carried::Outcome(false)),
    ("numbers of an order's answer: an exception", Carried::Outcome(true)),
    ("numbers of a dropped answer", Carried::Dropped(false)),
    ("numbers of a dropped answer, its question's word held with others", Carried::Dropped(true)),
];

fn shapes() -> Vec<Named> {
    let mut all = Vec::new();
    for (side, _, goes, _) in SIDES {
        let name = format!("{goes}, no numbers given");
        all.push((name, Carried::Shape(side, None)));
        for (place, (shape, _)) in SHAPES.iter().enumerate() {
            let name = format!("{goes}, its numbers: {shape}");
            all.push((name, Carried::Shape(side, Some(place))));
        }
    }
    all
}

fn others() -> Vec<Named> {
    let mut all = Vec::new();
    for (side, other, whose) in OTHERS {
        let (_, _, goes, _) = SIDES[side as usize];
        for (numbers, has_numbers) in [("its numbers", true), ("no numbers", false)] {
            let name = format!("{goes}, {numbers}, not {whose}");
            all.push((name, Carried::Not(side, other, has_numbers)));
        }
    }
    all
}

fn refused() -> Vec<Named> {
    let mut all = Vec::new();
    for (side, source, _, refusals) in SIDES {
        for number in refusals {
            let name = format!("numbers of a {source} frame: refusal {number}");
            all.push((name, Carried::Refused(side, *number)));
        }
    }
    all
}

fn written() -> Vec<Named> {
    let mut all = Vec::new();
    for (side, source, _, _) in SIDES {
        let name = format!("{source} frame's numbers with leading zeros");
        all.push((name, Carried::Zeros(side)));
        for (place, tail) in WRONG.iter().enumerate() {
            let line = format!("{source} L W{tail}");
            all.push((format!("wrong line: {line:?}"), Carried::Wrong(side, place)));
        }
    }
    all
}

impl Tally {
    pub(in crate::tally) fn carried_entries(&self) -> Vec<Entry> {
        let plain = NAMES.map(|(name, carried)| (name.to_string(), carried));
        let all = [shapes(), others(), plain.into(), refused(), written()];
        all.into_iter()
            .flatten()
            .map(|(name, carried)| Entry::once(name, self.of(Thing::Carried(carried))))
            .collect()
    }
}
