//! The counts as a table, and what is missing from it.

use super::entry::Entry;
use super::{Tally, Thing, KINDS};
use crate::programs::Name;

/// The shortest and the longest wait an order can have, which both must be seen.
const SHORTEST_WAIT: u64 = 85;
const LONGEST_WAIT: u64 = 1950;

/// The things that each have a line of their own.
const PLAIN: [(&str, Thing); 14] = [
    ("script lines", Thing::ScriptLine),
    ("lines that are none", Thing::NoLine),
    ("ticks", Thing::Tick),
    ("samples read", Thing::SampleRead),
    ("frames read from samples", Thing::FrameRead),
    ("samples written", Thing::SampleWritten),
    ("lines listed", Thing::LineListed),
    ("listed: odd parity", Thing::OddListed),
    ("floats", Thing::Float),
    ("floats that are raw numbers", Thing::RawNumber),
    ("words sent", Thing::Sent),
    ("thermostat frames held", Thing::Held),
    ("boiler frames passed on", Thing::Passed),
    ("boiler frames dropped", Thing::Dropped),
];

/// Things that must have occurred, each with its name, in the table's order. Refusal 16 is counted
/// for each side, with the spare bits.
fn plain_and_refusals() -> Vec<(String, Thing)> {
    let mut all: Vec<(String, Thing)> = PLAIN.map(|(name, thing)| (name.into(), thing)).into();
    for kind in KINDS {
        all.push((format!("listed: {kind}"), Thing::KindListed(kind)));
    }
    for number in 1..=15 {
        all.push((format!("refusal {number}"), Thing::Refusal(number)));
    }
    all
}

impl Tally {
    fn entries(&self) -> Vec<Entry> {
        let counted = |(name, thing): (String, Thing)| Entry::once(name, self.of(thing));
        let mut all: Vec<Entry> = plain_and_refusals().into_iter().map(counted).collect();
        all.extend(self.edges_read_entries());
        all.extend(self.spare_entries());
        all.extend(self.modbus_entries());
        all.extend(self.wrapped_entries());
        all.extend(self.echo_entries());
        all.extend(self.fresh_entries());
        all.extend(self.status_entries());
        all.extend(self.carried_entries());
        if Name::Still.is_compared() {
            all.extend(self.still_entries());
        }
        // Not every round has a short tail; a fixed vector always has one.
        let short = self.of(Thing::ShortListed);
        all.push(Entry::shown("listed: short tail", short));
        let (least, most) = self.waits.unwrap_or((0, 0));
        all.push(Entry::exactly(SHORTEST_WAIT, "shortest wait", least.into()));
        all.push(Entry::exactly(LONGEST_WAIT, "longest wait", most.into()));
        all
    }

    pub fn table(&self) -> String {
        self.entries().iter().map(Entry::line).collect()
    }

    /// What never occurred.
    pub fn missing(&self) -> Vec<String> {
        self.entries().iter().filter_map(Entry::lack).collect()
    }
}
