//! The counts of otstill by name; each must have been seen.

use super::{LogIs, Said, Still, COUNTS, GROUNDS, KINDS, REPORTS, VALUES};
use crate::generator::logs::{STRANGE_LINES, WRONG};
use crate::programs::{Argument, Name};
use crate::report::command;
use crate::tally::entry::Entry;
use crate::tally::{Tally, Thing};

type Named = (String, Still);

const SAID: [(&str, Said); 4] = [
    ("the usage line", Said::Usage),
    ("refusal 9", Said::Refused9),
    ("refusal 19", Said::Refused19),
    ("a report", Said::Report),
];

const LOGS: [(&str, LogIs); 3] = [
    ("a good log", LogIs::Good),
    ("a broken log", LogIs::Broken),
    ("an empty log", LogIs::Empty),
];

fn said() -> Vec<Named> {
    let mut all: Vec<Named> = SAID
        .map(|(name, said)| (name.to_string(), Still::Said(said)))
        .into();
    for (name, said) in &SAID[..2] {
        for (log, is) in LOGS {
            all.push((format!("{name}: {log}"), Still::Unread(*said, is)));
        }
    }
    all
}

fn arguments() -> Vec<Named> {
    let mut all = Vec::new();
    for (place, line) in STRANGE_LINES.iter().enumerate() {
        all.push((format!("refusal 9: LINE {line}"), Still::StrangeLine(place)));
    }
    for (place, wrong) in WRONG.iter().enumerate() {
        let wrong: Vec<Argument> = wrong.iter().map(|argument| argument.to_vec()).collect();
        let name = format!("the usage line: {}", command(Name::Still, &wrong));
        all.push((name, Still::Wrong(place)));
    }
    all
}

/// The names of a table of shapes, each with its place.
fn shapes<T>(beginning: &str, table: &[(&str, T)], still: fn(usize) -> Still) -> Vec<Named> {
    let named =
        |(place, (name, _)): (usize, &(&str, T))| (format!("{beginning}: {name}"), still(place));
    table.iter().enumerate().map(named).collect()
}

fn values() -> Vec<Named> {
    let mut all = Vec::new();
    for (kind, (kind_name, _)) in KINDS.iter().enumerate() {
        for (place, (name, _)) in VALUES.iter().enumerate() {
            let name = format!("a report: {kind_name}: {name}");
            all.push((name, Still::Values(kind, place)));
        }
    }
    all
}

impl Tally {
    pub(in crate::tally) fn still_entries(&self) -> Vec<Entry> {
        let all = [
            said(),
            arguments(),
            shapes("refusal 19", &GROUNDS, Still::Ground),
            shapes("refusal 19", &COUNTS, Still::Count),
            shapes("a report", &REPORTS, Still::Report),
            values(),
        ];
        let once =
            |(name, still)| Entry::once(format!("still: {name}"), self.of(Thing::Still(still)));
        let mut entries: Vec<Entry> = all.into_iter().flatten().map(once).collect();
        // Bit 0 is no line's.
        let lines = (0..16).map(|bits| Still::Lines(bits << 1));
        entries.push(self.still_each("a report: which lines are listed", lines.collect()));
        let asked = (1..=4).map(Still::Asked);
        entries.push(self.still_each("a report: which line is asked for", asked.collect()));
        entries
    }

    /// How many of these were seen, which must be all.
    fn still_each(&self, name: &str, all: Vec<Still>) -> Entry {
        let seen = |still: &&Still| self.of(Thing::Still(**still)) > 0;
        let many = all.iter().filter(seen).count();
        Entry::exactly(all.len() as u64, format!("still: {name}"), many as u64)
    }
}
