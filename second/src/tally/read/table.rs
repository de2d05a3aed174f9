//! The counts of the edges read by name; each must have been seen.

use super::{End, Read, DISTANCES, ENDS};
use crate::frame::Edges;
use crate::tally::entry::Entry;
use crate::tally::{Tally, Thing};

/// The answers before a frame that can come behind a distance.
const BEFORE: [(&str, Option<u8>); 5] = [
    ("the frame before", None),
    ("what 1 refused before", Some(1)),
    ("what 2 refused before", Some(2)),
    ("what 3 refused before", Some(3)),
    ("what 4 refused before", Some(4)),
];

/// "The two lie between 18 and 23."
fn pairs() -> impl Iterator<Item = Edges> {
    let with = |smallest| (smallest..=23).map(move |largest| Edges { smallest, largest });
    (18..=23).flat_map(with)
}

impl Tally {
    pub(in crate::tally) fn edges_read_entries(&self) -> Vec<Entry> {
        let (equal, unlike): (Vec<Edges>, Vec<Edges>) =
            pairs().partition(|pair| pair.smallest == pair.largest);
        let edges = |pairs: Vec<Edges>| pairs.into_iter().map(Read::Edges).collect();
        // "The start bit's middle edge follows at distance 8 to 14", which is none of the 33.
        let halves = (8..=14).map(Read::FirstHalf).collect();
        let mut all = vec![
            self.each_of("frame read, all distances equal: pairs", edges(equal)),
            self.each_of("frame read, smallest below largest: pairs", edges(unlike)),
            self.each_of("frame read: lengths of the start bit's first half", halves),
        ];
        for end in ENDS {
            all.extend(self.entries_at(end));
        }
        all
    }

    fn entries_at(&self, end: End) -> Vec<Entry> {
        let (this, beyond) = match end {
            End::Smallest => ("the smallest distance", "a smaller one"),
            End::Largest => ("the largest distance", "a larger one"),
        };
        let once = |name, read| Entry::once(name, self.of(Thing::Read(read)));
        let alone = |place| Read::Alone(end, place);
        let name = format!("frame read, {this} stands alone");
        let places = (0..DISTANCES).map(alone).collect();
        let mut all = vec![
            self.each_of(&format!("{name}: places"), places),
            once(format!("{name}: the first"), alone(0)),
            once(format!("{name}: the last"), alone(DISTANCES - 1)),
        ];
        for (before, refusal) in BEFORE {
            let name = format!("frame read, {before} had {beyond}");
            all.push(once(name, Read::Beyond(end, refusal)));
        }
        all
    }

    /// How many of these were seen, which must be all.
    fn each_of(&self, name: &str, all: Vec<Read>) -> Entry {
        let seen = |read: &&Read| self.of(Thing::Read(**read)) > 0;
        let many = all.iter().filter(seen).count();
        Entry::exactly(all.len() as u64, name, many as u64)
    }
}
