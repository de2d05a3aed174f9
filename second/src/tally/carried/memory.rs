//! The frames that a script has brought and their numbers, kept apart from the box's own memory, so
//! that no count goes by what it is to check.

use super::Other;
use crate::frame::{Edges, NO_EDGES};
use crate::gateway::{Event, Side};
use crate::line::Owner;
use crate::programs::command::Came;

/// Where there are two, they are the thermostat's and the boiler's.
#[derive(Clone, Copy, Default)]
struct LineSeen {
    /// The frame that is held, and the one whose place it took.
    held: Option<Came>,
    replaced: Option<Came>,
    /// The last that were refused, since the held one came and since the talk began.
    refused: [Option<Came>; 2],
    /// The last that were sent and passed on.
    gone: [Option<Came>; 2],
    /// The boiler's last, whatever came of it.
    boiler: Option<Came>,
}

#[derive(Default)]
pub struct Memory {
    lines: [LineSeen; 4],
    /// The last of the whole box that weren't refused, with their lines.
    latest: [Option<(u8, Came)>; 2],
}

const THERMOSTAT: usize = Side::Thermostat as usize;
const BOILER: usize = Side::Boiler as usize;

impl Memory {
    fn of(&self, line: u8) -> &LineSeen {
        &self.lines[usize::from(line) - 1]
    }

    pub fn held(&self, line: u8) -> Option<Came> {
        self.of(line).held
    }

    /// The word that is talked is held once more, with other numbers.
    pub fn held_again(&self, line: u8) -> bool {
        let (held, talked) = (self.held(line), self.of(line).gone[THERMOSTAT]);
        let word = |came: Came| came.word;
        held.map(word) == talked.map(word) && edges_of(held) != edges_of(talked)
    }

    /// All that had other numbers than this frame, which goes now.
    pub fn unlike(&self, side: Side, line: u8, came: Came) -> Vec<Other> {
        let (seen, place) = (self.of(line), side as usize);
        let same_word = |other: &Came| other.word == came.word;
        let latest = self.latest[place].filter(|latest| latest.0 != line);
        let others = [
            (Other::Refused, seen.refused[place]),
            (Other::Before, seen.gone[place]),
            (Other::Elsewhere, latest.map(|latest| latest.1)),
        ];
        let of_its_side = match side {
            Side::Thermostat => vec![
                (Other::Replaced, seen.replaced),
                (Other::SameWord, seen.replaced.filter(same_word)),
                (Other::Opposite, seen.boiler),
            ],
            Side::Boiler => vec![(Other::Opposite, seen.gone[THERMOSTAT])],
        };
        those_unlike(&[&others[..], &of_its_side].concat(), came.frame().edges)
    }

    /// All that had numbers, where an order's own frame goes out.
    pub fn unlike_order(&self, line: u8) -> Vec<Other> {
        let seen = self.of(line);
        let others = [
            (Other::Held, seen.held),
            (Other::Before, seen.gone[THERMOSTAT]),
            (Other::Opposite, seen.boiler),
        ];
        those_unlike(&others, NO_EDGES)
    }

    pub fn comes(&mut self, side: Side, line: u8, came: Came, given: &Event) {
        let Some(seen) = self.lines.get_mut(usize::from(line).wrapping_sub(1)) else {
            return;
        };
        if side == Side::Boiler {
            seen.boiler = Some(came);
        }
        match given {
            Event::Refused(_) => {
                seen.refused[side as usize] = Some(came);
                return;
            }
            Event::Held { .. } => {
                seen.replaced = seen.held.replace(came);
                seen.refused[THERMOSTAT] = None;
            }
            Event::Passed { .. } => seen.gone[BOILER] = Some(came),
            _ => {}
        }
        self.latest[side as usize] = Some((line, came));
    }

    /// A talk begins.
    pub fn goes_out(&mut self, line: u8, owner: Owner) {
        let seen = &mut self.lines[usize::from(line) - 1];
        seen.refused[BOILER] = None;
        if owner == Owner::Thermostat {
            seen.gone[THERMOSTAT] = seen.held.take();
            seen.replaced = None;
        }
    }
}

fn edges_of(came: Option<Came>) -> Option<Edges> {
    came.map(|came| came.frame().edges)
}

fn those_unlike(others: &[(Other, Option<Came>)], edges: Edges) -> Vec<Other> {
    let unlike = |came| edges_of(came).is_some_and(|other| other != edges);
    let those = others.iter().filter(|(_, came)| unlike(*came));
    those.map(|(other, _)| *other).collect()
}
