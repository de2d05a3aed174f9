//! What became of the numbers that frames came with (02, Ask 3): which went out and on, whose numbers
//! could have been taken for them, which went nowhere, and how they were written.

mod memory;
mod table;

use super::{Tally, Thing};
use crate::frame::{Edges, NO_EDGES};
use crate::gateway::{Event, Side};
use crate::generator::numbers::WRONG;
use crate::line::Owner;
use crate::programs::command::{Came, Command};

pub use memory::Memory;

/// A frame goes where it is the thermostat's and is sent, or the boiler's and is passed on. It has
/// numbers where they aren't both 0.
#[derive(Clone, Copy, PartialEq, Eq, PartialOrd, Ord, Debug)]
pub enum Carried {
    /// A frame of this side goes with the numbers it came with, of the shape that has this place, or
    /// came with none.
    Shape(Side, Option<usize>),
    /// The same with numbers, or without, while this frame had others.
    Not(Side, Other, bool),
    /// An order's own frame goes out without numbers, while this frame had some.
    Order(Other),
    /// Numbers of an order's answer; is its reply an exception?
    Outcome(bool),
    /// Numbers of an answer that is dropped; is its question's word held again with others?
    Dropped(bool),
    Refused(Side, u8),
    /// Numbers with leading zeros, and the place of those that make a line wrong.
    Zeros(Side),
    Wrong(Side, usize),
}

/// A frame whose numbers could be taken for those of the one that goes.
#[derive(Clone, Copy, PartialEq, Eq, PartialOrd, Ord, Debug)]
pub enum Other {
    Held,
    /// The held one whose place it took; with the same word.
    Replaced,
    SameWord,
    /// Refused since it came, or since its talk began.
    Refused,
    /// The last of this side that went.
    Before,
    /// The boiler's last one for what is sent, the question for what is passed on.
    Opposite,
    /// The last of this side on another line.
    Elsewhere,
}

/// A shape of two numbers by name, and which have it.
type Shape = (&'static str, fn(Edges) -> bool);

#[rustfmt::skip]
const SHAPES: [Shape; 9] = [
    ("both 0", |edges| edges == NO_EDGES),
    ("0 and not 0", |edges| edges.smallest == 0 && edges.largest != 0),
    ("not 0 and 0", |edges| edges.smallest != 0 && edges.largest == 0),
    ("equal", |edges| edges.smallest == edges.largest && edges != NO_EDGES),
    ("the larger first", |edges| edges.smallest > edges.largest && edges.largest != 0),
    ("the smaller first, 18 to 23", |edges| edges.smallest < edges.largest && are_read(edges)),
    ("the smaller first, not 18 to 23", |edges| 0 < edges.smallest && edges.smallest < edges.largest && !are_read(edges)),
    ("255 first", |edges| edges.smallest == 255),
    ("255 last", |edges| edges.largest == 255),
];

/// "The two lie between 18 and 23" where a reader gave them.
fn are_read(edges: Edges) -> bool {
    edges.smallest >= 18 && edges.largest <= 23
}

impl Tally {
    fn carried(&mut self, carried: Carried) {
        self.count(Thing::Carried(carried));
    }

    pub(super) fn numbers_spelled(&mut self, line: &[u8], command: Option<&Command>) {
        match command {
            Some(Command::Frame(side, _, Came { edges: Some(_), .. })) => {
                let mut numbers = line.split(|byte| *byte == b' ').skip(3);
                if numbers.any(|digits| digits.len() > 1 && digits[0] == b'0') {
                    self.carried(Carried::Zeros(*side));
                }
            }
            Some(_) => {}
            None => {
                for (place, tail) in WRONG.iter().enumerate() {
                    let head = line.strip_suffix(tail.as_bytes()).and_then(Command::of);
                    if let Some(Command::Frame(side, 1..=4, Came { edges: None, .. })) = head {
                        self.carried(Carried::Wrong(side, place));
                    }
                }
            }
        }
    }

    pub(super) fn numbers_came(&mut self, side: Side, line: u8, came: Came, given: &Event) {
        let has_numbers = came.frame().edges != NO_EDGES;
        match given {
            Event::Passed { frame, .. } if *frame == came.frame() => self.goes(side, line, came),
            Event::Dropped { .. } if has_numbers => {
                self.carried(Carried::Dropped(self.memory.held_again(line)));
            }
            Event::Outcome { bytes, .. } if has_numbers => {
                let code = self.exception(bytes);
                self.carried(Carried::Outcome(code.is_some()));
            }
            Event::Refused(number) if has_numbers => self.carried(Carried::Refused(side, *number)),
            _ => {}
        }
        self.memory.comes(side, line, came, given);
    }

    pub(super) fn carried_event(&mut self, event: &Event) {
        let Event::Sent { line, owner, frame } = *event else {
            return;
        };
        match (owner, self.memory.held(line)) {
            (Owner::Thermostat, Some(held)) if held.frame() == frame => {
                self.goes(Side::Thermostat, line, held);
            }
            (Owner::Modbus, _) if frame.edges == NO_EDGES => {
                for other in self.memory.unlike_order(line) {
                    self.carried(Carried::Order(other));
                }
            }
            _ => {}
        }
        self.memory.goes_out(line, owner);
    }

    /// Counted only where the numbers are those that the frame came with.
    fn goes(&mut self, side: Side, line: u8, came: Came) {
        let shape = |place: &usize| came.edges.is_some_and(SHAPES[*place].1);
        for place in (0..SHAPES.len()).filter(shape) {
            self.carried(Carried::Shape(side, Some(place)));
        }
        if came.edges.is_none() {
            self.carried(Carried::Shape(side, None));
        }
        let edges = came.frame().edges;
        for other in self.memory.unlike(side, line, came) {
            self.carried(Carried::Not(side, other, edges != NO_EDGES));
        }
    }
}
