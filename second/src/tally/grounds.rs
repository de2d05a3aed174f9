//! What could have led to another answer to a status question, or to another byte in it, had the box
//! looked at the wrong thing (02, Ask 2).

use super::history::{History, Other, OTHERS};
use crate::status::IDS;

#[derive(Clone, Copy, PartialEq, Eq, PartialOrd, Ord, Debug)]
pub enum Ground {
    NoneCame,
    Held,
    Replaced,
    /// The other id's status went out, and this one's was asked for.
    OtherId(u8),
    OtherLine,
    Other(Other),
    Newer,
    LowByte,
    High00,
    HighNot00,
}

impl History {
    /// All that is so where no status with this id went out on the line.
    pub fn unknown(&self, line: u8, id: u8) -> Vec<Ground> {
        let (seen, held) = (self.of(line, id), self.held(line, id).is_some());
        let none_came = IDS.iter().all(|id| !self.of(line, *id).came);
        let other_line = self.other_lines(line, id).next().is_some();
        let grounds = [
            (Ground::NoneCame, none_came),
            (Ground::Held, held),
            (Ground::Replaced, seen.came && !held),
            (Ground::OtherId(id), self.other_ids(line, id).is_some()),
            (Ground::OtherLine, other_line),
        ];
        let others = OTHERS.map(|other| (Ground::Other(other), seen.other(other).is_some()));
        those_so(grounds.into_iter().chain(others))
    }

    /// All that has a high byte other than this one.
    pub fn other_bytes(&self, line: u8, id: u8, high: u8) -> Vec<Ground> {
        let unlike = |byte: Option<u8>| byte.is_some_and(|byte| byte != high);
        let other_line = self.other_lines(line, id).any(|byte| byte != high);
        let grounds = [
            (Ground::Held, unlike(self.held(line, id))),
            (Ground::OtherId(id), unlike(self.other_ids(line, id))),
            (Ground::OtherLine, other_line),
        ];
        let seen = self.of(line, id);
        let others = OTHERS.map(|other| (Ground::Other(other), unlike(seen.other(other))));
        those_so(grounds.into_iter().chain(others))
    }

    /// The status of the other id on this line.
    fn other_ids(&self, line: u8, id: u8) -> Option<u8> {
        let other = IDS.into_iter().find(|other| *other != id)?;
        self.of(line, other).out.map(|out| out.high())
    }

    /// This id's status on the other lines.
    fn other_lines(&self, line: u8, id: u8) -> impl Iterator<Item = u8> + '_ {
        let others = (1..=4).filter(move |other| *other != line);
        others.filter_map(move |other| self.of(other, id).out.map(|out| out.high()))
    }
}

fn those_so(grounds: impl Iterator<Item = (Ground, bool)>) -> Vec<Ground> {
    grounds
        .filter(|(_, so)| *so)
        .map(|(ground, _)| ground)
        .collect()
}
