//! The grounds for refusal 19 by name, where nothing else is wrong with the log.

use super::faults::{End, Fall, Stray};
use super::Fault;
use crate::log;

/// A ground by name, and which faults are it, in which log.
type Ground = (&'static str, fn(&Fault, &[u8]) -> bool);

#[rustfmt::skip]
pub const GROUNDS: [Ground; 51] = [
    ("empty", |fault, _| *fault == Fault::Ends(End::LineCount)),
    ("the line count alone", |fault, log| *fault == Fault::Ends(End::Lines) && log.len() == 1),
    ("ends in the lines", |fault, log| *fault == Fault::Ends(End::Lines) && log.len() > 1),
    ("ends behind the lines", |fault, log| *fault == Fault::Ends(End::ReadingCount(0)) && log.len() > 1),
    ("00 alone", |fault, log| *fault == Fault::Ends(End::ReadingCount(0)) && log.len() == 1),
    ("ends in the count of readings", |fault, _| *fault == Fault::Ends(End::ReadingCount(1))),
    ("ends behind the count of readings", |fault, log| is_end(fault, 0) && log.len() == 3 + usize::from(log[0])),
    ("ends behind a reading", |fault, log| is_end(fault, 0) && log.len() > 3 + usize::from(log[0])),
    ("ends after 1 byte of a reading", |fault, _| is_end(fault, 1)),
    ("ends after 2 bytes of a reading", |fault, _| is_end(fault, 2)),
    ("ends after 3 bytes of a reading", |fault, _| is_end(fault, 3)),
    ("ends after 4 bytes of a reading", |fault, _| is_end(fault, 4)),
    ("ends after 5 bytes of a reading", |fault, _| is_end(fault, 5)),
    ("ends after 6 bytes of a reading", |fault, _| is_end(fault, 6)),
    ("ends after 7 bytes of a reading", |fault, _| is_end(fault, 7)),
    ("the largest log less a byte", |fault, log| is_end(fault, 7) && log.len() == log::LARGEST - 1),
    ("a byte over", |fault, _| *fault == Fault::Over(1)),
    ("2 to 7 bytes over", |fault, _| matches!(fault, Fault::Over(2..=7))),
    ("8 bytes over", |fault, _| *fault == Fault::Over(8)),
    ("a byte over behind no reading", |fault, log| *fault == Fault::Over(1) && log.len() == 4),
    ("the largest log and a byte over", |_, log| log.len() == log::LARGEST + 1),
    ("longer still", |_, log| log.len() > log::LARGEST + 65_536),
    ("line 0 listed", |fault, _| *fault == Fault::Listed(0)),
    ("line 5 listed", |fault, _| *fault == Fault::Listed(5)),
    ("line 6 listed", |fault, _| *fault == Fault::Listed(6)),
    ("line 255 listed", |fault, _| *fault == Fault::Listed(255)),
    ("a line listed twice", |fault, _| matches!(fault, Fault::NotAbove(before, line) if before == line)),
    ("lines that fall", |fault, _| matches!(fault, Fault::NotAbove(before, line) if before > line)),
    ("a tick falls by one: both readings asked for", |fault, _| is_fall(fault, |fall| fall.by_one() && fall.asked == (true, true))),
    ("a tick falls by one: the earlier asked for", |fault, _| is_fall(fault, |fall| fall.by_one() && fall.asked == (true, false))),
    ("a tick falls by one: the later asked for", |fault, _| is_fall(fault, |fall| fall.by_one() && fall.asked == (false, true))),
    ("a tick falls by one: neither asked for", |fault, _| is_fall(fault, |fall| fall.by_one() && fall.asked == (false, false))),
    ("a tick falls by one: its low byte rises", |fault, _| is_fall(fault, |fall| fall.by_one() && fall.rises(0xFF))),
    ("a tick falls by one: its low two bytes rise", |fault, _| is_fall(fault, |fall| fall.by_one() && fall.rises(0xFFFF))),
    ("a tick falls by one: its low three bytes rise", |fault, _| is_fall(fault, |fall| fall.by_one() && fall.rises(0xFF_FFFF))),
    ("a tick falls: the second", |fault, _| is_fall(fault, |fall| fall.at.place == 1 && fall.at.last > 1)),
    ("a tick falls: the last", |fault, _| is_fall(fault, |fall| fall.at.place == fall.at.last && fall.at.last > 1)),
    ("a tick falls: the last of 65,535", |fault, _| is_fall(fault, |fall| fall.at.place == 65_534)),
    ("a tick falls from 4,294,967,295 to 0", |fault, _| is_fall(fault, |fall| (fall.from, fall.to) == (u32::MAX, 0))),
    ("a reading of line 0", |fault, _| is_stray(fault, |stray| stray.line == 0)),
    ("a reading of line 5", |fault, _| is_stray(fault, |stray| stray.line == 5)),
    ("a reading of line 255", |fault, _| is_stray(fault, |stray| stray.line == 255)),
    ("a reading of a line not listed: the first", |fault, _| is_stray(fault, |stray| stray.is_a_line() && stray.at.place == 0)),
    ("a reading of a line not listed: the last", |fault, _| is_stray(fault, |stray| stray.is_a_line() && stray.at.place == stray.at.last)),
    ("a reading of a line not listed: another", |fault, _| is_stray(fault, |stray| stray.is_a_line() && (1..stray.at.last).contains(&stray.at.place))),
    ("a reading of a line not listed: asked for", |fault, _| is_stray(fault, |stray| stray.is_a_line() && stray.asked)),
    ("a reading of a line not listed: not asked for", |fault, _| is_stray(fault, |stray| stray.is_a_line() && !stray.asked)),
    ("a reading of a line not listed: none is", |fault, _| is_stray(fault, |stray| stray.is_a_line() && stray.listed == 0)),
    ("a reading of a line not listed: one is", |fault, _| is_stray(fault, |stray| stray.is_a_line() && stray.listed == 1)),
    ("a reading of a line not listed: two or three are", |fault, _| is_stray(fault, |stray| stray.is_a_line() && stray.listed >= 2)),
    ("a reading of a line not listed: the last of 65,535", |fault, _| is_stray(fault, |stray| stray.at.place == 65_534)),
];

fn is_end(fault: &Fault, bytes: usize) -> bool {
    *fault == Fault::Ends(End::Reading(bytes))
}

fn is_fall(fault: &Fault, so: fn(&Fall) -> bool) -> bool {
    matches!(fault, Fault::Falls(fall) if so(fall))
}

fn is_stray(fault: &Fault, so: fn(&Stray) -> bool) -> bool {
    matches!(fault, Fault::NotListed(stray) if so(stray))
}

impl Fall {
    fn by_one(&self) -> bool {
        self.from - self.to == 1
    }

    /// These bytes rise, though the whole falls.
    fn rises(&self, low: u32) -> bool {
        self.from & low < self.to & low
    }
}

impl Stray {
    fn is_a_line(&self) -> bool {
        (1..=4).contains(&self.line)
    }
}
