//! What otstill was asked, of which logs, and what it said (02, Ask 6).

mod counts;
mod faults;
mod grounds;
mod measured;
mod reports;
mod table;

use super::{Tally, Thing};
use crate::generator::logs::{STRANGE_LINES, WRONG};
use crate::programs::still::USAGE;
use crate::programs::{Argument, Input};
use counts::COUNTS;
use faults::{faults, Fault};
use grounds::GROUNDS;
use measured::Measured;
use reports::{KINDS, REPORTS, VALUES};

#[derive(Clone, Copy, PartialEq, Eq, PartialOrd, Ord, Debug)]
pub enum Still {
    Said(Said),
    /// The usage line or refusal 9, which look at no log, though there was one of this kind.
    Unread(Said, LogIs),
    /// The place of the arguments that had the usage line, and of a LINE that had refusal 9.
    Wrong(usize),
    StrangeLine(usize),
    /// Refusal 19 on the ground that has this place, and on no other.
    Ground(usize),
    /// Refusal 19, and none if the count were what has this place.
    Count(usize),
    /// A report on a log of the shape that has this place, or that lists these lines.
    Report(usize),
    Lines(usize),
    Asked(u8),
    /// A report on an id of a kind that has both of these values.
    Values(usize, usize),
}

#[derive(Clone, Copy, PartialEq, Eq, PartialOrd, Ord, Debug)]
pub enum Said {
    Usage,
    Refused9,
    Refused19,
    Report,
}

#[derive(Clone, Copy, PartialEq, Eq, PartialOrd, Ord, Debug)]
pub enum LogIs {
    Good,
    Broken,
    Empty,
}

/// The line and the id asked for, where both are numbers of one byte.
fn asked(arguments: &[Argument]) -> Option<(u8, u8)> {
    let number = |argument: &Argument| std::str::from_utf8(argument).ok()?.parse().ok();
    match arguments {
        [line, id] => Some((number(line)?, number(id)?)),
        _ => None,
    }
}

/// The places of those that are so.
fn places<T>(all: &[T], so: impl Fn(&T) -> bool) -> Vec<usize> {
    (0..all.len()).filter(|place| so(&all[*place])).collect()
}

impl Tally {
    fn still_all(&mut self, things: impl IntoIterator<Item = Still>) {
        for thing in things {
            self.count(Thing::Still(thing));
        }
    }

    /// Counts an input of otstill and what was said to it.
    pub fn still(&mut self, input: &Input, output: &[u8]) {
        let output = String::from_utf8_lossy(output);
        let said = match output.trim_end() {
            USAGE => Said::Usage,
            "refused 9" => Said::Refused9,
            "refused 19" => Said::Refused19,
            _ => Said::Report,
        };
        self.still_all([Still::Said(said)]);
        match (said, asked(&input.arguments)) {
            (Said::Usage | Said::Refused9, _) => self.still_unread(said, input),
            (Said::Refused19, Some(asked)) => self.still_broken(asked, &input.bytes),
            (Said::Report, Some(asked)) => self.still_report(asked, input, output.trim_end()),
            _ => {}
        }
    }

    fn still_unread(&mut self, said: Said, input: &Input) {
        let log = match faults((0, 0), &input.bytes)[..] {
            _ if input.bytes.is_empty() => LogIs::Empty,
            [] => LogIs::Good,
            _ => LogIs::Broken,
        };
        self.still_all([Still::Unread(said, log)]);
        let wrong = places(&WRONG, |wrong| input.arguments == **wrong);
        let line = |line: &&str| said == Said::Refused9 && input.arguments[0] == line.as_bytes();
        let strange = places(&STRANGE_LINES, line);
        self.still_all(wrong.into_iter().map(Still::Wrong));
        self.still_all(strange.into_iter().map(Still::StrangeLine));
    }

    /// Where a log is broken in more than one way, either may be why it was refused.
    fn still_broken(&mut self, asked: (u8, u8), log: &[u8]) {
        if let [fault] = &faults(asked, log)[..] {
            let grounds = places(&GROUNDS, |(_, is)| is(fault, log));
            self.still_all(grounds.into_iter().map(Still::Ground));
        }
        let repaired = |count: &counts::Count| count.1(log).is_some_and(|log| is_good(&log));
        let counts = places(&COUNTS, repaired);
        self.still_all(counts.into_iter().map(Still::Count));
    }

    /// Counted only where the report is what was measured.
    fn still_report(&mut self, asked: (u8, u8), input: &Input, report: &str) {
        if !is_good(&input.bytes) {
            return;
        }
        let measured = Measured::of(asked, input);
        if measured.report() != report {
            return;
        }
        let reports = places(&REPORTS, |(_, is)| is(&measured));
        self.still_all(reports.into_iter().map(Still::Report));
        for kind in places(&KINDS, |(_, has)| has(measured.id)) {
            let has = |value: &u16| measured.asked().any(|reading| reading.value == *value);
            let values = places(&VALUES, |(_, values)| values.iter().all(has));
            self.still_all(values.into_iter().map(|place| Still::Values(kind, place)));
        }
        let lines = measured.lines.iter().fold(0, |bits, line| bits | 1 << line);
        self.still_all([Still::Lines(lines), Still::Asked(measured.line)]);
    }
}

/// For the layout it doesn't matter what is asked.
pub fn is_good(log: &[u8]) -> bool {
    faults((0, 0), log).is_empty()
}
