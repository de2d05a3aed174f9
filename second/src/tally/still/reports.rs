//! The shapes of what was reported by name.

use super::measured::{Measured, Run, Seen};
use crate::values::{self, Kind};

/// A shape by name, and which logs have it.
type Report = (&'static str, fn(&Measured) -> bool);

#[rustfmt::skip]
pub const REPORTS: [Report; 46] = [
    ("zeros before LINE", |log| log.zeros[0]),
    ("zeros before ID", |log| log.zeros[1]),
    ("no reading: no line listed", |log| log.lines.is_empty()),
    ("no reading: lines listed, nothing read", |log| !log.lines.is_empty() && log.all.is_empty()),
    ("no reading: the line isn't listed, others have the id", |log| !log.lines.contains(&log.line) && log.all.iter().any(|seen| seen.id == log.id)),
    ("no reading: the line has other ids", |log| log.runs.is_empty() && log.all.iter().any(|seen| seen.line == log.line)),
    ("no reading: the line is listed, others have the id", |log| log.runs.is_empty() && log.lines.contains(&log.line) && log.all.iter().any(|seen| seen.id == log.id)),
    ("one reading, alone", |log| log.all.len() == 1 && log.runs.len() == 1),
    ("one reading, among others", |log| log.all.len() > 1 && log.asked().count() == 1),
    ("65,535 readings in one run", |log| log.run().is_some_and(|run| run.readings == 65_535)),
    ("65,535 readings, each by itself", |log| log.runs.len() == 65_535),
    ("65,535 readings, with those of others", |log| log.all.len() == 65_535 && log.asked().count() < 65_535),
    ("the lowest sum", |log| log.sum() == -2_147_450_880),
    ("the highest sum of signed values", |log| log.sum() == 2_147_385_345),
    ("the highest sum", |log| log.sum() == 4_294_836_225),
    ("a sum below 0", |log| log.sum() < 0),
    ("a sum above 65,535", |log| log.sum() > 65_535),
    ("the lowest below 0, the highest not", |log| log.values().iter().any(|value| *value < 0) && log.values().iter().any(|value| *value >= 0)),
    ("real: the highest below 0", |log| values::kind_of(log.id) == Kind::Real && all_below_0(log)),
    ("s16: the highest below 0", |log| values::kind_of(log.id) == Kind::S16 && all_below_0(log)),
    ("one run of all, no others", |log| log.all.len() > 1 && log.run().is_some_and(|run| run.readings == log.all.len())),
    ("each reading by itself", |log| log.runs.len() > 2 && log.run().is_some_and(|run| run.readings == 1)),
    ("the run is the first of several", |log| log.runs.len() > 1 && log.longest == 0),
    ("the run stands between two", |log| log.longest > 0 && log.longest + 1 < log.runs.len()),
    ("the run is the last of several", |log| log.runs.len() > 1 && log.longest + 1 == log.runs.len()),
    ("the run has more than 255 readings", |log| log.run().is_some_and(|run| run.readings > 255)),
    ("the run has more than 65,535 ticks", |log| log.run().is_some_and(|run| run.ticks > 65_535)),
    ("the run has 4,294,967,295 ticks", |log| log.run().is_some_and(|run| run.ticks == u32::MAX)),
    ("the run has 0 ticks and two readings or more", |log| log.run().is_some_and(|run| run.readings > 1 && run.ticks == 0)),
    ("a tie: a later run has more ticks", |log| tie(log, |run, later| later.readings > 1 && later.ticks > run.ticks)),
    ("a tie: a later run has fewer ticks", |log| tie(log, |run, later| later.readings > 1 && later.ticks < run.ticks)),
    ("a tie: a later run has as many ticks", |log| tie(log, |run, later| later.readings > 1 && later.ticks == run.ticks)),
    ("a tie of three runs or more", |log| log.ties().len() > 1),
    ("a tie, shorter runs before both", |log| log.longest > 0 && !log.ties().is_empty()),
    ("a run of fewer readings has more ticks", |log| other_run(log, |run, other| other.readings < run.readings && other.ticks > run.ticks)),
    ("the run's value comes again in another", |log| other_run(log, |run, other| other.value == run.value)),
    ("the run goes across another id with its value", |log| across(log, |log, seen, same| seen.line == log.line && same)),
    ("the run goes across another id with another value", |log| across(log, |log, seen, same| seen.line == log.line && !same)),
    ("the run goes across another line with its value", |log| across(log, |log, seen, same| seen.id == log.id && same)),
    ("the run goes across another line with another value", |log| across(log, |log, seen, same| seen.id == log.id && !same)),
    ("neighbours unlike in the high byte alone", |log| parted(log, |unlike| unlike & 0xFF == 0)),
    ("neighbours unlike in the low byte alone", |log| parted(log, |unlike| unlike & 0xFF00 == 0)),
    ("two readings at one tick", |log| steps(log, |before, tick| before == tick)),
    ("a later tick, its low byte smaller", |log| steps(log, |before, tick| before < tick && tick & 0xFF < before & 0xFF)),
    ("a later tick, its low two bytes smaller", |log| steps(log, |before, tick| before < tick && tick & 0xFFFF < before & 0xFFFF)),
    ("a later tick, its low three bytes smaller", |log| steps(log, |before, tick| before < tick && tick & 0xFF_FFFF < before & 0xFF_FFFF)),
];

/// The kinds of ids by name. Raw are those that aren't listed.
pub const KINDS: [(&str, fn(u8) -> bool); 7] = [
    ("real", |id| values::kind_of(id) == Kind::Real),
    ("s16", |id| values::kind_of(id) == Kind::S16),
    ("u16", |id| values::kind_of(id) == Kind::U16),
    ("pair", |id| values::kind_of(id) == Kind::Pair),
    ("spair", |id| values::kind_of(id) == Kind::SPair),
    ("raw below 128", |id| {
        values::kind_of(id) == Kind::Raw && id < 128
    }),
    ("raw from 128 on", |id| id >= 128),
];

/// Values that stand in another order as signed numbers than as unsigned ones.
pub const VALUES: [(&str, [u16; 2]); 3] = [
    ("7FFF and 8000", [0x7FFF, 0x8000]),
    ("FFFF and 0000", [0xFFFF, 0x0000]),
    ("8000 and FFFF", [0x8000, 0xFFFF]),
];

fn all_below_0(log: &Measured) -> bool {
    !log.runs.is_empty() && log.values().iter().all(|value| *value < 0)
}

/// A later run that has as many readings as the one reported.
fn tie(log: &Measured, so: fn(&Run, &Run) -> bool) -> bool {
    let ties = log.ties();
    log.run()
        .is_some_and(|run| ties.iter().any(|later| so(run, later)))
}

/// Any run beside the one reported.
fn other_run(log: &Measured, so: fn(&Run, &Run) -> bool) -> bool {
    let Some(run) = log.run() else {
        return false;
    };
    let mut others = log
        .runs
        .iter()
        .enumerate()
        .filter(|(place, _)| *place != log.longest);
    others.any(|(_, other)| so(run, other))
}

/// The other readings within the run reported, and whether they have its value.
fn across(log: &Measured, so: fn(&Measured, &Seen, bool) -> bool) -> bool {
    let value = log.run().map(|run| run.value);
    let between = log.between();
    between
        .iter()
        .any(|seen| so(log, seen, Some(seen.value) == value))
}

/// The bits in which two runs that follow each other are unlike.
fn parted(log: &Measured, so: fn(u16) -> bool) -> bool {
    log.runs
        .windows(2)
        .any(|two| so(two[0].value ^ two[1].value))
}

fn steps(log: &Measured, so: fn(u32, u32) -> bool) -> bool {
    log.all.windows(2).any(|two| so(two[0].tick, two[1].tick))
}
