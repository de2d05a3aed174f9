//! "How long has it stood still?" (02, Ask 6): the report on one line and id of a log.

use std::fmt;

use crate::log::{self, Reading};
use crate::refusals;
use crate::values::{self, Kind};

/// "With no reading all are 0."
#[derive(Clone, Copy, PartialEq, Eq, Debug, Default)]
pub struct Report {
    pub readings: usize,
    pub lowest: i64,
    pub highest: i64,
    pub sum: i64,
    pub run: usize,
    pub ticks: u32,
}

/// "Refusals: 19 .. after 15 and 9"; nothing is lent to be written into, so there is no 15.
pub fn report(line: u16, id: u8, log: &[u8]) -> Result<Report, u8> {
    if !(1..=4).contains(&line) {
        return Err(refusals::LINE);
    }
    let mut readings = log::readings(log)?;
    readings.retain(|reading| u16::from(reading.line) == line && reading.id == id);
    Ok(Report::of(id, &readings))
}

impl Report {
    /// The readings are those of one line and id, so neighbours here are neighbours among them.
    fn of(id: u8, readings: &[Reading]) -> Report {
        let values = || readings.iter().map(|reading| counted(id, reading.value));
        let runs = readings.chunk_by(|one, next| one.value == next.value);
        // Of equals the last is taken: from behind that is "the earliest of equals".
        let longest = runs.rev().max_by_key(|run| run.len()).unwrap_or_default();
        Report {
            readings: readings.len(),
            lowest: values().min().unwrap_or(0),
            highest: values().max().unwrap_or(0),
            sum: values().sum(),
            run: longest.len(),
            ticks: match longest {
                [first, .., last] => last.tick - first.tick,
                _ => 0,
            },
        }
    }
}

/// "Values count as signed for the real and s16 kinds, otherwise unsigned."
fn counted(id: u8, raw: u16) -> i64 {
    match values::kind_of(id) {
        Kind::Real | Kind::S16 => i64::from(raw as i16),
        Kind::U16 | Kind::Pair | Kind::SPair | Kind::Raw => i64::from(raw),
    }
}

impl fmt::Display for Report {
    fn fmt(&self, to: &mut fmt::Formatter) -> fmt::Result {
        write!(to, "readings {} lowest {}", self.readings, self.lowest)?;
        write!(to, " highest {} sum {}", self.highest, self.sum)?;
        write!(to, " run {} ticks {}", self.run, self.ticks)
    }
}
