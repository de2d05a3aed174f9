//! The readings of a good log with the runs among those asked for, measured in one pass and apart from the
//! rules, so that no count goes by what it is to check.

use crate::programs::Input;
use crate::values::{self, Value};

pub struct Measured {
    pub line: u8,
    pub id: u8,
    /// Does a zero stand before LINE, and before ID?
    pub zeros: [bool; 2],
    pub lines: Vec<u8>,
    pub all: Vec<Seen>,
    pub runs: Vec<Run>,
    /// The place of the longest, the earliest of equals, if there is a run.
    pub longest: usize,
}

#[derive(Clone, Copy)]
pub struct Seen {
    pub tick: u32,
    pub line: u8,
    pub id: u8,
    pub value: u16,
    pub asked: bool,
}

/// Equal neighbours, and the places of the first and the last among all readings.
#[derive(Clone, Copy)]
pub struct Run {
    pub value: u16,
    pub readings: usize,
    pub first: usize,
    pub last: usize,
    pub ticks: u32,
}

const READING: usize = 8;

fn seen(asked: (u8, u8), reading: &[u8]) -> Seen {
    let byte = |place: usize| u32::from(reading[place]);
    Seen {
        tick: byte(0) << 24 | byte(1) << 16 | byte(2) << 8 | byte(3),
        line: reading[4],
        id: reading[5],
        value: (byte(6) << 8 | byte(7)) as u16,
        asked: (reading[4], reading[5]) == asked,
    }
}

fn runs(all: &[Seen]) -> Vec<Run> {
    let mut runs: Vec<Run> = Vec::new();
    for (place, seen) in all.iter().enumerate().filter(|(_, seen)| seen.asked) {
        match runs.last_mut() {
            Some(run) if run.value == seen.value => {
                run.readings += 1;
                run.last = place;
                run.ticks = seen.tick - all[run.first].tick;
            }
            _ => runs.push(Run {
                value: seen.value,
                readings: 1,
                first: place,
                last: place,
                ticks: 0,
            }),
        }
    }
    runs
}

fn longest(runs: &[Run]) -> usize {
    let mut longest = 0;
    for place in 1..runs.len() {
        if runs[place].readings > runs[longest].readings {
            longest = place;
        }
    }
    longest
}

impl Measured {
    pub fn of(asked: (u8, u8), input: &Input) -> Measured {
        let log = &input.bytes;
        let lines_end = 1 + usize::from(log[0]);
        let readings = log[lines_end + 2..].chunks(READING);
        let all: Vec<Seen> = readings.map(|reading| seen(asked, reading)).collect();
        let runs = runs(&all);
        let zero = |place: usize| {
            let argument = &input.arguments[place];
            argument.len() > 1 && argument[0] == b'0'
        };
        Measured {
            line: asked.0,
            id: asked.1,
            zeros: [zero(0), zero(1)],
            lines: log[1..lines_end].to_vec(),
            longest: longest(&runs),
            all,
            runs,
        }
    }

    pub fn asked(&self) -> impl Iterator<Item = &Seen> {
        self.all.iter().filter(|seen| seen.asked)
    }

    pub fn values(&self) -> Vec<i64> {
        let signed = |seen: &Seen| match values::typed(values::kind_of(self.id), seen.value) {
            Value::Real(_) | Value::S16(_) => {
                i64::from(seen.value) - i64::from(seen.value >> 15) * 65_536
            }
            _ => i64::from(seen.value),
        };
        self.asked().map(signed).collect()
    }

    pub fn sum(&self) -> i64 {
        self.values().into_iter().sum()
    }

    /// What the program should print.
    pub fn report(&self) -> String {
        let mut values = self.values();
        values.sort_unstable();
        let (lowest, highest) = match values[..] {
            [] => (0, 0),
            [only] => (only, only),
            [lowest, .., highest] => (lowest, highest),
        };
        let (run, ticks) = match self.runs.get(self.longest) {
            Some(run) => (run.readings, run.ticks),
            None => (0, 0),
        };
        let (readings, sum) = (values.len(), self.sum());
        format!("readings {readings} lowest {lowest} highest {highest} sum {sum} run {run} ticks {ticks}")
    }

    /// The run that is reported.
    pub fn run(&self) -> Option<&Run> {
        self.runs.get(self.longest)
    }

    /// The runs behind it that have as many readings.
    pub fn ties(&self) -> Vec<Run> {
        let Some(longest) = self.run() else {
            return Vec::new();
        };
        let later = self.runs[self.longest + 1..].iter();
        later
            .filter(|run| run.readings == longest.readings)
            .copied()
            .collect()
    }

    /// The readings of others from its first to its last.
    pub fn between(&self) -> Vec<Seen> {
        let between = self.run().map_or(0..0, |run| run.first..run.last);
        let others = self.all[between].iter().filter(|seen| !seen.asked);
        others.copied().collect()
    }
}
