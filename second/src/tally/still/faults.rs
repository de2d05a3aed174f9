//! All that breaks a log, judged byte by byte and apart from the rules, so that no count goes by what it
//! is to check.

#[derive(Clone, Copy, PartialEq, Eq, Debug)]
pub enum Fault {
    Ends(End),
    /// So many bytes.
    Over(usize),
    /// A line number of the first section that is none, or not above the one before.
    Listed(u8),
    NotAbove(u8, u8),
    Falls(Fall),
    NotListed(Stray),
}

/// Where the log ends too early: so many bytes of the count, or of a reading, are there.
#[derive(Clone, Copy, PartialEq, Eq, Debug)]
pub enum End {
    LineCount,
    Lines,
    ReadingCount(usize),
    Reading(usize),
}

/// A tick below the one before.
#[derive(Clone, Copy, PartialEq, Eq, Debug)]
pub struct Fall {
    pub from: u32,
    pub to: u32,
    /// Is the reading before asked for, and this one?
    pub asked: (bool, bool),
    pub at: At,
}

/// A reading whose line isn't among those listed.
#[derive(Clone, Copy, PartialEq, Eq, Debug)]
pub struct Stray {
    pub line: u8,
    pub asked: bool,
    pub listed: usize,
    pub at: At,
}

/// The place of a reading from 0 on, and of the last.
#[derive(Clone, Copy, PartialEq, Eq, Debug)]
pub struct At {
    pub place: usize,
    pub last: usize,
}

const READING: usize = 8;

/// `asked` is the line and the id.
pub fn faults(asked: (u8, u8), log: &[u8]) -> Vec<Fault> {
    let Some(count) = log.first() else {
        return vec![Fault::Ends(End::LineCount)];
    };
    let lines_end = 1 + usize::from(*count);
    let lines = &log[1..lines_end.min(log.len())];
    let mut all = of_lines(lines);
    if log.len() < lines_end + 2 {
        all.push(Fault::Ends(match log.len().checked_sub(lines_end) {
            Some(bytes) => End::ReadingCount(bytes),
            None => End::Lines,
        }));
        return all;
    }
    let counted = usize::from(log[lines_end]) * 256 + usize::from(log[lines_end + 1]);
    let readings = &log[lines_end + 2..];
    let wanted = counted * READING;
    if readings.len() < wanted {
        all.push(Fault::Ends(End::Reading(readings.len() % READING)));
    }
    if readings.len() > wanted {
        all.push(Fault::Over(readings.len() - wanted));
    }
    all.extend(of_readings(
        asked,
        lines,
        &readings[..wanted.min(readings.len())],
    ));
    all
}

fn of_lines(lines: &[u8]) -> Vec<Fault> {
    let mut all = Vec::new();
    for (place, line) in lines.iter().enumerate() {
        if *line == 0 || *line > 4 {
            all.push(Fault::Listed(*line));
        }
        if place > 0 && *line <= lines[place - 1] {
            all.push(Fault::NotAbove(lines[place - 1], *line));
        }
    }
    all
}

fn of_readings(asked: (u8, u8), lines: &[u8], readings: &[u8]) -> Vec<Fault> {
    let mut all = Vec::new();
    let mut before = None;
    let last = readings.chunks_exact(READING).len().wrapping_sub(1);
    for (place, reading) in readings.chunks_exact(READING).enumerate() {
        let at = At { place, last };
        let [a, b, c, d, line, id, ..] = *reading else {
            unreachable!("a reading is longer");
        };
        let to = u32::from_be_bytes([a, b, c, d]);
        let is_asked = (line, id) == asked;
        if let Some((from, was_asked)) = before {
            if to < from {
                let asked = (was_asked, is_asked);
                all.push(Fault::Falls(Fall {
                    from,
                    to,
                    asked,
                    at,
                }));
            }
        }
        if !lines.contains(&line) {
            let (asked, listed) = (is_asked, lines.len());
            all.push(Fault::NotListed(Stray {
                line,
                asked,
                listed,
                at,
            }));
        }
        before = Some((to, is_asked));
    }
    all
}
