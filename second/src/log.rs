//! The log of 02's Ask 6: "two sections in fixed order, each after its count". It is judged as a whole
//! before anything is said of it.

use crate::refusals;

const LINE: usize = 1;
const READING: usize = 8;

/// "A count byte" and "a two-byte count".
const LINE_COUNT: usize = 1;
const READING_COUNT: usize = 2;

pub const MOST_READINGS: usize = 65_535;

/// No good log is longer: four lines, and as many readings as can be counted.
pub const LARGEST: usize = LINE_COUNT + 4 * LINE + READING_COUNT + MOST_READINGS * READING;

#[derive(Clone, Copy, PartialEq, Eq, Debug)]
pub struct Reading {
    pub tick: u32,
    pub line: u8,
    pub id: u8,
    pub value: u16,
}

impl Reading {
    /// "Tick (4), line, id, value (2), high bytes first."
    fn of(bytes: &[u8]) -> Reading {
        Reading {
            tick: number(&bytes[..4]) as u32,
            line: bytes[4],
            id: bytes[5],
            value: number(&bytes[6..]) as u16,
        }
    }
}

/// The readings of a good log. "Refusals: 19, a log that breaks this layout or has bytes over."
pub fn readings(log: &[u8]) -> Result<Vec<Reading>, u8> {
    let (lines, readings) = sections(log).ok_or(refusals::LOG)?;
    match lines_are_good(&lines) && readings_are_good(&readings, &lines) {
        true => Ok(readings),
        false => Err(refusals::LOG),
    }
}

/// The line numbers and the readings, if each section has what it counts and no byte is over.
fn sections(log: &[u8]) -> Option<(Vec<u8>, Vec<Reading>)> {
    let (lines, rest) = section(log, LINE_COUNT, LINE)?;
    let (readings, over) = section(rest, READING_COUNT, READING)?;
    let readings = readings.chunks(READING).map(Reading::of).collect();
    over.is_empty().then(|| (lines.to_vec(), readings))
}

/// What the count of so many bytes counts, and what stands behind it.
fn section(bytes: &[u8], count: usize, each: usize) -> Option<(&[u8], &[u8])> {
    let end = count + number(bytes.get(..count)?) * each;
    Some((bytes.get(count..end)?, &bytes[end..]))
}

fn number(bytes: &[u8]) -> usize {
    bytes
        .iter()
        .fold(0, |number, byte| number << 8 | usize::from(*byte))
}

/// "Line numbers, 1 to 4, each above the last."
fn lines_are_good(lines: &[u8]) -> bool {
    lines.iter().all(|line| (1..=4).contains(line)) && lines.windows(2).all(|two| two[0] < two[1])
}

/// "Ticks never falling, each line among the first section."
fn readings_are_good(readings: &[Reading], lines: &[u8]) -> bool {
    let listed = |reading: &Reading| lines.contains(&reading.line);
    readings.iter().all(listed) && readings.windows(2).all(|two| two[0].tick <= two[1].tick)
}
