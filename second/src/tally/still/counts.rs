//! Counts that are wrong, by name: what is behind them may look like anything, so they are told by the log
//! being good with the right one.

/// A wrong count by name, and the log with the right one in its place, if it is there.
pub type Count = (&'static str, fn(&[u8]) -> Option<Vec<u8>>);

pub const COUNTS: [Count; 6] = [
    ("the line count is one too large", |log| {
        with_lines(log, |count| count.wrapping_sub(1))
    }),
    ("the line count is one too small", |log| {
        with_lines(log, |count| count.wrapping_add(1))
    }),
    ("the count of readings is one too large", |log| {
        with_readings(log, |count| count.wrapping_sub(1))
    }),
    ("the count of readings is one too small", |log| {
        with_readings(log, |count| count.wrapping_add(1))
    }),
    ("the count of readings has its low byte first", |log| {
        with_readings(log, u16::swap_bytes)
    }),
    ("the count of readings is 0", |log| {
        let (_, rest) = log.split_first()?;
        let there = rest.len().checked_sub(usize::from(log[0]) + 2)? / 8;
        let right = there as u16;
        let counted = with_readings(log, |_| 0)? == log;
        with_readings(log, |_| right).filter(|_| counted)
    }),
];

fn with_lines(log: &[u8], right: impl Fn(u8) -> u8) -> Option<Vec<u8>> {
    let (count, rest) = log.split_first()?;
    Some([&[right(*count)], rest].concat())
}

fn with_readings(log: &[u8], right: impl Fn(u16) -> u16) -> Option<Vec<u8>> {
    let at = 1 + usize::from(*log.first()?);
    let count = log.get(at..at + 2)?;
    let right = right(u16::from_be_bytes([count[0], count[1]]));
    let mut log = log.to_vec();
    log[at..at + 2].copy_from_slice(&right.to_be_bytes());
    Some(log)
}
