//! A log as text, field by field as far as it goes, so that a fixed vector can be made of it.

use crate::digits::pairs;

const TICK: usize = 4;
const READING: usize = 8;

/// A line for the line numbers with their count, one for the count of readings, one for each reading.
pub fn text(log: &[u8]) -> String {
    let lines = 1 + usize::from(log.first().copied().unwrap_or(0));
    let (lines, rest) = log.split_at(lines.min(log.len()));
    let (count, readings) = rest.split_at(rest.len().min(2));
    let lines: Vec<String> = lines.iter().map(|byte| pairs(&[*byte])).collect();
    let mut text = lines.join(" ") + "\n";
    if !count.is_empty() {
        text += &(pairs(count) + "\n");
    }
    text + &readings.chunks(READING).map(reading).collect::<String>()
}

fn reading(bytes: &[u8]) -> String {
    let (tick, rest) = bytes.split_at(bytes.len().min(TICK));
    let (line_and_id, value) = rest.split_at(rest.len().min(2));
    let mut fields = vec![pairs(tick)];
    fields.extend(line_and_id.iter().map(|byte| pairs(&[*byte])));
    fields.push(pairs(value));
    fields.join(" ").trim_end().to_string() + "\n"
}
