//! The shapes of broken logs: each breaks one rule, and keeps the others as far as that lets it.

mod ends;
mod lines;
mod readings;

use super::draft::Draft;
use super::series;
use crate::programs::Input;
use crate::random::Random;

pub type Shape = fn(&mut Random, usize) -> Input;

#[rustfmt::skip]
pub const SHAPES: [Shape; 51] = [
    // the first section
    |random, size| lines::count(random, size, |count| count + 1),
    |random, size| lines::count(random, size, |count| count - 1),
    |random, size| lines::count(random, size, |_| 255),
    |random, size| lines::below(random, size, 0),
    |random, size| lines::above(random, size, 5),
    |random, size| lines::above(random, size, 6),
    |random, size| lines::above(random, size, 255),
    lines::twice, lines::falling,
    // the count of readings
    |random, size| readings::count(random, size, |count| count + 1),
    |random, size| readings::count(random, size, |count| count - 1),
    |random, size| readings::count(random, size, u16::swap_bytes),
    |random, size| readings::count(random, size, |_| 0),
    |random, size| readings::count(random, size, |_| 65_535),
    // ticks, by whether the two readings are asked for
    |random, size| readings::falls_between(random, size, true, true),
    |random, size| readings::falls_between(random, size, true, false),
    |random, size| readings::falls_between(random, size, false, true),
    |random, size| readings::falls_between(random, size, false, false),
    |random, size| readings::falls_below(random, size, 0x0000_0100),
    |random, size| readings::falls_below(random, size, 0x0001_0000),
    |random, size| readings::falls_below(random, size, 0x0100_0000),
    readings::falls_at_the_second, readings::falls_at_the_last, readings::falls_to_0,
    // the readings' lines
    |random, size| readings::line(random, size, 0),
    |random, size| readings::line(random, size, 5),
    |random, size| readings::line(random, size, 255),
    readings::first_not_listed, readings::last_not_listed, readings::one_not_listed,
    readings::asked_not_listed, readings::none_listed,
    // bytes that are missing, and bytes over
    ends::empty, ends::line_count_alone, ends::no_line_alone, ends::in_the_lines, ends::behind_the_lines,
    ends::in_the_reading_count, ends::behind_the_reading_count, ends::behind_a_reading,
    |random, size| ends::in_a_reading(random, size, 1),
    |random, size| ends::in_a_reading(random, size, 2),
    |random, size| ends::in_a_reading(random, size, 3),
    |random, size| ends::in_a_reading(random, size, 4),
    |random, size| ends::in_a_reading(random, size, 5),
    |random, size| ends::in_a_reading(random, size, 6),
    |random, size| ends::in_a_reading(random, size, 7),
    |random, size| ends::over(random, size, 1),
    |random, size| ends::over(random, size, 8),
    ends::some_over, ends::over_nothing,
];

/// A good log to break: two or three lines, and each kind of neighbours, asked for or not.
fn whole(random: &mut Random, size: usize) -> Draft {
    let mut draft = Draft::any(random);
    draft.lines = (1..=4).filter(|line| *line != draft.line).collect();
    random.shuffle(&mut draft.lines);
    draft.lines[0] = draft.line;
    draft.lines.truncate(random.between(2, 3) as usize);
    draft.lines.sort_unstable();
    let count = random.between(1, size as u64 / 4) as usize;
    let values = series::mixed(random, count + 3, 5);
    draft.say(values[0]);
    draft.say(values[1]);
    draft.other(random, values[1]);
    draft.other(random, values[1]);
    draft.say(values[2]);
    draft.say_among_others(random, &values[3..], 40);
    let step = random.pick(&[2, 60_000]);
    let ticks = series::rising(random, draft.readings.len(), step);
    draft.at(ticks)
}

/// Where the count of readings stands.
fn reading_count_at(draft: &Draft) -> usize {
    1 + draft.lines.len()
}
