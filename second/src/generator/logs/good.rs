//! The shapes of good logs.

mod borders;
mod few;
mod runs;

use super::asked;
use super::draft::Draft;
use crate::random::Random;
use crate::values::Kind;

pub use few::listed;
pub use runs::mixed;

pub type Shape = fn(&mut Random, usize) -> Draft;

#[rustfmt::skip]
pub const SHAPES: [Shape; 33] = [
    mixed, mixed, mixed,
    // runs
    runs::flat, runs::long_and_flat, runs::flat_across_others, runs::each_by_itself, runs::to_and_fro,
    runs::longest_first, runs::longest_last, runs::more_ticks_in_fewer_readings,
    runs::ties_ever_longer, runs::ties_ever_shorter, runs::ties_alike, runs::ties_among_others,
    // few readings, or none
    few::one, few::one_among_others, few::of_other_ids_and_lines, few::line_not_listed, few::no_line, few::no_reading,
    // ticks
    borders::all_at_one_tick, borders::over_all_time, borders::over_byte_borders,
    // values
    |random, _| borders::values(random, asked::ids(Kind::Real)),
    |random, _| borders::values(random, asked::ids(Kind::S16)),
    |random, _| borders::values(random, asked::ids(Kind::U16)),
    |random, _| borders::values(random, asked::ids(Kind::Pair)),
    |random, _| borders::values(random, asked::ids(Kind::SPair)),
    |random, _| borders::values(random, asked::unlisted_below_128()),
    |random, _| borders::values(random, (128..=255).collect()),
    |random, _| borders::below_0(random, Kind::Real),
    |random, _| borders::below_0(random, Kind::S16),
];

/// Readings of these values alone.
fn plain(random: &mut Random, values: &[u16]) -> Draft {
    let mut draft = Draft::any(random);
    draft.say_among_others(random, values, 0);
    draft
}
