//! Ticks and values at the ends of what they can be.

use super::{mixed, plain, Draft};
use crate::generator::logs::asked;
use crate::generator::logs::series::{self, BORDER};
use crate::random::Random;
use crate::values::Kind;

pub fn all_at_one_tick(random: &mut Random, size: usize) -> Draft {
    let mut draft = mixed(random, size);
    let last = draft.readings.last().map_or(0, |reading| reading.value);
    draft.say(last);
    draft.say(last);
    let ticks = vec![random.word(); draft.readings.len()];
    draft.at(ticks)
}

/// One run from tick 0 to the last that there is.
pub fn over_all_time(random: &mut Random, _: usize) -> Draft {
    let count = random.between(2, 50) as usize;
    let values = series::runs(random, &[count]);
    let ticks = series::whole(random, count);
    plain(random, &values).at(ticks)
}

/// A tick that is later, though one, two or three of its bytes are smaller.
pub fn over_byte_borders(random: &mut Random, _: usize) -> Draft {
    let ticks = [0xFF, 0x100, 0xFFFF, 0x1_0000, 0xFF_FFFF, 0x100_0000];
    let values = series::mixed(random, ticks.len(), 3);
    plain(random, &values).at(ticks.to_vec())
}

/// Every border, in any order, for one of the ids.
pub fn values(random: &mut Random, ids: Vec<u8>) -> Draft {
    let id = random.pick(&ids);
    let mut draft = Draft::of(random, id);
    let mut values = BORDER.to_vec();
    values.extend(series::mixed(random, 20, 4));
    random.shuffle(&mut values);
    draft.say_among_others(random, &values, 20);
    draft.at_any(random)
}

/// Even the highest is below 0.
pub fn below_0(random: &mut Random, kind: Kind) -> Draft {
    let id = random.pick(&asked::ids(kind));
    let mut draft = Draft::of(random, id);
    let count = random.between(1, 40) as usize;
    let mut values = series::mixed(random, count, 5);
    for value in &mut values {
        *value |= 0x8000;
    }
    draft.say_among_others(random, &values, 20);
    draft.at_any(random)
}
