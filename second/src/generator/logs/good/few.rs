//! One reading of what is asked for, or none.

use super::{plain, Draft};
use crate::generator::logs::series;
use crate::random::Random;

pub fn one(random: &mut Random, _: usize) -> Draft {
    let value = series::value(random);
    plain(random, &[value]).at_any(random)
}

pub fn one_among_others(random: &mut Random, _: usize) -> Draft {
    let mut draft = Draft::any(random);
    let value = series::value(random);
    draft.other(random, value);
    draft.say_among_others(random, &[value], 80);
    draft.at_any(random)
}

/// The line has other ids, and another line has this one.
pub fn of_other_ids_and_lines(random: &mut Random, _: usize) -> Draft {
    let mut draft = Draft::any(random);
    draft.lines = vec![1, 2, 3, 4];
    let (line, id) = (random.pick(&draft.other_lines()), draft.id);
    draft.push(draft.line, id ^ random.between(1, 255) as u8, 1);
    draft.push(line, id, 1);
    draft.say_among_others(random, &[], 90);
    draft.at_any(random)
}

/// Other lines have readings of the id.
pub fn line_not_listed(random: &mut Random, _: usize) -> Draft {
    let mut draft = Draft::any(random);
    draft.lines = (1..=4).filter(|line| *line != draft.line).collect();
    draft.lines.remove(random.below(3) as usize);
    for line in draft.lines.clone() {
        draft.push(line, draft.id, series::value(random));
    }
    draft.at_any(random)
}

/// The lines whose bits are set, one of them asked for, and one reading of each.
pub fn listed(random: &mut Random, bits: u8) -> Draft {
    let mut draft = Draft::any(random);
    draft.lines = (1..=4).filter(|line| bits >> (line - 1) & 1 == 1).collect();
    draft.line = random.pick(&draft.lines);
    for line in draft.lines.clone() {
        draft.push(line, draft.id, series::value(random));
    }
    draft.at_any(random)
}

pub fn no_line(random: &mut Random, _: usize) -> Draft {
    let mut draft = Draft::any(random);
    draft.lines.clear();
    draft
}

pub fn no_reading(random: &mut Random, _: usize) -> Draft {
    Draft::any(random)
}
