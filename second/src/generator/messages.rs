//! Modbus messages of either form: well-formed ones for a row of the table, and ones that fail one
//! check of the order of checks, or two at once.

mod cover;
mod draft;
mod either;

use crate::modbus::{Wrapping, ROWS};
use crate::random::Random;
use cover::Checksum;
use draft::Draft;

pub use either::message as of_either_form;

/// A well-formed request for a row.
pub fn request(random: &mut Random, form: Wrapping, row: usize, unit: u8, id: u8) -> Vec<u8> {
    Draft::of(random, form, row, unit, id).bytes(random)
}

/// The version of unit 5 asked for, which changes nothing.
pub fn version_request(random: &mut Random, form: Wrapping) -> Vec<u8> {
    let mut draft = Draft::of(random, form, 0, 5, 0x76);
    draft.read_offset = 0x0076;
    draft.bytes(random)
}

/// A request to unit 5: its version register or another, well-formed.
pub fn own_request(random: &mut Random, form: Wrapping) -> Vec<u8> {
    let row = random.below(4) as usize;
    let id = random.byte();
    let mut draft = Draft::of(random, form, row, 5, id);
    let offset = random.pick(&[
        0x0076, 0x0076, 0x0076, 0x0077, 0x0075, 0x0176, 0x7600, 0x0000,
    ]);
    draft.read_offset = offset;
    draft.write_offset = offset;
    draft.bytes(random)
}

type Spoil = fn(&mut Random, &mut Draft);

/// Each makes a draft fail one check of the body, in the order of checks.
const SPOIL_BODY: [Spoil; 6] = [
    |random, draft| {
        let any = random.between(6, 0xFF) as u8;
        draft.unit = random.pick(&[0, 0, 6, 6, 7, 0x80, 0xF7, 0xFF, any, any]);
    },
    |random, draft| {
        let any = random.between(0x80, 0xFF) as u8;
        draft.function = random.pick(&[0x80, 0x83, 0x90, 0x97, 0xC1, 0xFF, any, any]);
    },
    spoil_function,
    spoil_form,
    spoil_offset,
    spoil_message,
];

/// The same for what a form asks before.
fn spoil_cover(form: Wrapping) -> &'static [Spoil] {
    match form {
        Wrapping::Serial => &[
            |random, draft| draft.total = Some(random.pick(&[0, 1, 2, 3, 257, 257, 258, 299, 300])),
            |random, draft| {
                draft.cover.checksum = random.pick(&[Checksum::Swapped, Checksum::Wrong]);
            },
        ],
        Wrapping::Tcp => &[
            |random, draft| {
                draft.total = Some(random.pick(&[0, 4, 5, 6, 7, 261, 261, 262, 299, 300]))
            },
            |random, draft| draft.cover.spoil_protocol(random),
            |random, draft| draft.cover.spoil_length(random),
        ],
    }
}

/// A message that fails at least one check; half of them a later one too, most often one of the next.
pub fn strange(random: &mut Random, form: Wrapping) -> Vec<u8> {
    let row = random.below(ROWS.len() as u64) as usize;
    let unit = random.between(1, 5) as u8;
    let other = random.byte();
    // The ids whose question is refused where no status is known: the other checks come first.
    let id = random.pick(&[0, 70, other, other]);
    let mut draft = Draft::of(random, form, row, unit, id);
    let checks = [spoil_cover(form), &SPOIL_BODY].concat();
    let first = random.below(checks.len() as u64) as usize;
    checks[first](random, &mut draft);
    let later = &checks[first + 1..];
    if !later.is_empty() && random.percent(50) {
        let near = random.pick(&later[..later.len().min(4)]);
        let any = random.pick(later);
        random.pick(&[later[0], near, near, any])(random, &mut draft);
    }
    draft.bytes(random)
}

/// Any length from 0 to 300, most often at a border, with a right or wrong checksum or length field.
pub fn of_length(random: &mut Random, form: Wrapping) -> Vec<u8> {
    let borders: &[usize] = match form {
        Wrapping::Serial => &[0, 1, 2, 3, 4, 5, 255, 256, 257, 258, 259, 260, 261, 300],
        Wrapping::Tcp => &[
            0, 1, 2, 3, 4, 5, 6, 7, 8, 9, 255, 256, 257, 258, 259, 260, 261, 262, 300,
        ],
    };
    let total = match random.percent(80) {
        true => random.pick(borders),
        false => random.between(0, 300) as usize,
    };
    let row = random.below(ROWS.len() as u64) as usize;
    let unit = random.between(1, 5) as u8;
    let mut draft = Draft::of(random, form, row, unit, 0);
    draft.total = Some(total);
    if random.percent(40) {
        draft.cover.checksum = Checksum::Wrong;
        draft.cover.spoil_length(random);
    }
    draft.bytes(random)
}

fn spoil_function(random: &mut Random, draft: &mut Draft) {
    if random.percent(30) {
        // Served by the lines and not by unit 5.
        draft.unit = 5;
        draft.function = random.pick(&[0x17, 0x41]);
    } else if random.percent(30) {
        // Any between two that are served, or above them all.
        let (between, above) = (random.between(0x18, 0x40), random.between(0x42, 0x7F));
        draft.function = random.pick(&[between, above]) as u8;
    } else {
        draft.function = random.pick(&[
            0x00, 0x01, 0x02, 0x05, 0x07, 0x08, 0x0B, 0x0F, 0x11, 0x16, 0x18, 0x29, 0x2B, 0x40,
            0x42, 0x7F,
        ]);
    }
}

fn spoil_form(random: &mut Random, draft: &mut Draft) {
    match random.below(4) {
        0 => draft.longer = random.pick(&[-2, -1, 1, 2]),
        1 => draft.byte_count = Some(random.pick(&[0, 1, 2, 3, 4, 255])),
        2 => {
            draft.counts = random.pick(&[(0, 0), (2, 0), (0, 2), (2, 1), (1, 2), (2, 2)]);
        }
        _ => draft.counts = random.pick(&[(0x0100, 0x0100), (0x0101, 1), (1, 0x0101), (125, 121)]),
    }
    if random.percent(30) {
        // The data as if nothing were wrong, so that the count alone is.
        draft.registers = Some(1);
    }
}

fn spoil_offset(random: &mut Random, draft: &mut Draft) {
    let page = random.pick(&[0x0100, 0x0200, 0x0300, 0x0400, 0x8000, 0xFF00]);
    match random.below(3) {
        // Unlike offsets, by id or by page alone.
        0 => draft.write_offset ^= random.pick(&[0x0001, 0x0100, 0x0200, 0x0300, 0x0080]),
        1 => draft.read_offset ^= page,
        _ => {
            draft.read_offset ^= page;
            draft.write_offset = draft.read_offset;
        }
    }
}

fn spoil_message(random: &mut Random, draft: &mut Draft) {
    draft.function = 0x41;
    draft.unit = random.between(1, 4) as u8;
    if random.percent(70) {
        draft.read_offset &= 0x00FF;
    }
    draft.message = random.pick(&[
        0x0030, 0x0030, 0x0001, 0x0002, 0x0011, 0x0040, 0x0070, 0x0080, 0x00F0, 0x0100, 0x0110,
        0x1000, 0x2000, 0xFFFF,
    ]);
}
