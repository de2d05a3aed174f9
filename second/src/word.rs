//! The frame word: parity, type, spare bits, id and value (01, 'Frame word').

use crate::refusals;

// "Types: 0 READ-DATA, 1 WRITE-DATA, 2 INVALID-DATA, 3 reserved, 4 READ-ACK,
// 5 WRITE-ACK, 6 DATA-INVALID, 7 UNKNOWN-DATAID."
pub const READ_DATA: u8 = 0;
pub const WRITE_DATA: u8 = 1;
pub const INVALID_DATA: u8 = 2;
pub const READ_ACK: u8 = 4;
pub const WRITE_ACK: u8 = 5;
pub const DATA_INVALID: u8 = 6;
pub const UNKNOWN_DATAID: u8 = 7;

/// "The number of ones is even": all 32 bits, spare and parity bit included.
pub fn parity_is_even(word: u32) -> bool {
    word.count_ones() % 2 == 0
}

/// "Bit 31 parity, 30 to 28 type, 27 to 24 spare, 23 to 16 id, 15 to 0 value."
pub fn type_of(word: u32) -> u8 {
    (word >> 28 & 0x7) as u8
}

pub fn spare_of(word: u32) -> u8 {
    (word >> 24 & 0xF) as u8
}

pub fn id_of(word: u32) -> u8 {
    (word >> 16 & 0xFF) as u8
}

pub fn value_of(word: u32) -> u16 {
    (word & 0xFFFF) as u16
}

/// "Spare bits are written 0"; "type above 7 when a word is written" is refusal 6.
pub fn build(kind: u8, id: u8, value: u16) -> Result<u32, u8> {
    if kind > 7 {
        return Err(refusals::TYPE);
    }
    let word = u32::from(kind) << 28 | u32::from(id) << 16 | u32::from(value);
    Ok(with_even_parity(word))
}

/// Sets the parity bit so that the number of ones is even; every other bit stays.
pub fn with_even_parity(word: u32) -> u32 {
    let rest = word & 0x7FFF_FFFF;
    if parity_is_even(rest) {
        rest
    } else {
        rest | 0x8000_0000
    }
}

/// The frame as it would be with its spare bits 0; type, id and value stay.
pub fn without_spare(word: u32) -> u32 {
    with_even_parity(word & 0xF0FF_FFFF)
}

/// What a frame has to pass at the line, from either side: even parity, then spare bits that are
/// zero. "Frames with a spare bit set are to be refused at the line, from either side"; "16, spare
/// bits not zero, no effect, after 5 and before 6" (02, Ask 1). Nothing but the line asks for it.
pub fn check_at_the_line(word: u32) -> Result<(), u8> {
    if !parity_is_even(word) {
        return Err(refusals::PARITY);
    }
    if spare_of(word) != 0 {
        return Err(refusals::SPARE_BITS);
    }
    Ok(())
}

/// "A boiler frame of even parity matches a question when the id is equal and the type
/// is 6 or 7, or 4 for a READ-DATA, or 5 for a WRITE-DATA." "A matching frame in demand 3 is from
/// then on one that passes this too" (02, Ask 1).
pub fn matches(question: u32, answer: u32) -> bool {
    if check_at_the_line(answer).is_err() || id_of(answer) != id_of(question) {
        return false;
    }
    match type_of(answer) {
        DATA_INVALID | UNKNOWN_DATAID => true,
        READ_ACK => type_of(question) == READ_DATA,
        WRITE_ACK => type_of(question) == WRITE_DATA,
        _ => false,
    }
}
