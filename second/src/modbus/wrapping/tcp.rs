//! The TCP form (02, Ask 4): "transaction (2 bytes, echoed), protocol (2 bytes, 0), length (2 bytes,
//! unit and what follows), unit, function and data, no checksum".

use super::{Transaction, Unwrapped};
use crate::refusals;

/// What stands before the unit, and isn't counted by the length.
const HEAD: usize = 6;

/// "11 reads 8 to 260; 17, protocol not 0; 18, length not what was handed over; in that order".
pub fn taken_off(message: &[u8]) -> Result<Unwrapped<'_>, u8> {
    if !(8..=260).contains(&message.len()) {
        return Err(refusals::MODBUS_LENGTH);
    }
    let (head, body) = message.split_at(HEAD);
    let number = |place| u16::from_be_bytes([head[place], head[place + 1]]);
    let (transaction, protocol, length) = (number(0), number(2), number(4));
    if protocol != 0 {
        return Err(refusals::TCP_PROTOCOL);
    }
    if usize::from(length) != body.len() {
        return Err(refusals::TCP_LENGTH);
    }
    Ok(Unwrapped { transaction, body })
}

pub fn put_on(transaction: Transaction, body: &[u8]) -> Vec<u8> {
    let length = u16::try_from(body.len()).expect("a reply has few bytes");
    let head = [transaction, 0, length].map(u16::to_be_bytes).concat();
    [&head, body].concat()
}
