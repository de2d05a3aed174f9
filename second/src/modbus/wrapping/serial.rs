//! The serial form: the body and its checksum.

use super::Unwrapped;
use crate::modbus::checksum;
use crate::refusals;

/// "Length 4 to 256; checksum".
pub fn taken_off(message: &[u8]) -> Result<Unwrapped<'_>, u8> {
    if !(4..=256).contains(&message.len()) {
        return Err(refusals::MODBUS_LENGTH);
    }
    let (body, sum) = message.split_at(message.len() - 2);
    if checksum(body) != *sum {
        return Err(refusals::MODBUS_CHECKSUM);
    }
    let transaction = 0;
    Ok(Unwrapped { transaction, body })
}

/// The body with its checksum behind it.
pub fn closed(body: &[u8]) -> Vec<u8> {
    [body, &checksum(body)].concat()
}
