//! Modbus requests and replies for units 1 to 5 (01, 'Modbus').

mod checksum;
pub mod exceptions;
mod reply;
mod request;
mod rows;
mod wrapping;

pub use checksum::checksum;
pub use reply::{exception, outcome, Order};
pub use rows::{Form, ROWS};
pub use wrapping::{closed, Transaction, Wrapping};

use crate::status::{self, Question};
use crate::{refusals, word};
use request::Request;
use rows::Row;

const OWN_UNIT: u8 = 5;
const VERSION_REGISTER: u16 = 0x0076;
const VERSION: u16 = 0x0100;

#[derive(Clone, PartialEq, Eq, Debug)]
pub enum Judged {
    Refused(u8),
    /// The body of a reply at once.
    Reply(Vec<u8>),
    /// Good by its form; the last checks are the box's.
    Order(Order),
}

/// "Order of checks: .. unit 1 to 5; function below 80; function served (else exception 01); exact
/// length and byte count, then counts (03); offset (02); type for 41 (03)". What comes before is the
/// form's (`Wrapping::taken_off`), what follows looks at the box (`Gateway::message`).
pub fn judge(body: &[u8]) -> Judged {
    let (unit, function, data) = (body[0], body[1], &body[2..]);
    if !(1..=5).contains(&unit) {
        return Judged::Refused(refusals::MODBUS_UNIT);
    }
    if function >= 0x80 {
        return Judged::Refused(refusals::MODBUS_FUNCTION);
    }
    let answer = answer_for(unit, function, data);
    answer.unwrap_or_else(|code| Judged::Reply(reply::exception(unit, function, code)))
}

/// The checks that are answered; an error is an exception's code.
fn answer_for(unit: u8, function: u8, data: &[u8]) -> Result<Judged, u8> {
    if !served(unit, function) {
        return Err(exceptions::ILLEGAL_FUNCTION);
    }
    let request = request::read(function, data).ok_or(exceptions::ILLEGAL_VALUE)?;
    if unit == OWN_UNIT {
        return own_register(function, &request);
    }
    let rows: Vec<usize> = (0..ROWS.len())
        .filter(|place| names(&ROWS[*place], function, &request))
        .collect();
    if rows.is_empty() || request.unlike_offsets {
        return Err(exceptions::ILLEGAL_ADDRESS);
    }
    let row = rows
        .into_iter()
        .find(|place| ROWS[*place].message == request.message)
        .ok_or(exceptions::ILLEGAL_VALUE)?;
    let question = question(&ROWS[row], &request);
    Ok(Judged::Order(Order {
        unit,
        function,
        offset: request.offset,
        row,
        question,
    }))
}

/// "Unit 5 serves 03, 04, 06, 10"; the others have 17 and 41 besides.
fn served(unit: u8, function: u8) -> bool {
    match function {
        0x03 | 0x04 | 0x06 | 0x10 => true,
        0x17 | 0x41 => unit != OWN_UNIT,
        _ => false,
    }
}

/// "Offsets that the 17 rows don't name are 02. For 41 the offset's high byte is 0."
fn names(row: &Row, function: u8, request: &Request) -> bool {
    let page = (request.offset >> 8) as u8;
    let page_named = match row.page {
        Some(named) => named == page,
        None => true,
    };
    row.function == function && row.counts == request.counts && page_named
}

/// "The id is the offset's low byte." The rows that send no value are those of "codes 03 and 04
/// and code 17 with a read alone"; 01's value 0 in them "is wrong" for ids 0 and 70 (02, Ask 2).
fn question(row: &Row, request: &Request) -> Question {
    let id = (request.offset & 0xFF) as u8;
    if !row.sends_value && status::IDS.contains(&id) {
        return Question::Status(id);
    }
    let value = if row.sends_value { request.value } else { 0 };
    Question::Word(word::build(row.question, id, value).expect("a row's type is at most 2"))
}

/// "Register 0076 reads 0100 (version 1.0); writing it, and every other register, is 02."
fn own_register(function: u8, request: &Request) -> Result<Judged, u8> {
    let reads = function == 0x03 || function == 0x04;
    if !reads || request.offset != VERSION_REGISTER {
        return Err(exceptions::ILLEGAL_ADDRESS);
    }
    let [high, low] = VERSION.to_be_bytes();
    Ok(Judged::Reply(vec![OWN_UNIT, function, 2, high, low]))
}
