//! The bodies of replies: exceptions, and what the outcome of an order brings.

use super::exceptions;
use super::rows::{Form, ROWS};
use crate::status::Question;
use crate::word;

/// What is kept of a request from acceptance until its outcome.
#[derive(Clone, Copy, PartialEq, Eq, Debug)]
pub struct Order {
    pub unit: u8,
    pub function: u8,
    pub offset: u16,
    /// The place in `ROWS`.
    pub row: usize,
    pub question: Question,
}

/// The reply to an order: its answer from the boiler, or none.
pub fn outcome(order: &Order, answer: Option<u32>) -> Vec<u8> {
    // "Outcomes: type 7 is exception 02, type 6 is 04, no answer is 0B."
    let Some(answer) = answer else {
        return exception(order.unit, order.function, exceptions::NO_ANSWER);
    };
    let form = ROWS[order.row].form;
    let kind = word::type_of(answer);
    // "Type 6 is a normal reply in the last 17 row; 41 gives types 4 to 7 as normal replies and
    // only no answer as 0B."
    let normal = match kind {
        word::UNKNOWN_DATAID => form == Form::Message,
        word::DATA_INVALID => form == Form::Message || form == Form::ValueOfInvalid,
        _ => true,
    };
    if normal {
        normal_reply(order, form, kind, word::value_of(answer))
    } else if kind == word::UNKNOWN_DATAID {
        exception(order.unit, order.function, exceptions::ILLEGAL_ADDRESS)
    } else {
        exception(order.unit, order.function, exceptions::DEVICE_FAILURE)
    }
}

fn normal_reply(order: &Order, form: Form, kind: u8, value: u16) -> Vec<u8> {
    let [oh, ol] = order.offset.to_be_bytes();
    let [vh, vl] = value.to_be_bytes();
    let mut reply = vec![order.unit, order.function];
    match form {
        Form::Value | Form::ValueOfInvalid => reply.extend([2, vh, vl]),
        Form::OffsetAndValue => reply.extend([oh, ol, vh, vl]),
        Form::OffsetAndOne => reply.extend([oh, ol, 0, 1]),
        Form::Nothing => reply.push(0),
        // An INVALID-DATA is matched by types 6 and 7 alone, so nothing comes here.
        Form::NoNormalReply => {}
        Form::Message => reply.extend([oh, ol, vh, vl, 0, kind * 16]),
    }
    reply
}

pub fn exception(unit: u8, function: u8, code: u8) -> Vec<u8> {
    vec![unit, function | 0x80, code]
}
