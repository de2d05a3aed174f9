//! 01's table of functions: what each asks on the line, and the form of its reply.

use crate::word::{INVALID_DATA, READ_DATA, WRITE_DATA};

/// The normal reply after unit and function.
#[derive(Clone, Copy, PartialEq, Eq, Debug)]
pub enum Form {
    /// 02, value
    Value,
    /// offset, value from the boiler
    OffsetAndValue,
    /// offset, 0001
    OffsetAndOne,
    /// 00
    Nothing,
    /// none: always an exception
    NoNormalReply,
    /// 02, value, and type 6 is a normal reply
    ValueOfInvalid,
    /// offset, value, 00, type times 16, for types 4 to 7
    Message,
}

/// A row of 01's table; 41's row stands here once for each of its three messages.
pub struct Row {
    pub name: &'static str,
    pub function: u8,
    /// Registers read and written; the row of 17 looks at both, elsewhere they are fixed.
    pub counts: (u16, u16),
    /// The offset's high byte, where the row names one.
    pub page: Option<u8>,
    pub message: u16,
    pub question: u8,
    pub sends_value: bool,
    pub form: Form,
}

const fn row(
    name: &'static str,
    function: u8,
    counts: (u16, u16),
    page: Option<u8>,
    question: u8,
    sends_value: bool,
    form: Form,
) -> Row {
    Row {
        name,
        function,
        counts,
        page,
        message: 0,
        question,
        sends_value,
        form,
    }
}

const fn row_41(name: &'static str, message: u16, question: u8) -> Row {
    let (counts, page, form) = ((1, 1), Some(0x00), Form::Message);
    Row {
        name,
        function: 0x41,
        counts,
        page,
        message,
        question,
        sends_value: true,
        form,
    }
}

#[rustfmt::skip]
pub const ROWS: [Row; 13] = [
    row("03",                  0x03, (1, 0), None,       READ_DATA,    false, Form::Value),
    row("04",                  0x04, (1, 0), None,       READ_DATA,    false, Form::Value),
    row("06",                  0x06, (0, 1), None,       WRITE_DATA,   true,  Form::OffsetAndValue),
    row("10",                  0x10, (0, 1), None,       WRITE_DATA,   true,  Form::OffsetAndOne),
    row("17 read 1 write 0",   0x17, (1, 0), None,       READ_DATA,    false, Form::Value),
    row("17 0 and 1, 00..",    0x17, (0, 1), Some(0x00), WRITE_DATA,   true,  Form::Nothing),
    row("17 0 and 1, 02..",    0x17, (0, 1), Some(0x02), INVALID_DATA, true,  Form::NoNormalReply),
    row("17 1 and 1, 00..",    0x17, (1, 1), Some(0x00), READ_DATA,    true,  Form::Value),
    row("17 1 and 1, 01..",    0x17, (1, 1), Some(0x01), WRITE_DATA,   true,  Form::Value),
    row("17 1 and 1, 02..",    0x17, (1, 1), Some(0x02), INVALID_DATA, true,  Form::ValueOfInvalid),
    row_41("41 message 0000",  0x0000, READ_DATA),
    row_41("41 message 0010",  0x0010, WRITE_DATA),
    row_41("41 message 0020",  0x0020, INVALID_DATA),
];
