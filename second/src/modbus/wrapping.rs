//! The two forms of a message: serial (01, 'Modbus') and TCP (02, Ask 4). A form is put around a body,
//! that is unit, function and data, and taken off it; all else speaks of bodies alone, so that the
//! mapping is stated "once, over both wrappings".

mod serial;
mod tcp;

pub use serial::closed;

/// "A box has either the serial or the TCP form."
#[derive(Clone, Copy, PartialEq, Eq, PartialOrd, Ord, Debug)]
pub enum Wrapping {
    Serial,
    Tcp,
}

/// What a message has to be told apart by, and its reply echoes. A serial message has none; 0 stands
/// there, and is never written.
pub type Transaction = u16;

/// A message that its form takes. The body has unit and function at least.
#[derive(Clone, Copy, PartialEq, Eq, Debug)]
pub struct Unwrapped<'a> {
    pub transaction: Transaction,
    pub body: &'a [u8],
}

impl Wrapping {
    /// The form taken off a message, or the refusal: 11 and 12, or "11 reads 8 to 260; 17 ..; 18 ..;
    /// in that order in place of 12".
    pub fn taken_off(self, message: &[u8]) -> Result<Unwrapped<'_>, u8> {
        match self {
            Wrapping::Serial => serial::taken_off(message),
            Wrapping::Tcp => tcp::taken_off(message),
        }
    }

    /// The form put around the body of a reply.
    pub fn put_on(self, transaction: Transaction, body: &[u8]) -> Vec<u8> {
        match self {
            Wrapping::Serial => closed(body),
            Wrapping::Tcp => tcp::put_on(transaction, body),
        }
    }
}
