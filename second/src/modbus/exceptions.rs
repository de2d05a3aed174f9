//! The exceptions, named as the Modbus specifications name them.

pub const ILLEGAL_FUNCTION: u8 = 0x01;
pub const ILLEGAL_ADDRESS: u8 = 0x02;
pub const ILLEGAL_VALUE: u8 = 0x03;
pub const DEVICE_FAILURE: u8 = 0x04;
pub const DEVICE_BUSY: u8 = 0x06;
pub const NO_ANSWER: u8 = 0x0B;
