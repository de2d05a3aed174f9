//! The numbered answers (01, 'Numbered answers', and 02's new ones), so that no bare number stands
//! in the rooms.

pub const EARLY_EDGE: u8 = 1;
pub const MISSING_EDGE: u8 = 2;
pub const STOP_BIT: u8 = 3;
pub const NOT_A_LEVEL: u8 = 4;
pub const PARITY: u8 = 5;
pub const TYPE: u8 = 6;
pub const AGE: u8 = 7;
pub const NO_MATCH: u8 = 8;
pub const LINE: u8 = 9;
pub const NO_RAW_NUMBER: u8 = 10;
pub const MODBUS_LENGTH: u8 = 11;
pub const MODBUS_CHECKSUM: u8 = 12;
pub const MODBUS_UNIT: u8 = 13;
pub const MODBUS_FUNCTION: u8 = 14;
pub const ROOM: u8 = 15;
// 02, Ask 1
pub const SPARE_BITS: u8 = 16;
// 02, Ask 4
pub const TCP_PROTOCOL: u8 = 17;
pub const TCP_LENGTH: u8 = 18;
// 02, Ask 6
pub const LOG: u8 = 19;
