//! Lines that each miss `fresh serial` or `fresh tcp` by a little (02, Ask 4).

#[rustfmt::skip]
pub const WRONG: [&str; 40] = [
    // no form, another, both
    "fresh", "fresh ", "fresh udp", "fresh rtu", "fresh modbus", "fresh 0", "fresh 1", "fresh -",
    "fresh serial tcp", "fresh tcp serial", "fresh tcp tcp",
    // capitals
    "fresh TCP", "fresh Tcp", "fresh SERIAL", "fresh Serial", "Fresh tcp", "FRESH tcp", "FRESH SERIAL",
    // a space, a tab, a carriage return or a null too many
    "fresh tcp ", "fresh serial ", "fresh  tcp", "fresh  serial", " fresh tcp", " fresh serial",
    "fresh\ttcp", "fresh tcp\r", "fresh serial\r", "fresh tcp\0",
    // a number behind
    "fresh tcp 1", "fresh serial 1", "fresh tcp 256", "fresh serial 18 23",
    // a letter too few or too many
    "fresh tc", "fresh tcpp", "fresh seria", "fresh serials", "fres tcp", "freshtcp", "tcp", "serial",
];

pub fn wrong_lines() -> Vec<Vec<u8>> {
    WRONG.map(|line| line.as_bytes().to_vec()).into()
}
