//! Script lines that are none, comments and empty lines, and lines at the length border.

use crate::random::Random;

/// Lines that each miss the form of a command by a little.
const NO_LINES: &[&[u8]] = &[
    b"tick",
    b"tick ",
    b"tick 0",
    b"tick 00000",
    b"tick 4294967296",
    b"tick 9999999999",
    b"tick 18446744073709551617",
    b"tick 340282366920938463463374607431768211457",
    b"tick -1",
    b"tick +1",
    b"tick 1 ",
    b"tick  1",
    b" tick 1",
    b"tick 1\r",
    b"tick\t1",
    b"tick 1 1",
    b"tick 1 18 23",
    b"tick 1x",
    b"tick 0x1",
    b"tick 1.0",
    b"Tick 1",
    b"TICK 1",
    b"ticks 1",
    b"tic 1",
    b"thermostat",
    b"thermostat 1",
    b"thermostat 1 ",
    b"thermostat 256 80190000",
    b"thermostat 257 80190000",
    b"thermostat -1 80190000",
    b"thermostat 1 8019000",
    b"thermostat 1 801900000",
    b"thermostat 1 0x801900",
    b"thermostat 1 8019000G",
    b"thermostat 1  80190000",
    b"thermostat 1 80190000 ",
    b"thermostat 1 8019 0000",
    b"thermostat 80190000",
    b"thermostat  80190000",
    b"thermostat 80190000 18 23",
    b"thermostat 1 18 23",
    b"thermostat 1 18 23 80190000",
    b"thermostat 1 8019000 18 23",
    b"thermostat 256 80190000 18 23",
    b"thermostat one 80190000",
    b"boiler",
    b"boiler 1",
    b"boiler 1 4019328",
    b"boiler 1 +0193280",
    b"boiler 65537 40193280",
    b"boiler 1 401932800 18 23",
    b"boiler 18 23 1 40193280",
    b"boiler 1 40193280\r",
    b"boiler 1\x0040193280",
    b"modbus ",
    b"modbus 0",
    b"modbus 010",
    b"modbus 0g",
    b"modbus 01 03",
    b"modbus 01 ",
    b"modbus 0503007600016454 18 23",
    b"modbus  01",
    b"modbus\r",
    b"MODBUS",
    b"modbus 0103\xC3\xA1",
    b"room",
    b"room ",
    b"room 301",
    b"room 1000",
    b"room 4294967312",
    b"room 18446744073709551632",
    b"room -1",
    b"room 16 16",
    b"room 16 18 23",
    b"room 16\r",
    b"sent 1 80190000",
    b" ",
    b"  ",
    b" #",
    b"\r",
    b"\0",
    b"\xFF\xFE",
    b"-",
];

pub fn no_line(random: &mut Random) -> Vec<u8> {
    match random.below(10) {
        // One byte changed or added in a good line may leave it good, which is fine too.
        0 => {
            let good: [&[u8]; 2] = [b"thermostat 1 80190000", b"boiler 1 40193280 18 23"];
            let mut line = random.pick(&good).to_vec();
            let place = random.below(line.len() as u64) as usize;
            line[place] = random.between(11, 255) as u8;
            line
        }
        1 => long_line(random),
        2 => {
            let count = random.pick(&[301, 302, 400]);
            let mut line = b"modbus ".to_vec();
            line.extend(vec![b'0'; 2 * count]);
            line
        }
        _ => random.pick(NO_LINES).to_vec(),
    }
}

pub fn comment(random: &mut Random) -> Vec<u8> {
    match random.below(4) {
        0 => Vec::new(),
        1 => b"#".to_vec(),
        2 => b"# tick 5\r".to_vec(),
        _ => {
            let mut line = b"# ".to_vec();
            let count = random.below(30) as usize;
            line.extend(
                random
                    .bytes(count)
                    .iter()
                    .map(|byte| if *byte == b'\n' { b' ' } else { *byte }),
            );
            line
        }
    }
}

/// Comments and numbers with leading zeros, of 1,024 bytes, one more, and many more.
fn long_line(random: &mut Random) -> Vec<u8> {
    let length = random.pick(&[1023, 1024, 1024, 1025, 1025, 1026, 2048, 5000]);
    match random.below(5) {
        0 | 1 => {
            let mut line = vec![b'#'];
            line.resize(length, b'x');
            line
        }
        2 => padded(b"tick ", b"1", length),
        3 => padded(b"thermostat 9 80190000 18 ", b"23", length),
        _ => padded(b"room ", b"256", length),
    }
}

fn padded(head: &[u8], tail: &[u8], length: usize) -> Vec<u8> {
    let mut line = head.to_vec();
    line.resize(length - tail.len(), b'0');
    line.extend(tail);
    line
}
