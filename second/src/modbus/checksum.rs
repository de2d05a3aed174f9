//! The checksum of a message, as the remainder of a division. The usual way, bit by bit in a register
//! that shifts to the right and takes in 0xA001, is the product's (02's Ask 5). Here the message is one
//! polynomial, divided as on paper from its highest power down: no register, no table, so that a slip
//! in the register isn't made twice.

const DEGREE: usize = 16;
/// The powers of x^16 + x^15 + x^2 + 1: 0xA001 the other way round is 0x8005, and x^16 goes unsaid.
const DIVISOR: [usize; 4] = [DEGREE, 15, 2, 0];

/// "CRC-16 with 0xA001, start 0xFFFF, low byte first."
pub fn checksum(bytes: &[u8]) -> [u8; 2] {
    let mut bits = on_the_wire(bytes);
    // Room for the remainder; the start of a message of less than two bytes reaches into it.
    bits.extend([false; DEGREE]);
    // The start: each of its sixteen ones turns a bit round.
    for bit in &mut bits[..DEGREE] {
        *bit = !*bit;
    }
    // The highest power is the lowest bit, as in the message.
    let word = remainder(bits)
        .into_iter()
        .rev()
        .fold(0u16, |word, bit| word << 1 | u16::from(bit));
    word.to_le_bytes()
}

/// The bits in the order in which they go out, each byte's lowest first; the first is the highest power.
fn on_the_wire(bytes: &[u8]) -> Vec<bool> {
    bytes
        .iter()
        .flat_map(|byte| (0..8).map(move |place| byte >> place & 1 == 1))
        .collect()
}

/// Wherever a one still stands, the divisor is taken away from there on, which turns round the bits
/// at its powers. What stands below the lowest place where it fits is left over.
fn remainder(mut bits: Vec<bool>) -> Vec<bool> {
    let end = bits.len() - DEGREE;
    for place in 0..end {
        if bits[place] {
            for power in DIVISOR {
                bits[place + DEGREE - power] ^= true;
            }
        }
    }
    bits.split_off(end)
}
