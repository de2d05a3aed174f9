//! What is put around a message's body: the checksum, or the three numbers before the unit; right, or
//! wrong in a way that a careless reader lets through.

use crate::modbus::{self, Transaction, Wrapping};
use crate::random::Random;

pub struct Cover {
    pub wrapping: Wrapping,
    pub checksum: Checksum,
    pub transaction: Transaction,
    pub protocol: u16,
    pub length: Length,
}

#[derive(Clone, Copy, PartialEq, Eq)]
pub enum Checksum {
    Right,
    Swapped,
    Wrong,
}

/// The length field, by what is done to the right one.
#[derive(Clone, Copy, PartialEq, Eq)]
pub enum Length {
    Right,
    More(u16),
    Less(u16),
    /// Some bits of the high byte flipped.
    High(u8),
    Swapped,
    Is(u16),
}

/// Bytes before the unit that the length field doesn't count.
const HEAD: usize = 6;

impl Cover {
    pub fn good(random: &mut Random, wrapping: Wrapping) -> Cover {
        Cover {
            wrapping,
            checksum: Checksum::Right,
            transaction: transaction(random),
            protocol: 0,
            length: Length::Right,
        }
    }

    /// How many bytes it adds.
    pub fn bytes(&self) -> usize {
        match self.wrapping {
            Wrapping::Serial => 2,
            Wrapping::Tcp => HEAD,
        }
    }

    pub fn around(&self, random: &mut Random, body: Vec<u8>) -> Vec<u8> {
        match self.wrapping {
            Wrapping::Serial => self.closed(random, body),
            Wrapping::Tcp => self.headed(&body),
        }
    }

    fn closed(&self, random: &mut Random, mut body: Vec<u8>) -> Vec<u8> {
        let sum = modbus::checksum(&body);
        body.extend(match self.checksum {
            Checksum::Right => sum,
            Checksum::Swapped => [sum[1], sum[0]],
            Checksum::Wrong => [sum[0] ^ 1 << random.below(8), sum[1]],
        });
        body
    }

    fn headed(&self, body: &[u8]) -> Vec<u8> {
        let right = body.len() as u16;
        let length = match self.length {
            Length::Right => right,
            Length::More(many) => right + many,
            Length::Less(many) => right.saturating_sub(many),
            Length::High(bits) => right ^ u16::from_be_bytes([bits, 0]),
            Length::Swapped => right.swap_bytes(),
            Length::Is(number) => number,
        };
        let head = [self.transaction, self.protocol, length];
        [&head.map(u16::to_be_bytes).concat(), body].concat()
    }

    /// A protocol that isn't 0: in one of its bytes, or in both.
    pub fn spoil_protocol(&mut self, random: &mut Random) {
        let any = random.between(1, 255) as u16;
        let both = random.word() as u16 | 0x0101;
        self.protocol = random.pick(&[1, 1, 0x0100, 0x0100, any, any << 8, both, 0x8000, 0xFFFF]);
    }

    /// One less leaves the unit out, two less the function too; 2 more counts a checksum, 6 more the
    /// whole message.
    pub fn spoil_length(&mut self, random: &mut Random) {
        let bits = random.between(1, 255) as u8;
        let any = random.word() as u16;
        self.length = random.pick(&[
            Length::Less(1),
            Length::More(1),
            Length::Less(2),
            Length::More(2),
            Length::More(HEAD as u16),
            Length::High(1),
            Length::High(bits),
            Length::Swapped,
            Length::Is(0),
            Length::Is(0xFFFF),
            Length::Is(any),
        ]);
    }
}

/// Any, so that hardly two messages have the same; now and then one whose bytes tell little apart.
fn transaction(random: &mut Random) -> Transaction {
    let any = random.word() as u16;
    match random.percent(80) {
        true => any,
        false => random.pick(&[0, 1, 0x0100, 0xFFFF, any & 0xFF, any & 0xFF00]),
    }
}
