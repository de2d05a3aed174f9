//! What each side wrote in a comparison, as a number: two builds of which it is said that no answer
//! changed are held to it, where seed, rounds and input are the same.

use std::fmt;

use crate::programs::Name;

/// Still came later, so it has a hash of its own: that of the programs before it stays what it was.
#[derive(Default)]
pub struct Hashes {
    before: Written,
    still: Written,
}

impl Hashes {
    pub fn of(&mut self, name: Name) -> &mut Written {
        match name {
            Name::Still => &mut self.still,
            _ => &mut self.before,
        }
    }
}

impl fmt::Display for Hashes {
    fn fmt(&self, to: &mut fmt::Formatter) -> fmt::Result {
        writeln!(to, "written: {}", self.before)?;
        match Name::Still.is_compared() {
            true => writeln!(to, "written by still: {}", self.still),
            false => Ok(()),
        }
    }
}

/// What both sides wrote, each hashed from its own bytes.
#[derive(Default)]
pub struct Written {
    ours: Side,
    second: Side,
}

impl Written {
    /// One run of both. Where the product gave no output, that is a difference, which is told elsewhere.
    pub fn add(&mut self, given: &Result<Vec<u8>, String>, own: &[u8]) {
        if let Ok(given) = given {
            self.ours.add(given);
        }
        self.second.add(own);
    }
}

impl fmt::Display for Written {
    fn fmt(&self, to: &mut fmt::Formatter) -> fmt::Result {
        write!(to, "ours {}, second {}", self.ours, self.second)
    }
}

struct Side {
    hash: u64,
    bytes: usize,
}

impl Default for Side {
    fn default() -> Side {
        Side {
            hash: FNV_START,
            bytes: 0,
        }
    }
}

impl Side {
    /// The length goes before the output, so that no output can run into the next.
    fn add(&mut self, output: &[u8]) {
        let length = output.len() as u64;
        self.hash = fnv_1a(self.hash, &length.to_le_bytes());
        self.hash = fnv_1a(self.hash, output);
        self.bytes += output.len();
    }
}

impl fmt::Display for Side {
    fn fmt(&self, to: &mut fmt::Formatter) -> fmt::Result {
        write!(to, "{:016x} ({} bytes)", self.hash, self.bytes)
    }
}

pub const FNV_START: u64 = 0xCBF2_9CE4_8422_2325;
const FNV_PRIME: u64 = 0x0000_0100_0000_01B3;

/// FNV-1a with 64 bits, further from a hash so far: a few lines with published values. It is meant for
/// mistakes; against someone who wants two outputs to look alike it is no help.
pub fn fnv_1a(hash: u64, bytes: &[u8]) -> u64 {
    bytes.iter().fold(hash, |hash, byte| {
        (hash ^ u64::from(*byte)).wrapping_mul(FNV_PRIME)
    })
}
