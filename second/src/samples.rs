//! Manchester samples to frames and back (01, 'Samples').

use crate::frame::{Edges, Frame};
use crate::refusals;

/// "680 samples written, for any word, odd parity too."
pub const WRITTEN: usize = 680;

const IDLE_NEEDED: u32 = 24;
const MIDDLE_EDGES: usize = 34;

/// "Bit 1 is active then idle, bit 0 idle then active; a frame is a start bit 1, 32 bits
/// highest first, a stop bit 1." "A bit lasts 20 samples when written."
pub fn write(word: u32) -> [u8; WRITTEN] {
    let bits = 1u64 << 33 | u64::from(word) << 1 | 1;
    let mut samples = [0; WRITTEN];
    for (place, sample) in samples.iter_mut().enumerate() {
        let bit = (bits >> (33 - place / 20) & 1) as u8;
        let first_half = place % 20 < 10;
        *sample = if first_half { bit } else { 1 - bit };
    }
    samples
}

#[derive(Clone, Copy, PartialEq, Eq, Debug)]
pub enum Heard {
    Frame(Frame),
    Refused(u8),
}

/// Where the reader stands; each distance is that of the sample read last.
#[derive(Clone, Copy)]
enum Phase {
    Waits {
        idle: u32,
    },
    Start {
        distance: u32,
    },
    Bits {
        distance: u32,
        other_edge: bool,
        middle_edges: usize,
        bits: u64,
    },
}

#[derive(Clone, Copy)]
pub struct Reader {
    phase: Phase,
    level: u8,
    /// From each middle edge of the frame to the next. "The first half of the start bit isn't one."
    distances: [u8; MIDDLE_EDGES - 1],
}

impl Reader {
    /// "A fresh reader, and one that has just given a frame or a refusal, waits for 24 idle
    /// samples in a row; the sample that gave the answer isn't counted."
    pub fn fresh() -> Reader {
        Reader {
            phase: Phase::Waits { idle: 0 },
            level: 0,
            distances: [0; MIDDLE_EDGES - 1],
        }
    }

    pub fn read(&mut self, sample: u8) -> Option<Heard> {
        // "A sample of 2 to 255 is refusal 4 in every state and before 1 to 3; the reader
        // then waits for 24 idle samples."
        if sample > 1 {
            return self.give(Heard::Refused(refusals::NOT_A_LEVEL));
        }
        let edge = sample != self.level;
        self.level = sample;
        match self.phase {
            Phase::Waits { idle } => self.wait(idle, sample),
            Phase::Start { distance } => self.start(distance + 1, edge),
            Phase::Bits {
                distance,
                other_edge,
                middle_edges,
                bits,
            } => self.bit(distance + 1, edge, other_edge, middle_edges, bits),
        }
    }

    fn give(&mut self, heard: Heard) -> Option<Heard> {
        *self = Reader::fresh();
        Some(heard)
    }

    /// "An active one starts the count again." Then "the first active sample is an edge".
    fn wait(&mut self, idle: u32, sample: u8) -> Option<Heard> {
        self.phase = if sample == 0 {
            Phase::Waits {
                idle: (idle + 1).min(IDLE_NEEDED),
            }
        } else if idle < IDLE_NEEDED {
            Phase::Waits { idle: 0 }
        } else {
            Phase::Start { distance: 0 }
        };
        None
    }

    /// "The start bit's middle edge follows at distance 8 to 14. An earlier edge is refusal 1;
    /// no edge up to 14 is refusal 2, given at distance 15 for either level there."
    fn start(&mut self, distance: u32, edge: bool) -> Option<Heard> {
        self.phase = Phase::Start { distance };
        match distance {
            15.. => self.give(Heard::Refused(refusals::MISSING_EDGE)),
            8..=14 if edge => self.middle_edge(0, 0),
            _ if edge => self.give(Heard::Refused(refusals::EARLY_EDGE)),
            _ => None,
        }
    }

    /// "After each middle edge the next middle edge comes at 18 to 23, measured from the middle
    /// edge before. At most one other edge may stand between, at 8 to 14. Any other edge up to
    /// 17 is refusal 1. No middle edge up to 23 is refusal 2, given at distance 24 for either
    /// level there."
    fn bit(
        &mut self,
        distance: u32,
        edge: bool,
        other_edge: bool,
        middle_edges: usize,
        bits: u64,
    ) -> Option<Heard> {
        self.phase = Phase::Bits {
            distance,
            other_edge: other_edge || edge,
            middle_edges,
            bits,
        };
        match distance {
            24.. => self.give(Heard::Refused(refusals::MISSING_EDGE)),
            18..=23 if edge => {
                self.distances[middle_edges - 1] = distance as u8;
                self.middle_edge(middle_edges, bits)
            }
            8..=14 if edge && !other_edge => None,
            _ if edge => self.give(Heard::Refused(refusals::EARLY_EDGE)),
            _ => None,
        }
    }

    /// "A falling middle edge is 1, a rising one 0. The 34th must fall, else refusal 3. The
    /// frame is given at that sample, of either parity." It "shall come with the smallest and
    /// largest distance between neighbouring middle edges" (02, Ask 3).
    fn middle_edge(&mut self, before: usize, bits: u64) -> Option<Heard> {
        let middle_edges = before + 1;
        let falling = self.level == 0;
        if middle_edges == MIDDLE_EDGES {
            // Behind the start bit the 32 bits of the word are the lowest ones.
            let word = bits as u32;
            let edges = Edges::of(&self.distances);
            let heard = if falling {
                Heard::Frame(Frame { word, edges })
            } else {
                Heard::Refused(refusals::STOP_BIT)
            };
            return self.give(heard);
        }
        let bits = bits << 1 | u64::from(falling);
        self.phase = Phase::Bits {
            distance: 0,
            other_edge: false,
            middle_edges,
            bits,
        };
        None
    }
}
