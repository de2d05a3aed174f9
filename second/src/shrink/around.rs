//! What stands around the pieces of an input, and how the two make one again.

use super::pieces::Piece;
use crate::programs::{Argument, Input};

#[derive(Clone)]
pub struct Around {
    arguments: Vec<Argument>,
    head: Option<Head>,
}

/// Of a log whose pieces are its readings, so that it still counts them when some are dropped.
#[derive(Clone)]
struct Head {
    /// With their count.
    lines: Vec<u8>,
    /// How many readings the log counts beyond those it has; 65,535 where it counts one too few.
    beyond: u16,
}

const READING: usize = 8;

fn whole_readings(pieces: &[Piece]) -> u16 {
    let whole = pieces.iter().filter(|piece| piece.len() == READING);
    whole.count() as u16
}

impl Around {
    /// Nothing stands around these but the arguments.
    pub fn only(input: &Input) -> Around {
        Around {
            arguments: input.arguments.clone(),
            head: None,
        }
    }

    /// A log and its readings, or its single bytes where it ends before them.
    pub fn log(input: &Input) -> (Around, Vec<Piece>) {
        let mut around = Around::only(input);
        let log = &input.bytes;
        let lines = 1 + usize::from(log.first().copied().unwrap_or(0));
        if log.len() < lines + 2 {
            return (around, log.chunks(1).map(<[u8]>::to_vec).collect());
        }
        let counted = u16::from_be_bytes([log[lines], log[lines + 1]]);
        let readings = log[lines + 2..].chunks(READING);
        let pieces: Vec<Piece> = readings.map(<[u8]>::to_vec).collect();
        around.head = Some(Head {
            lines: log[..lines].to_vec(),
            beyond: counted.wrapping_sub(whole_readings(&pieces)),
        });
        (around, pieces)
    }

    pub fn join(&self, pieces: &[Piece]) -> Input {
        let mut bytes = Vec::new();
        if let Some(head) = &self.head {
            let counted = whole_readings(pieces).wrapping_add(head.beyond);
            bytes.extend(&head.lines);
            bytes.extend(counted.to_be_bytes());
        }
        bytes.extend(pieces.concat());
        Input {
            arguments: self.arguments.clone(),
            bytes,
        }
    }

    /// The same with an argument's zeros before it, or one of the lines, left out.
    pub fn plainer(&self) -> Vec<Around> {
        let mut all = Vec::new();
        for place in 0..self.arguments.len() {
            if let [b'0', rest @ ..] = &self.arguments[place][..] {
                let mut plainer = self.clone();
                plainer.arguments[place] = rest.to_vec();
                all.push(plainer);
            }
        }
        let lines = self.head.as_ref().map_or(1, |head| head.lines.len());
        for place in 1..lines {
            let mut plainer = self.clone();
            plainer.head = plainer.head.map(|head| head.without(place));
            all.push(plainer);
        }
        all
    }
}

impl Head {
    fn without(mut self, place: usize) -> Head {
        self.lines.remove(place);
        self.lines[0] -= 1;
        self
    }
}
