//! A frame as it is read and carried along: its word, and how straight its edges were (02, Ask 3).

use std::fmt;

/// "The smallest and largest distance between neighbouring middle edges"; "the relay carries both
/// along, unjudged", so any two numbers may stand here.
#[derive(Clone, Copy, PartialEq, Eq, PartialOrd, Ord, Debug)]
pub struct Edges {
    pub smallest: u8,
    pub largest: u8,
}

/// Where nothing was measured: an order's own word, and a frame that comes without the two.
pub const NO_EDGES: Edges = Edges {
    smallest: 0,
    largest: 0,
};

impl Edges {
    pub fn of(distances: &[u8]) -> Edges {
        let bound = |bound: Option<&u8>| *bound.expect("a frame has distances");
        Edges {
            smallest: bound(distances.iter().min()),
            largest: bound(distances.iter().max()),
        }
    }
}

#[derive(Clone, Copy, PartialEq, Eq, Debug)]
pub struct Frame {
    pub word: u32,
    pub edges: Edges,
}

/// A word alone.
impl From<u32> for Frame {
    fn from(word: u32) -> Frame {
        let edges = NO_EDGES;
        Frame { word, edges }
    }
}

/// The word in eight capital hex digits; the two follow in decimal unless both are 0.
impl fmt::Display for Frame {
    fn fmt(&self, output: &mut fmt::Formatter) -> fmt::Result {
        write!(output, "{:08X}", self.word)?;
        if self.edges == NO_EDGES {
            return Ok(());
        }
        write!(output, " {} {}", self.edges.smallest, self.edges.largest)
    }
}
