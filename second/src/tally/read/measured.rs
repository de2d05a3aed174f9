//! The distances in a stream of samples, measured on the whole stream at once and apart from the
//! reader, so that no count goes by what it is to check.

use crate::frame::Edges;

const IDLE_NEEDED: usize = 24;
const NEXT_FROM: usize = 18;
const NEXT_UP_TO: usize = 23;

pub struct Stream<'a> {
    samples: &'a [u8],
    /// Each place at which a sample isn't the one before it.
    edges: Vec<usize>,
}

/// What was read of a frame up to an answer.
pub struct Measured {
    /// From the first rise to the start bit's middle edge.
    pub first_half: usize,
    pub distances: Vec<u8>,
}

impl Measured {
    /// Nothing where only the start bit's middle edge came, or not even that.
    pub fn edges(&self) -> Option<Edges> {
        let mut sorted = self.distances.clone();
        sorted.sort_unstable();
        Some(Edges {
            smallest: *sorted.first()?,
            largest: *sorted.last()?,
        })
    }
}

impl Stream<'_> {
    pub fn new(samples: &[u8]) -> Stream<'_> {
        let edge = |place: &usize| samples[*place] != samples[*place - 1];
        let edges = (1..samples.len()).filter(edge).collect();
        Stream { samples, edges }
    }

    /// What the samples of this part hold: the answer before it and the one that ends it are none
    /// of them, but for a frame's own last middle edge. Nothing where no frame began.
    pub fn measured(&self, from: usize, end: usize) -> Option<Measured> {
        let place_of = |sample: usize| self.edges.partition_point(|edge| *edge < sample);
        let edges = &self.edges[place_of(from)..place_of(end)];
        let start = self.start(from, edges)?;
        let mut behind = edges[start + 1..].iter();
        let mut middle = *behind.next()?;
        let first_half = middle - edges[start];
        let mut distances = Vec::new();
        for edge in behind {
            // An edge before that stands between two middle ones, or is refused.
            if (NEXT_FROM..=NEXT_UP_TO).contains(&(edge - middle)) {
                distances.push((edge - middle) as u8);
                middle = *edge;
            }
        }
        Some(Measured {
            first_half,
            distances,
        })
    }

    /// The place in the list of the first rise behind enough idle samples.
    fn start(&self, from: usize, edges: &[usize]) -> Option<usize> {
        let idle_from = |place: usize| place.checked_sub(1).map_or(from, |before| edges[before]);
        (0..edges.len()).find(|place| {
            let (rise, idle) = (edges[*place], idle_from(*place));
            self.samples[rise] == 1 && self.samples[rise - 1] == 0 && rise - idle >= IDLE_NEEDED
        })
    }
}
