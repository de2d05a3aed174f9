//! How straight the edges of the frames read were (02, Ask 3): which two numbers came with them, at
//! which of the 33 places the smallest or the largest stood alone, and what was read before them.

mod measured;
mod table;

use super::{Tally, Thing};
use crate::frame::Edges;
use measured::{Measured, Stream};

/// Of a frame whose two numbers are those measured on its samples.
#[derive(Clone, Copy, PartialEq, Eq, PartialOrd, Ord, Debug)]
pub enum Read {
    Edges(Edges),
    /// The start bit's first half has this length.
    FirstHalf(usize),
    /// The one distance that is the smallest, or the largest, has this place.
    Alone(End, usize),
    /// The frame before, or what this refusal ended, had a smaller one, or a larger.
    Beyond(End, Option<u8>),
}

#[derive(Clone, Copy, PartialEq, Eq, PartialOrd, Ord, Debug)]
pub enum End {
    Smallest,
    Largest,
}

const ENDS: [End; 2] = [End::Smallest, End::Largest];

/// Between 34 middle edges.
const DISTANCES: usize = 33;

/// An answer of the reader: a refusal's number, or none for a frame; the two numbers it gave, then
/// those that were measured.
#[derive(Clone, Copy)]
struct Answer {
    at: usize,
    refusal: Option<u8>,
    edges: Option<Edges>,
}

impl Answer {
    fn of(line: &str) -> Answer {
        let fields: Vec<&str> = line.split(' ').collect();
        let number = |place: usize| fields[place].parse().expect("own output has a number here");
        let byte = |place: usize| number(place) as u8;
        let (refusal, edges) = match fields[1] {
            "refused" => (Some(byte(2)), None),
            _ => (None, Some((byte(3), byte(4)))),
        };
        Answer {
            at: number(0),
            refusal,
            edges: edges.map(|(smallest, largest)| Edges { smallest, largest }),
        }
    }
}

impl End {
    /// The place of this end, where it stands there alone.
    fn alone(self, measured: &Measured, edges: Edges) -> Option<usize> {
        let value = match self {
            End::Smallest => edges.smallest,
            End::Largest => edges.largest,
        };
        let mut places = (0..DISTANCES).filter(|place| measured.distances[*place] == value);
        let place = places.next()?;
        places.next().is_none().then_some(place)
    }

    /// Is this end of the other edges beyond that of these?
    fn beyond(self, other: Edges, edges: Edges) -> bool {
        match self {
            End::Smallest => other.smallest < edges.smallest,
            End::Largest => other.largest > edges.largest,
        }
    }
}

impl Tally {
    /// Counts what the decode program said to these samples.
    pub fn edges_read(&mut self, samples: &[u8], output: &[u8]) {
        let stream = Stream::new(samples);
        let mut before: Option<Answer> = None;
        for line in String::from_utf8_lossy(output).lines() {
            let mut answer = Answer::of(line);
            let from = before.map_or(0, |before| before.at + 1);
            // A frame's own sample is its last middle edge; a refusal's is none that counts.
            let end = answer.at + usize::from(answer.refusal.is_none());
            let measured = stream.measured(from, end);
            let given = answer.edges;
            answer.edges = measured.as_ref().and_then(Measured::edges);
            if let (Some(measured), Some(edges)) = (measured, given) {
                if measured.distances.len() == DISTANCES && answer.edges == given {
                    self.frame_read(&measured, edges, before);
                }
            }
            before = Some(answer);
        }
    }

    fn frame_read(&mut self, measured: &Measured, edges: Edges, before: Option<Answer>) {
        let mut all = vec![Read::Edges(edges), Read::FirstHalf(measured.first_half)];
        for end in ENDS {
            let place = end.alone(measured, edges);
            all.extend(place.map(|place| Read::Alone(end, place)));
            let beyond =
                before.filter(|before| before.edges.is_some_and(|other| end.beyond(other, edges)));
            all.extend(beyond.map(|before| Read::Beyond(end, before.refusal)));
        }
        for read in all {
            self.count(Thing::Read(read));
        }
    }
}
