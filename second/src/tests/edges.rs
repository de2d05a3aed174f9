//! 02's Ask 3, the reader: "Each frame the reader gives shall come with the smallest and largest
//! distance between neighbouring middle edges"; they "equal those of the samples read".

use crate::frame::{Edges, Frame};
use crate::generator;
use crate::programs::{self, Name};
use crate::samples::{Heard, Reader};
use crate::tally::{Read, Tally, Thing};

/// Half a bit before an edge between two equal bits.
const OTHER: usize = 11;

/// A frame bit by bit: its start bit's first half, then from middle edge to middle edge.
fn samples(word: u32, first_half: usize, distances: [usize; 33]) -> Vec<u8> {
    let bits: Vec<u8> = format!("1{word:032b}1")
        .bytes()
        .map(|bit| bit - b'0')
        .collect();
    let mut samples = [vec![0; 24], vec![1; first_half]].concat();
    for (place, distance) in distances.into_iter().enumerate() {
        let (before, now) = (bits[place], bits[place + 1]);
        // Behind a middle edge stands the second half of its bit, before the next the first half.
        samples.extend(vec![1 - before; OTHER]);
        samples.extend(vec![now; distance - OTHER]);
    }
    samples.push(0);
    samples
}

fn read(samples: &[u8]) -> Vec<Heard> {
    let mut reader = Reader::fresh();
    samples.iter().filter_map(|one| reader.read(*one)).collect()
}

fn frame(word: u32, smallest: u8, largest: u8) -> Heard {
    let edges = Edges { smallest, largest };
    Heard::Frame(Frame { word, edges })
}

/// "The two lie between 18 and 23."
fn pairs() -> impl Iterator<Item = (u8, u8)> {
    (18..=23).flat_map(|smallest| (smallest..=23).map(move |largest| (smallest, largest)))
}

const WORDS: [u32; 6] = [
    0,
    0xFFFF_FFFF,
    0x5555_5555,
    0xAAAA_AAAA,
    0x8019_0000,
    0x4019_3280,
];

#[test]
fn one_distance_counts_at_each_of_the_33_places() {
    for word in WORDS {
        for place in 0..33 {
            let with = |one: usize| {
                let mut distances = [20; 33];
                distances[place] = one;
                read(&samples(word, 10, distances))
            };
            assert_eq!(with(18), [frame(word, 18, 20)]);
            assert_eq!(with(19), [frame(word, 19, 20)]);
            assert_eq!(with(20), [frame(word, 20, 20)]);
            assert_eq!(with(21), [frame(word, 20, 21)]);
            assert_eq!(with(23), [frame(word, 20, 23)]);
        }
    }
}

#[test]
fn each_pair_from_18_to_23_wherever_the_two_stand() {
    for (smallest, largest) in pairs() {
        for (first, second) in [(0, 32), (32, 0), (0, 1), (31, 32), (15, 16)] {
            let mut distances = [smallest.into(); 33];
            distances[first] = largest.into();
            let mut turned = [largest.into(); 33];
            turned[second] = smallest.into();
            let expected = [frame(0x8019_0000, smallest, largest)];
            assert_eq!(read(&samples(0x8019_0000, 8, distances)), expected);
            assert_eq!(read(&samples(0x8019_0000, 14, turned)), expected);
        }
    }
}

/// "The first half of the start bit isn't one."
#[test]
fn the_first_half_of_the_start_bit_does_not_count() {
    for first_half in 8..=14 {
        for distance in 18..=23 {
            let expected = [frame(1, distance as u8, distance as u8)];
            assert_eq!(read(&samples(1, first_half, [distance; 33])), expected);
        }
    }
}

#[test]
fn what_was_read_before_leaves_nothing_behind() {
    let mut distances = [20; 33];
    (distances[3], distances[7]) = (18, 23);
    let wide = samples(0xFFFF_FFFF, 9, distances);
    let narrow = samples(0xFFFF_FFFF, 9, [21; 33]);
    // Whole, and broken off at each sample behind the second of the two: what follows are idle
    // samples until there is an answer, or one that is no level.
    let behind = 24 + 9 + 20 * 6 + 18 + 23;
    for end in behind..=wide.len() {
        for rest in [vec![0; 25], vec![2]] {
            let heard = read(&[&wide[..end], &rest, &narrow].concat());
            assert_eq!(heard.last(), Some(&frame(0xFFFF_FFFF, 21, 21)));
            assert!(heard.len() >= 2, "broken off at {end}");
        }
    }
}

/// The tally measures the samples another way, and finds the numbers of every frame.
#[test]
fn the_numbers_are_those_measured_on_the_samples() {
    let input = generator::generate(Name::Decode, 3, 300_000);
    let output = programs::run(Name::Decode, &input);
    let mut tally = Tally::default();
    tally.answers(&output);
    tally.edges_read(&input.bytes, &output);
    let mut measured = 0;
    for (smallest, largest) in pairs() {
        measured += tally.of(Thing::Read(Read::Edges(Edges { smallest, largest })));
    }
    assert!(measured > 100);
    assert_eq!(measured, tally.of(Thing::FrameRead));
}
