//! Edges at the borders of their windows, and written frames read.

use crate::frame::{Edges, Frame};
use crate::samples::{self, Heard, Reader};

/// Reads the samples and gives the answers with their places.
fn read(runs: &[(u8, usize)]) -> Vec<(usize, Heard)> {
    let mut reader = Reader::fresh();
    let samples = runs.iter().flat_map(|(level, count)| vec![*level; *count]);
    samples
        .enumerate()
        .filter_map(|(place, sample)| Some((place, reader.read(sample)?)))
        .collect()
}

#[test]
fn p11_and_the_run_numbers_of_edges() {
    let after_start = |distance| read(&[(0, 24), (1, 10), (0, distance), (1, 25)])[0];
    assert_eq!(after_start(17), (51, Heard::Refused(1)));
    assert_eq!(after_start(18), (76, Heard::Refused(2)));
    assert_eq!(after_start(23), (81, Heard::Refused(2)));
    assert_eq!(after_start(24), (58, Heard::Refused(2)));
    let start = |distance| read(&[(0, 24), (1, distance), (0, 25)])[0];
    assert_eq!(start(14), (62, Heard::Refused(2)));
    assert_eq!(start(15), (39, Heard::Refused(2)));
}

/// "A bit lasts 20 samples when written", so each of its distances is 20.
#[test]
fn written_frames_are_read() {
    let edges = Edges {
        smallest: 20,
        largest: 20,
    };
    for word in [0, 1, 0x8019_0000, 0x5555_5555, 0xAAAA_AAAA, 0xFFFF_FFFF] {
        let mut reader = Reader::fresh();
        let mut all = vec![0; 24];
        all.extend(samples::write(word));
        let heard: Vec<Heard> = all
            .iter()
            .filter_map(|sample| reader.read(*sample))
            .collect();
        assert_eq!(heard, [Heard::Frame(Frame { word, edges })]);
    }
}
