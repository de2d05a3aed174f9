//! Samples for the reader: written frames, frames with moved, extra and missing edges, samples
//! that are no level, noise.

mod distances;

use crate::random::Random;
use crate::samples;
use distances::Distances;

/// What is wrong with a frame, if anything.
#[derive(Clone, Copy, PartialEq, Eq)]
enum Fault {
    None,
    StartEdge,
    MiddleEdge,
    OtherEdge,
    ExtraEdge,
    MissingEdge,
    StopRises,
    NoLevel,
    NoLevelAtTheEnd,
}

const FAULTS: [Fault; 8] = [
    Fault::StartEdge,
    Fault::MiddleEdge,
    Fault::OtherEdge,
    Fault::ExtraEdge,
    Fault::MissingEdge,
    Fault::StopRises,
    Fault::NoLevel,
    Fault::NoLevelAtTheEnd,
];

pub fn samples(random: &mut Random, count: usize) -> Vec<u8> {
    let (mut all, mut distances) = (Vec::new(), Distances::default());
    while all.len() < count {
        gap(random, &mut all);
        match random.below(20) {
            0 | 1 => all.extend(samples::write(random.word())),
            2..=9 => moved_frame(random, Fault::None, &mut distances, &mut all),
            10..=18 => {
                let fault = random.pick(&FAULTS);
                moved_frame(random, fault, &mut distances, &mut all);
            }
            _ => noise(random, &mut all),
        }
    }
    all.truncate(count);
    all
}

/// The pause before a frame: long enough, just long enough after a written frame, or too short.
fn gap(random: &mut Random, all: &mut Vec<u8>) {
    let length = match random.below(20) {
        0..=11 => random.between(24, 40),
        12..=14 => 15,
        15..=16 => 14,
        17 => random.pick(&[0, 1, 16, 23]),
        _ => random.between(0, 60),
    };
    let from = all.len();
    all.extend(vec![0; length as usize]);
    if length > 0 && random.percent(4) {
        let place = from + random.below(length) as usize;
        all[place] = random.pick(&[1, 1, 2, 255, 128]);
    }
}

/// The frame as a list of lengths, level after level from active on, put out as samples.
fn moved_frame(random: &mut Random, fault: Fault, dealt: &mut Distances, all: &mut Vec<u8>) {
    let mut bits: Vec<u8> = (0..32).map(|_| random.pick(&[0, 1])).collect();
    bits.insert(0, 1);
    bits.push(u8::from(fault != Fault::StopRises));
    let at = match fault {
        Fault::StopRises => 33,
        _ => random.pick(&[1, 2, 3, 17, 32, 33, 33]),
    };
    // Loose frames move each edge anywhere within its bounds, tight ones keep to the ends; but good
    // ones have middle edges that tell where the smallest and the largest distance stand.
    let tight = random.percent(50);
    let distances = match fault {
        Fault::None => dealt.draw(random),
        _ => distances::wide(random, tight),
    };
    let from = all.len();
    start_bit(random, tight, fault, at, all);
    // Behind a fault most of the frame is left out, so that more faults fit into a run.
    let cut_short = random.percent(80) && fault != Fault::None && fault != Fault::NoLevel;
    let end = if cut_short { at + 1 } else { bits.len() };
    for place in 1..end {
        let fault_here = if place == at { fault } else { Fault::None };
        let neighbours = [bits[place - 1], bits[place]];
        let distance = distances[place - 1];
        bit(random, neighbours, distance, tight, fault_here, all);
    }
    // Behind the last middle edge the level stays for half a bit and then rests.
    let level = 1 - bits[end - 1];
    all.extend(vec![level; random.between(1, 10) as usize]);
    if fault == Fault::NoLevel {
        let place = from + random.below((all.len() - from) as u64) as usize;
        all[place] = random.pick(&[2, 3, 127, 128, 254, 255]);
    }
}

/// The samples from the first active one up to the start bit's middle edge.
fn start_bit(random: &mut Random, tight: bool, fault: Fault, at: usize, all: &mut Vec<u8>) {
    let distance = match fault {
        Fault::StartEdge => random.pick(&[1, 2, 6, 7, 15, 16, 20]),
        Fault::NoLevelAtTheEnd if at % 4 == 0 => 15,
        _ => inside(random, tight, 8, 14),
    };
    all.extend(vec![1; distance]);
    if fault == Fault::NoLevelAtTheEnd && at % 4 == 0 {
        all.push(random.pick(&[2, 255]));
    }
}

/// The samples from one middle edge up to the next: one level, or two with an edge between where
/// the bits are equal.
fn bit(
    random: &mut Random,
    [before, now]: [u8; 2],
    mut distance: usize,
    tight: bool,
    fault: Fault,
    all: &mut Vec<u8>,
) {
    let level = 1 - before;
    let mut other = inside(random, tight, 8, 14);
    match fault {
        Fault::MiddleEdge => distance = random.pick(&[15, 16, 17, 24, 25, 30]),
        Fault::OtherEdge => other = random.pick(&[1, 6, 7, 15, 16, 17]),
        Fault::NoLevelAtTheEnd => distance = random.pick(&[24, 24, 18, 23]),
        _ => {}
    }
    let mut piece = vec![level; distance];
    if before == now && fault != Fault::MissingEdge {
        let from = other.min(distance);
        piece[from..].fill(1 - level);
    }
    if fault == Fault::ExtraEdge {
        let place = random.below(distance as u64) as usize;
        let length = random.pick(&[1, 1, 2, 3, 5]);
        for sample in piece.iter_mut().skip(place).take(length) {
            *sample = 1 - *sample;
        }
    }
    if fault == Fault::NoLevelAtTheEnd {
        // Behind the window the answer 4 must come before the answer 2 of the same sample.
        piece.push(random.pick(&[2, 255]));
    }
    all.extend(piece);
}

fn inside(random: &mut Random, tight: bool, least: u64, most: u64) -> usize {
    let distance = if tight {
        random.pick(&[least, most])
    } else {
        random.between(least, most)
    };
    distance as usize
}

fn noise(random: &mut Random, all: &mut Vec<u8>) {
    let (runs, longest) = (random.between(1, 60), random.pick(&[2, 12, 30]));
    for _ in 0..runs {
        let level = match random.below(60) {
            0 => random.byte(),
            draw => (draw % 2) as u8,
        };
        all.extend(vec![level; random.between(1, longest) as usize]);
    }
}
