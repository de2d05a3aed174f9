//! Logs and what is asked of them (02, Ask 6), one at a time: good ones, ones that break one rule, lines
//! that aren't there, wrong arguments. The seed deals the shapes like cards, so that each has its turn.

mod arguments;
mod asked;
mod broken;
mod draft;
mod full;
mod good;
mod series;

use crate::log;
use crate::programs::Input;
use crate::random::{self, Random};

pub use arguments::{STRANGE_LINES, WRONG};

/// Each starts both programs once, which takes the product some tens of milliseconds.
const LOGS_A_ROUND: u64 = 24;
/// Readings of most logs, at the most.
const MODEST: usize = 200;
/// What every shape can do with.
const SMALLEST: usize = 10;

#[derive(Clone, Copy)]
enum Shape {
    Good(good::Shape),
    Broken(broken::Shape),
    /// The bits say which of the lines are listed.
    Listed(u8),
    /// The place of a LINE, and of arguments.
    StrangeLine(usize),
    WrongArguments(usize),
}

/// Good and broken logs twice as often as the rest.
fn modest_shapes() -> Vec<Shape> {
    let good = good::SHAPES.map(Shape::Good);
    let broken = broken::SHAPES.map(Shape::Broken);
    let mut all = [&good[..], &broken].concat();
    all.extend((1..=15).map(Shape::Listed));
    all.extend((0..STRANGE_LINES.len()).map(Shape::StrangeLine));
    all.extend((0..WRONG.len()).map(Shape::WrongArguments));
    [all, good.to_vec(), broken.to_vec()].concat()
}

/// A size of 65,535 readings stands for the shapes that need them.
fn shapes(size: usize) -> Vec<Shape> {
    match size < log::MOST_READINGS {
        true => modest_shapes(),
        false => {
            let good = full::GOOD.map(Shape::Good);
            let broken = full::BROKEN.map(Shape::Broken);
            [&good[..], &broken].concat()
        }
    }
}

/// The seeds and sizes of a round's logs: the modest ones go on where the round before ended, the full
/// ones all stand in the first.
pub fn of_round(seed: u64, round: u64) -> Vec<(u64, usize)> {
    let mut all: Vec<(u64, usize)> = (0..LOGS_A_ROUND)
        .map(|place| dealt(seed, (round - 1) * LOGS_A_ROUND + place, MODEST))
        .collect();
    if round == 1 {
        let full = shapes(log::MOST_READINGS).len() as u64;
        all.extend((0..full).map(|place| dealt(seed, place, log::MOST_READINGS)));
    }
    all
}

/// A seed that gives the shape whose turn it is.
fn dealt(seed: u64, turn: u64, size: usize) -> (u64, usize) {
    let shapes = shapes(size).len() as u64;
    let any = random::derive(seed, turn, size as u64);
    (any - any % shapes + turn % shapes, size)
}

/// `size` readings at the most, or twice as many with those of others between them.
pub fn input(seed: u64, size: usize) -> Input {
    let size = size.clamp(SMALLEST, log::MOST_READINGS);
    let shapes = shapes(size);
    let shape = shapes[(seed % shapes.len() as u64) as usize];
    let random = &mut Random::new(seed);
    match shape {
        Shape::Good(good) => good(random, size).input(random),
        Shape::Broken(broken) => broken(random, size),
        Shape::Listed(lines) => good::listed(random, lines).input(random),
        Shape::StrangeLine(place) => arguments::strange_line(random, place, size),
        Shape::WrongArguments(place) => arguments::wrong(random, place, size),
    }
}
