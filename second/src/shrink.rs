//! Makes an input on which the two programs differ shorter, while they still differ.

mod around;
mod pieces;

use std::ops::Range;
use std::time::{Duration, Instant};

use crate::programs::{Input, Name};
use around::Around;
use pieces::{begins_a_box, split, straight_run, tick_line, ticks, without_numbers, Piece};
use pieces::{earlier, with_tick_0, with_value_0};

/// So many boxes at the end may be needed to show a difference between two of them.
const LAST_BOXES: usize = 3;
/// Each try runs the product once, so there is an end to it.
const MOST_TRIES: u32 = 200;
const LONGEST_SHRINKING: Duration = Duration::from_secs(300);
/// What is kept back from dropping pieces for making those left smaller.
const TRIES_FOR_NUMBERS: u32 = 80;
/// The same for leaving out what follows a frame's word.
const TRIES_FOR_FRAMES: u32 = 20;

struct Shrinker<'a> {
    around: Around,
    pieces: Vec<Piece>,
    tries: u32,
    started: Instant,
    differs: &'a mut dyn FnMut(&Input) -> bool,
}

pub fn shrink(name: Name, input: &Input, differs: &mut dyn FnMut(&Input) -> bool) -> Input {
    let (around, pieces) = split(name, input);
    let mut shrinker = Shrinker {
        around,
        pieces,
        tries: MOST_TRIES,
        started: Instant::now(),
        differs,
    };
    if name == Name::Still {
        shrinker.try_pieces(Vec::new());
    }
    shrinker.cut_the_end();
    shrinker.cut_the_boxes_before();
    shrinker.cut_the_beginning();
    shrinker.drop_blocks(TRIES_FOR_NUMBERS);
    match name {
        Name::Replay => shrinker.smaller_ticks(),
        Name::Decode => {
            shrinker.plainer(0..shrinker.pieces.len(), straight_run);
            shrinker.shorter_runs();
        }
        Name::Still => shrinker.plainer_log(),
        _ => {}
    }
    // What was shortened may show a difference earlier than what it was made from.
    shrinker.cut_the_end();
    shrinker.drop_blocks(TRIES_FOR_FRAMES);
    if name == Name::Replay {
        shrinker.plainer(0..shrinker.pieces.len(), without_numbers);
    }
    shrinker.around.join(&shrinker.pieces)
}

impl Shrinker<'_> {
    /// Takes the pieces over if the programs differ on them.
    fn try_pieces(&mut self, pieces: Vec<Piece>) -> bool {
        self.try_both(self.around.clone(), pieces)
    }

    fn try_both(&mut self, around: Around, pieces: Vec<Piece>) -> bool {
        if self.started.elapsed() > LONGEST_SHRINKING {
            self.tries = 0;
        }
        if self.tries == 0 {
            return false;
        }
        self.tries -= 1;
        let differs = (self.differs)(&around.join(&pieces));
        if differs {
            (self.around, self.pieces) = (around, pieces);
        }
        differs
    }

    /// Both programs answer as they read, so a beginning that shows the difference shows it in
    /// every longer one too: halving finds the shortest. (A log is answered as a whole, and there
    /// halving may find none; what is taken over differs all the same.)
    fn cut_the_end(&mut self) {
        let (mut equal, mut differing) = (0, self.pieces.len());
        while differing - equal > 1 && self.tries > 0 {
            let middle = (equal + differing) / 2;
            if self.try_pieces(self.pieces[..middle].to_vec()) {
                differing = middle;
            } else {
                equal = middle;
            }
        }
    }

    /// A new box knows nothing of those before it, so most differences show in the last one, and keep
    /// its form there.
    fn cut_the_boxes_before(&mut self) {
        let begins = |place: &usize| begins_a_box(&self.pieces[*place]);
        let boxes: Vec<usize> = (0..self.pieces.len()).filter(begins).collect();
        for from in boxes.into_iter().rev().take(LAST_BOXES) {
            if self.try_pieces(self.pieces[from..].to_vec()) {
                return;
            }
        }
    }

    /// Most differences need only what came shortly before them.
    fn cut_the_beginning(&mut self) {
        let mut kept = 1;
        while kept < self.pieces.len() {
            let from = self.pieces.len() - kept;
            if self.try_pieces(self.pieces[from..].to_vec()) {
                return;
            }
            kept *= 2;
        }
    }

    /// Drops block after block, halving the block when none can be dropped any more.
    fn drop_blocks(&mut self, tries_kept: u32) {
        let mut block = self.pieces.len().div_ceil(2);
        while block > 0 && self.tries > tries_kept {
            let before = self.pieces.len();
            let mut from = 0;
            while from < self.pieces.len() && self.tries > tries_kept {
                let end = (from + block).min(self.pieces.len());
                let rest = [&self.pieces[..from], &self.pieces[end..]].concat();
                if rest.is_empty() || !self.try_pieces(rest) {
                    from = end;
                }
            }
            if block > 1 || self.pieces.len() == before {
                block /= 2;
            }
        }
    }

    /// Makes pieces plainer, all at once, or else in each half of them by itself.
    fn plainer(&mut self, range: Range<usize>, plain: fn(&[u8]) -> Option<Piece>) {
        if self.tries == 0 {
            return;
        }
        let mut pieces = self.pieces.clone();
        for piece in &mut pieces[range.clone()] {
            *piece = plain(piece).unwrap_or_else(|| piece.clone());
        }
        if pieces == self.pieces || self.try_pieces(pieces) || range.len() == 1 {
            return;
        }
        let middle = (range.start + range.end) / 2;
        self.plainer(range.start..middle, plain);
        self.plainer(middle..range.end, plain);
    }

    /// Readings without their ticks, or with earlier ones, then without their values; fewer lines.
    fn plainer_log(&mut self) {
        self.plainer(0..self.pieces.len(), with_tick_0);
        for _ in 0..3 {
            self.plainer(0..self.pieces.len(), earlier);
        }
        self.plainer(0..self.pieces.len(), with_value_0);
        loop {
            let mut candidates = self.around.plainer().into_iter();
            if !candidates.any(|around| self.try_both(around, self.pieces.clone())) {
                return;
            }
        }
    }

    /// One tick line in place of two that follow each other, then smaller numbers.
    fn smaller_ticks(&mut self) {
        let mut place = 0;
        while place + 1 < self.pieces.len() {
            let both = (ticks(&self.pieces[place]), ticks(&self.pieces[place + 1]));
            let mut pieces = self.pieces.clone();
            let joined = match both {
                (Some(first), Some(second)) => {
                    pieces[place] = tick_line(first + second);
                    pieces.remove(place + 1);
                    self.try_pieces(pieces)
                }
                _ => false,
            };
            if !joined {
                place += 1;
            }
        }
        for place in 0..self.pieces.len() {
            self.smaller_tick(place);
        }
    }

    /// Halves the distance to the smallest number that still shows the difference.
    fn smaller_tick(&mut self, place: usize) {
        let Some(mut differing) = ticks(&self.pieces[place]) else {
            return;
        };
        let mut equal = 0;
        while differing - equal > 1 && self.tries > 0 {
            let middle = if equal == 0 {
                1
            } else {
                (equal + differing) / 2
            };
            let mut pieces = self.pieces.clone();
            pieces[place] = tick_line(middle);
            if self.try_pieces(pieces) {
                differing = middle;
            } else {
                equal = middle;
            }
        }
    }

    /// A run of the length a written frame or the needed pause has, where that will do.
    fn shorter_runs(&mut self) {
        for place in 0..self.pieces.len() {
            for length in [1, 10, 20, 24] {
                if length < self.pieces[place].len() {
                    let mut pieces = self.pieces.clone();
                    pieces[place].truncate(length);
                    if self.try_pieces(pieces) {
                        break;
                    }
                }
            }
        }
    }
}
