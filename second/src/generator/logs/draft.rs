//! A good log in the making, and what is asked of it.

use super::{arguments, asked, series};
use crate::log::Reading;
use crate::programs::Input;
use crate::random::Random;

pub struct Draft {
    /// What is asked.
    pub line: u8,
    pub id: u8,
    pub lines: Vec<u8>,
    pub readings: Vec<Reading>,
}

impl Draft {
    /// Any id, any lines and the one asked for among them, nothing read yet.
    pub fn any(random: &mut Random) -> Draft {
        let id = asked::any(random);
        Draft::of(random, id)
    }

    pub fn of(random: &mut Random, id: u8) -> Draft {
        let line = random.between(1, 4) as u8;
        let lines = (1..=4).filter(|other| *other == line || random.percent(50));
        Draft {
            line,
            id,
            lines: lines.collect(),
            readings: Vec::new(),
        }
    }

    /// The reading asked for with this value, its tick still to come.
    pub fn say(&mut self, value: u16) {
        let (line, id) = (self.line, self.id);
        self.push(line, id, value);
    }

    pub fn push(&mut self, line: u8, id: u8, value: u16) {
        let tick = 0;
        self.readings.push(Reading {
            tick,
            line,
            id,
            value,
        });
    }

    /// All these values, and readings of others before and behind them, so often in a hundred.
    pub fn say_among_others(&mut self, random: &mut Random, values: &[u16], often: u64) {
        for value in values {
            while random.percent(often) {
                self.other(random, *value);
            }
            self.say(*value);
        }
        while random.percent(often) {
            self.other(random, 0);
        }
    }

    /// A reading of another id or line, often with the same value, so that it would lengthen a run.
    pub fn other(&mut self, random: &mut Random, near: u16) {
        let others = self.other_lines();
        let another_id = self.id ^ random.between(1, 255) as u8;
        let value = series::value(random);
        let value = random.pick(&[near, near, value]);
        if others.is_empty() || random.percent(50) {
            self.push(self.line, another_id, value);
        } else {
            let id = random.pick(&[self.id, self.id, another_id]);
            self.push(random.pick(&others), id, value);
        }
    }

    /// Those listed beside the one asked for.
    pub fn other_lines(&self) -> Vec<u8> {
        let others = self.lines.iter().filter(|line| **line != self.line);
        others.copied().collect()
    }

    pub fn is_asked(&self, place: usize) -> bool {
        let reading = self.readings[place];
        (reading.line, reading.id) == (self.line, self.id)
    }

    /// The ticks in their order, one for each reading.
    pub fn at(mut self, ticks: Vec<u32>) -> Draft {
        for (reading, tick) in self.readings.iter_mut().zip(ticks) {
            reading.tick = tick;
        }
        self
    }

    /// With ticks of any kind.
    pub fn at_any(self, random: &mut Random) -> Draft {
        let ticks = series::ticks(random, self.readings.len());
        self.at(ticks)
    }

    pub fn log(&self) -> Vec<u8> {
        let mut log = vec![self.lines.len() as u8];
        log.extend(&self.lines);
        log.extend((self.readings.len() as u16).to_be_bytes());
        for reading in &self.readings {
            log.extend(reading.tick.to_be_bytes());
            log.extend([reading.line, reading.id]);
            log.extend(reading.value.to_be_bytes());
        }
        log
    }

    /// The same question of another log.
    pub fn asking(&self, random: &mut Random, log: Vec<u8>) -> Input {
        let line = arguments::spelled(random, self.line);
        let id = arguments::spelled(random, self.id);
        Input::with(&[&line, &id], log)
    }

    pub fn input(&self, random: &mut Random) -> Input {
        self.asking(random, self.log())
    }
}
