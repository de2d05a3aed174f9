//! Scripts for replay. The box itself is the model: it says what was asked and how old a talk is,
//! so that frames can be aimed at the ages where an answer changes.

mod frames;
mod fresh;
mod orders;
mod status;
mod time;

use std::io;

use super::{fresh_lines, messages, numbers, strange_lines};
use crate::digits::pairs;
use crate::modbus::Wrapping;
use crate::programs::replay::Replay;
use crate::random::Random;

/// The other side may run under an emulator, so time is spent sparingly.
const TICKS_PER_LINE: u64 = 20;
const TICKS_AHEAD: u64 = 1000;
const LONGEST_WAITS: u32 = 5;

/// How an order or a thermostat's talk is meant to end.
#[derive(Clone, Copy, PartialEq, Eq)]
enum End {
    Acknowledged,
    Invalid,
    Unknown,
    Silent,
}

const ENDS: [End; 4] = [End::Acknowledged, End::Invalid, End::Unknown, End::Silent];

/// The row of an order and its end.
#[derive(Clone, Copy)]
struct Plan {
    row: usize,
    end: End,
}

struct Script {
    random: Random,
    model: Replay,
    text: Vec<u8>,
    lines: usize,
    size: usize,
    /// Plans still to come, dealt like cards so that each row meets each end.
    deck: Vec<Plan>,
    /// Lines with wrong numbers or a wrong `fresh` still to come, dealt so that each form is tried.
    wrong_lines: Vec<Vec<u8>>,
    plan: Option<Plan>,
    longest_waits: u32,
    /// How often each line's thermostat speaks, drawn anew from time to time.
    chatty: [u64; 4],
    /// How often a new box comes, drawn anew too: some have to last, since much shows late.
    fresh_often: u64,
    /// For each line and status id the script's line from which on a status may go out.
    status_from: [[usize; 2]; 4],
    /// Those that have been asked for since their first status went out.
    first_asked: [[bool; 2]; 4],
}

pub fn script(mut random: Random, size: usize) -> Vec<u8> {
    let status_from = status::times(&mut random, size);
    let mut script = Script {
        random,
        model: Replay::fresh(),
        text: Vec::new(),
        lines: 0,
        size,
        deck: Vec::new(),
        wrong_lines: Vec::new(),
        plan: None,
        longest_waits: 0,
        chatty: [1; 4],
        fresh_often: 0,
        status_from,
        first_asked: [[false; 2]; 4],
    };
    if script.random.percent(30) {
        script.new_box();
    }
    if script.random.percent(50) {
        script.longest_wait();
    }
    while script.lines < size {
        script.step();
    }
    if script.random.percent(50) {
        script.text.pop(); // a last line without LF
    }
    script.text
}

impl Script {
    fn step(&mut self) {
        if self.random.percent(1) {
            for chatty in &mut self.chatty {
                *chatty = self.random.pick(&[0, 1, 5, 20]);
            }
            self.fresh_often = self.random.pick(&[0, 0, 0, 50]);
        }
        self.first_status();
        match self.random.below(100) {
            0..=11 => self.thermostat(),
            12..=24 => self.boiler(),
            25..=34 => self.order(),
            35..=44 => self.odd_message(),
            45..=47 => {
                let form = self.form();
                let message = messages::own_request(&mut self.random, form);
                self.modbus(&message);
            }
            48..=50 => self.no_line(),
            51..=52 => {
                let line = strange_lines::comment(&mut self.random);
                self.say(&line);
            }
            53..=54 => self.short_room(),
            55 => self.held_status(),
            56..=58 => self.status_order(),
            59 if self.random.percent(self.fresh_often) => self.fresh(),
            _ => self.advance(),
        }
    }

    /// Writes a line and tells the model of it.
    fn say(&mut self, line: &[u8]) {
        if self.lines == self.size {
            return;
        }
        self.lines += 1;
        self.text.extend(line);
        self.text.push(b'\n');
        let order_waited = self.model.gateway.order.is_some();
        self.model
            .line(line, &mut io::sink())
            .expect("a sink takes every byte");
        if order_waited && self.model.gateway.order.is_none() {
            self.plan = None;
        }
    }

    fn tick(&mut self, count: u64) {
        let zeros = self.random.pick(&["", "", "", "", "0", "000000000000"]);
        self.say(format!("tick {zeros}{count}").as_bytes());
    }

    fn frame(&mut self, source: &str, line: u64, frame: u32) {
        let numbers = numbers::good(&mut self.random);
        if self.random.percent(20) {
            self.say(format!("{source} {line} {frame:08x}{numbers}").as_bytes());
        } else {
            self.say(format!("{source} {line} {frame:08X}{numbers}").as_bytes());
        }
    }

    /// The form of the box as it is now.
    fn form(&self) -> Wrapping {
        self.model.gateway.wrapping
    }

    /// A line that is none, often for its numbers alone, or a `fresh` that is wrong.
    fn no_line(&mut self) {
        if self.wrong_lines.is_empty() {
            self.wrong_lines = numbers::wrong_lines();
            self.wrong_lines.extend(fresh_lines::wrong_lines());
            self.random.shuffle(&mut self.wrong_lines);
        }
        let line = match self.random.percent(45) {
            true => self.wrong_lines.pop().expect("just filled"),
            false => strange_lines::no_line(&mut self.random),
        };
        self.say(&line);
    }

    fn modbus(&mut self, message: &[u8]) {
        let line = match message {
            [] => "modbus".to_string(),
            _ if self.random.percent(20) => format!("modbus {}", pairs(message).to_lowercase()),
            _ => format!("modbus {}", pairs(message)),
        };
        self.say(line.as_bytes());
    }

    /// The order that waits, if one does, is meant to get no answer.
    fn planned_silence(&self) -> bool {
        self.plan.is_some_and(|plan| plan.end == End::Silent)
    }

    /// An id that often is one already asked for.
    fn id(&mut self) -> u8 {
        let asked = self
            .model
            .gateway
            .order
            .map_or(25, |order| order.question.id());
        let other = self.random.byte();
        self.random
            .pick(&[0, 1, 25, asked, asked, other, other, other])
    }
}
