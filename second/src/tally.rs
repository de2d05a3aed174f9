//! How often each thing occurred, so that a comparison that never tried something says so.

mod carried;
mod echo;
mod entry;
mod fresh;
mod grounds;
mod history;
mod modbus;
mod read;
mod spare;
mod status;
mod still;
mod table;
mod wrapped;

use std::collections::{BTreeMap, BTreeSet};

use crate::digits;
use crate::gateway::{Event, Side};
use crate::modbus::Wrapping;
use crate::programs::command::{Came, Command};
use carried::{Carried, Memory};
use echo::Echo;
use fresh::Fresh;
use history::History;
use modbus::Modbus;
use wrapped::Wrapped;

pub use read::Read;
pub use spare::Spare;
pub use status::Status;
pub use still::Still;

/// The kinds as the listing prints them.
const KINDS: [&str; 6] = ["real", "s16", "u16", "pair", "spair", "raw"];

/// What is counted.
#[derive(Clone, Copy, PartialEq, Eq, PartialOrd, Ord, Debug)]
pub enum Thing {
    ScriptLine,
    NoLine,
    Tick,
    SampleRead,
    FrameRead,
    SampleWritten,
    LineListed,
    OddListed,
    ShortListed,
    KindListed(&'static str),
    Float,
    RawNumber,
    Sent,
    Held,
    Passed,
    Dropped,
    Refusal(u8),
    Modbus(Wrapping, Modbus),
    Spare(Spare),
    Status(Status),
    Read(Read),
    Carried(Carried),
    Wrapped(Wrapped),
    Echo(Echo),
    Fresh(Fresh),
    Still(Still),
}

#[derive(Default)]
pub struct Tally {
    counts: BTreeMap<Thing, u64>,
    /// The shortest and the longest wait.
    waits: Option<(u32, u32)>,
    /// The lines whose talk would have been answered, had there been no spare bits.
    spoilt: BTreeSet<u8>,
    /// The thermostats' status so far.
    history: History,
    /// The frames so far and their numbers.
    memory: Memory,
    /// The transactions so far.
    echo: echo::Memory,
    /// The box as it is and the one before.
    boxes: fresh::Memory,
}

impl Tally {
    pub fn of(&self, thing: Thing) -> u64 {
        self.counts.get(&thing).copied().unwrap_or(0)
    }

    pub fn count(&mut self, thing: Thing) {
        self.count_many(thing, 1);
    }

    pub fn count_many(&mut self, thing: Thing, many: usize) {
        *self.counts.entry(thing).or_insert(0) += many as u64;
    }

    fn wait(&mut self, least: u32, most: u32) {
        let (a, b) = self.waits.unwrap_or((least, most));
        self.waits = Some((a.min(least), b.max(most)));
    }

    pub fn add(&mut self, other: &Tally) {
        for (thing, many) in &other.counts {
            *self.counts.entry(*thing).or_insert(0) += many;
        }
        if let Some((least, most)) = other.waits {
            self.wait(least, most);
        }
    }

    pub fn event(&mut self, event: &Event) {
        self.end_of_talk(event);
        self.status_event(event);
        self.carried_event(event);
        self.modbus_event(event);
        self.echo_event(event);
        self.fresh_event(event);
        match event {
            Event::Sent { .. } => self.count(Thing::Sent),
            Event::Passed { .. } => self.count(Thing::Passed),
            Event::Dropped { .. } => self.count(Thing::Dropped),
            Event::Held { .. } => self.count(Thing::Held),
            Event::Refused(number) => self.count(Thing::Refusal(*number)),
            Event::Outcome { wait, .. } => self.wait(*wait, *wait),
            Event::Accepted { .. } | Event::Reply { .. } => {}
        }
    }

    /// A line of a script, and what it was read as.
    pub fn spelled(&mut self, line: &[u8], command: Option<&Command>) {
        self.numbers_spelled(line, command);
        self.fresh_spelled(line, command);
    }

    /// A tick that passed.
    pub fn tick(&mut self) {
        self.count(Thing::Tick);
        self.fresh_tick();
    }

    /// A frame that comes, and what it is given.
    pub fn came(&mut self, side: Side, line: u8, came: Came, given: &Event) {
        self.numbers_came(side, line, came, given);
        self.fresh_frame(side, line, came, given);
    }

    /// A message and what it was given.
    pub fn message(&mut self, message: &[u8], given: &Event) {
        self.asked(message, given);
        self.refused_message(given);
        self.wrapped_message(message, given);
        self.echo_message(message, given);
    }

    /// A new box: what the one before brought is no ground for anything.
    pub fn fresh(&mut self, form: Wrapping) {
        self.fresh_box(form);
        self.spoilt.clear();
        self.history = History::default();
        self.memory = Memory::default();
        self.echo = echo::Memory::default();
    }

    /// Counts what the decode and real programs print.
    pub fn answers(&mut self, output: &[u8]) {
        for line in String::from_utf8_lossy(output).lines() {
            let fields: Vec<&str> = line.split(' ').collect();
            match fields[..] {
                [.., "refused", number] => {
                    let number = number.parse().expect("own output has a number here");
                    self.count(Thing::Refusal(number));
                }
                [_, "frame", word, ..] => {
                    let word = digits::bytes(word.as_bytes()).expect("own output has a word here");
                    self.count(Thing::FrameRead);
                    self.spare_words(Spare::Read, &word);
                }
                _ => self.count(Thing::RawNumber),
            }
        }
    }

    /// Counts what the listing prints.
    pub fn listing(&mut self, output: &[u8]) {
        for line in String::from_utf8_lossy(output).lines() {
            self.count(Thing::LineListed);
            self.count(match line.split(' ').nth(3) {
                Some(kind) => {
                    let known = KINDS.into_iter().find(|known| *known == kind);
                    Thing::KindListed(known.expect("own output has a known kind"))
                }
                None if line == "- parity" => Thing::OddListed,
                None => Thing::ShortListed,
            });
        }
    }
}
