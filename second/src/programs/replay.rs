//! The replay program: a script of events in, a trace out.

use std::io::{self, Write};

use super::command::{Came, Command};
use super::stream::Program;
use crate::digits::pairs;
use crate::frame::Frame;
use crate::gateway::{Event, Gateway, Side};
use crate::modbus::Wrapping;
use crate::tally::{Tally, Thing};
use crate::word;

const LONGEST_LINE: usize = 1024;
const ROOM_AT_START: usize = 256;

pub struct Replay {
    pub gateway: Gateway,
    pub room: usize,
    pub tally: Tally,
    time: u64,
    line: Vec<u8>,
}

impl Replay {
    /// "A script begins with a serial box."
    pub fn fresh() -> Replay {
        Replay {
            gateway: Gateway::fresh(Wrapping::Serial),
            room: ROOM_AT_START,
            tally: Tally::default(),
            time: 0,
            line: Vec::new(),
        }
    }

    /// One line of the script, its LF taken off.
    pub fn line(&mut self, line: &[u8], trace: &mut dyn Write) -> io::Result<()> {
        self.tally.count(Thing::ScriptLine);
        // "So does a line over 1,024 bytes, LF not counted, also one that begins with `#`."
        if line.len() > LONGEST_LINE {
            return self.not_a_line(trace);
        }
        // "An empty line or one that begins with `#` is skipped."
        if line.is_empty() || line[0] == b'#' {
            return Ok(());
        }
        let command = Command::of(line);
        self.tally.spelled(line, command.as_ref());
        match command {
            Some(command) => self.obey(command, trace),
            None => self.not_a_line(trace),
        }
    }

    /// "Anything else prints `- line` and nothing happens."
    fn not_a_line(&mut self, trace: &mut dyn Write) -> io::Result<()> {
        self.tally.count(Thing::NoLine);
        writeln!(trace, "- line")
    }

    fn obey(&mut self, command: Command, trace: &mut dyn Write) -> io::Result<()> {
        let event = match command {
            Command::Tick(count) => return self.ticks(count, trace),
            Command::Room(room) => {
                self.room = room;
                self.tally.room();
                return Ok(());
            }
            Command::Fresh(wrapping) => {
                self.new_box(wrapping);
                return Ok(());
            }
            Command::Frame(side, line, came) => self.frame(side, line, came),
            Command::Modbus(message) => self.message(&message),
        };
        self.print(&event, trace)
    }

    /// "Time starts again at 0, all lines fresh, no order waits, the room stays as it was set."
    fn new_box(&mut self, wrapping: Wrapping) {
        self.gateway = Gateway::fresh(wrapping);
        self.time = 0;
        self.tally.fresh(wrapping);
    }

    fn message(&mut self, message: &[u8]) -> Event {
        let given = self.gateway.message(message, self.room);
        self.tally.message(message, &given);
        given
    }

    /// Where a spare bit is set, the box as it was is asked what the frame would have brought
    /// without it; that alone shows what 16 stands before, and it is counted.
    fn frame(&mut self, side: Side, line: u8, came: Came) -> Event {
        let mut before = self.gateway.clone();
        let frame = came.frame();
        let given = self.gateway.frame(side, line, frame, self.room);
        if word::spare_of(frame.word) != 0 {
            let word = word::without_spare(frame.word);
            let otherwise = before.frame(side, line, Frame { word, ..frame }, self.room);
            self.tally.spare_frame(side, frame.word, &given, &otherwise);
        }
        self.tally.came(side, line, came, &given);
        given
    }

    /// "`tick N` prints exactly what N lines `tick 1` would"; "refused ticks don't count".
    fn ticks(&mut self, count: u64, trace: &mut dyn Write) -> io::Result<()> {
        for _ in 0..count {
            let events = self.gateway.tick(self.room);
            if !matches!(events[..], [Event::Refused(_)]) {
                self.time += 1;
                self.tally.tick();
            }
            for event in &events {
                self.print(event, trace)?;
            }
        }
        Ok(())
    }

    fn print(&mut self, event: &Event, trace: &mut dyn Write) -> io::Result<()> {
        self.tally.event(event);
        let time = self.time;
        match event {
            Event::Sent { line, frame, .. } => writeln!(trace, "{time} sent {line} {frame}"),
            Event::Passed { line, frame } => writeln!(trace, "{time} passed {line} {frame}"),
            Event::Dropped { line } => writeln!(trace, "{time} dropped {line}"),
            Event::Held { line, .. } => writeln!(trace, "{time} held {line}"),
            Event::Accepted { order } => writeln!(trace, "{time} accepted {}", order.unit),
            Event::Reply { bytes } => writeln!(trace, "{time} reply {}", pairs(bytes)),
            Event::Outcome { bytes, wait, .. } => {
                writeln!(trace, "{time} reply {} wait {wait}", pairs(bytes))
            }
            Event::Refused(number) => writeln!(trace, "{time} refused {number}"),
        }
    }
}

impl Program for Replay {
    fn feed(&mut self, input: &[u8], output: &mut dyn Write) -> io::Result<()> {
        let mut pieces = input.split(|byte| *byte == b'\n');
        let mut piece = pieces.next();
        while let Some(bytes) = piece {
            // A byte over the longest line says enough, so no more of it is kept.
            let space = (LONGEST_LINE + 1).saturating_sub(self.line.len());
            self.line.extend(&bytes[..bytes.len().min(space)]);
            piece = pieces.next();
            if piece.is_some() {
                let line = std::mem::take(&mut self.line);
                self.line(&line, output)?;
            }
        }
        Ok(())
    }

    /// "A last line without LF counts as a line too, if it has a byte."
    fn finish(&mut self, output: &mut dyn Write) -> io::Result<()> {
        let line = std::mem::take(&mut self.line);
        if line.is_empty() {
            return Ok(());
        }
        self.line(&line, output)
    }
}
