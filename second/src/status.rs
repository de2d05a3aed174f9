//! The status exchange of ids 0 and 70 (02, Ask 2): what a line remembers of its thermostat's
//! status, and the question that sends it along.

use crate::word;

/// "Document 000 section 5.3.1 makes ids 0 and 70 an exchange: the question's high byte is the
/// master's own status."
pub const IDS: [u8; 2] = [0, 70];

/// What an order asks on its line.
#[derive(Clone, Copy, PartialEq, Eq, Debug)]
pub enum Question {
    /// This word, to the letter.
    Word(u32),
    /// READ-DATA with this id; its high byte is "looked up when the order's own frame goes out".
    Status(u8),
}

impl Question {
    pub fn id(self) -> u8 {
        match self {
            Question::Word(word) => word::id_of(word),
            Question::Status(id) => id,
        }
    }
}

/// For each of the two ids the high byte "of the last READ-DATA with this id that went out for the
/// line's thermostat since fresh".
#[derive(Clone, Copy, PartialEq, Eq, Debug)]
pub struct Known([Option<u8>; 2]);

impl Known {
    pub fn fresh() -> Known {
        Known([None; 2])
    }

    pub fn of(&self, id: u8) -> Option<u8> {
        self.0[place(id)?]
    }

    /// A talk starts for this frame of the thermostat. How it ends doesn't matter: it went out.
    pub fn went_out(&mut self, frame: u32) {
        if let (word::READ_DATA, Some(place)) = (word::type_of(frame), place(word::id_of(frame))) {
            let [high, _] = word::value_of(frame).to_be_bytes();
            self.0[place] = Some(high);
        }
    }

    /// The word of an order's own frame, at the moment it goes out: "as the high byte, that of the
    /// last READ-DATA with this id", "low byte 0".
    pub fn word_of(&self, question: Question) -> u32 {
        match question {
            Question::Word(word) => word,
            Question::Status(id) => {
                let high = self.of(id).expect("asked only where a status went out");
                let value = u16::from_be_bytes([high, 0]);
                word::build(word::READ_DATA, id, value).expect("READ-DATA is a type")
            }
        }
    }
}

fn place(id: u8) -> Option<usize> {
    IDS.iter().position(|status| *status == id)
}
