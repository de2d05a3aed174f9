//! The programs both sides have, by name. What 01 doesn't say of them stands in the comments of each.

pub mod command;
mod decode;
mod input;
pub mod replay;
pub mod still;
pub mod stream;
mod words;

use decode::Decode;
use replay::Replay;
use still::Still;
use stream::Program;
use words::Words;

pub use input::{Argument, Input};

/// The six programs, in the order in which a round runs them. A program's seeds go by its place, so that
/// a new one stands last.
#[derive(Clone, Copy, PartialEq, Eq, Debug)]
pub enum Name {
    List,
    Decode,
    Encode,
    Real,
    Replay,
    Still,
}

pub const NAMES: [Name; 6] = [
    Name::List,
    Name::Decode,
    Name::Encode,
    Name::Real,
    Name::Replay,
    Name::Still,
];

impl Name {
    pub fn word(self) -> &'static str {
        match self {
            Name::List => "list",
            Name::Decode => "decode",
            Name::Encode => "encode",
            Name::Real => "real",
            Name::Replay => "replay",
            Name::Still => "still",
        }
    }

    pub fn of(word: &str) -> Option<Name> {
        NAMES.into_iter().find(|name| name.word() == word)
    }

    /// Whether the product has it by now. One that it doesn't is left out of the comparison; its own tests
    /// run all the same.
    pub fn is_compared(self) -> bool {
        self != Name::Still
    }

    pub fn takes_arguments(self) -> bool {
        self == Name::Still
    }

    pub fn program(self, arguments: &[Argument]) -> Box<dyn Program> {
        match self {
            Name::List => Box::new(Words::list()),
            Name::Decode => Box::new(Decode::fresh()),
            Name::Encode => Box::new(Words::encode()),
            Name::Real => Box::new(Words::real()),
            Name::Replay => Box::new(Replay::fresh()),
            Name::Still => Box::new(Still::new(arguments)),
        }
    }
}

/// What the program of this name says to an input.
pub fn run(name: Name, input: &Input) -> Vec<u8> {
    stream::run(&mut *name.program(&input.arguments), &input.bytes)
}
