//! What a program is started with: its arguments, which only still has, and what it reads.

/// Bytes, since whoever starts a program may type anything.
pub type Argument = Vec<u8>;

#[derive(Clone, PartialEq, Eq, Debug, Default)]
pub struct Input {
    pub arguments: Vec<Argument>,
    pub bytes: Vec<u8>,
}

impl Input {
    pub fn with(arguments: &[&[u8]], bytes: Vec<u8>) -> Input {
        let arguments = arguments.iter().map(|argument| argument.to_vec()).collect();
        Input { arguments, bytes }
    }
}

/// No arguments.
impl From<Vec<u8>> for Input {
    fn from(bytes: Vec<u8>) -> Input {
        Input::with(&[], bytes)
    }
}

impl From<&[u8]> for Input {
    fn from(bytes: &[u8]) -> Input {
        bytes.to_vec().into()
    }
}

impl From<&str> for Input {
    fn from(text: &str) -> Input {
        text.as_bytes().into()
    }
}
