//! Starts the product's programs and feeds them, so that neither pipe can fill up and stop both.

use std::ffi::OsStr;
use std::io::{Read, Write};
use std::os::unix::ffi::OsStrExt;
use std::os::unix::process::CommandExt;
use std::process::{Child, Command, Stdio};
use std::sync::mpsc;
use std::thread;
use std::time::Duration;

use crate::programs::{Argument, Input, Name};

/// A program that never ends must not hold up the comparison for ever.
pub const LONGEST_RUN: Duration = Duration::from_secs(120);

pub struct Ours {
    command: Vec<String>,
}

impl Ours {
    /// `./run NAME`, or the words of the environment variable OURS and NAME behind them, then the arguments.
    pub fn new() -> Ours {
        let given = std::env::var("OURS").unwrap_or_default();
        let mut command: Vec<String> = given.split_whitespace().map(str::to_string).collect();
        if command.is_empty() {
            command.push("./run".to_string());
        }
        Ours { command }
    }

    /// The output, or in words why there is none.
    pub fn run(&self, name: Name, input: &Input, longest: Duration) -> Result<Vec<u8>, String> {
        let mut child = self.start(name, &input.arguments)?;
        let mut stdin = child.stdin.take().expect("standard input was asked for");
        let mut stdout = child.stdout.take().expect("standard output was asked for");
        let bytes = input.bytes.clone();
        // A program that ends early closes its input; its output then says what is wrong.
        thread::spawn(move || stdin.write_all(&bytes).is_ok());
        let (sender, receiver) = mpsc::channel();
        thread::spawn(move || {
            let mut output = Vec::new();
            let result = stdout.read_to_end(&mut output).map(|_| output);
            sender.send(result).is_ok()
        });
        let Ok(output) = receiver.recv_timeout(longest) else {
            end_group(&mut child);
            return Err(format!("has no end within {} seconds", longest.as_secs()));
        };
        let status = child.wait().map_err(|error| error.to_string())?;
        if !status.success() {
            return Err(format!("ended with {status}"));
        }
        output.map_err(|error| error.to_string())
    }

    fn start(&self, name: Name, arguments: &[Argument]) -> Result<Child, String> {
        Command::new(&self.command[0])
            .args(&self.command[1..])
            .arg(format!("ot{}", name.word()))
            .args(arguments.iter().map(|argument| OsStr::from_bytes(argument)))
            .stdin(Stdio::piped())
            .stdout(Stdio::piped())
            .process_group(0)
            .spawn()
            .map_err(|error| format!("'{}' could not be started: {error}", self.command[0]))
    }
}

/// The command may have started others; they stand in its process group and end with it.
fn end_group(child: &mut Child) {
    let group = format!("-{}", child.id());
    let ended = Command::new("kill").args(["-9", "--", &group]).status();
    if ended.is_err() && child.kill().is_err() {
        println!("the program could not be ended");
    }
    // Waited for only so that nothing of it is left behind.
    child.wait().ok();
}
