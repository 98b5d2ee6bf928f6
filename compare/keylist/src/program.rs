//! The program under comparison.

use std::io::{self, Write};
use std::process::{Command, Stdio};
use std::thread;

/// A program and its arguments.
pub struct Program {
    path: String,
    arguments: Vec<String>,
}

impl Program {
    /// The program at a path.
    pub fn new(path: &str, arguments: &[String]) -> Program {
        Program { path: path.to_string(), arguments: arguments.to_vec() }
    }

    /// What the program prints for an input.
    pub fn listing(&self, input: &[u8]) -> io::Result<Vec<u8>> {
        let mut command = Command::new(&self.path);
        command.args(&self.arguments).stdin(Stdio::piped()).stdout(Stdio::piped());
        let mut child = command.spawn()?;
        let mut standard_input = child.stdin.take().expect("standard input is piped");
        let bytes = input.to_vec();
        // Written beside the reading, so that neither end waits for the other. A program may refuse before it has
        // read all of its input, so a write that fails is no difference.
        let writer = thread::spawn(move || drop(standard_input.write_all(&bytes)));
        let output = child.wait_with_output()?;
        writer.join().map_err(|_| io::Error::other("the input could not be written"))?;
        if output.status.code().is_none() {
            return Err(io::Error::other("the program was ended by a signal"));
        }
        Ok(output.stdout)
    }
}
