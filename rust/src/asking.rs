//! A running program `answers`, which is asked one call after the other: what it answered can be in the next call.

use crate::frame::{Answer, Frame};
use std::io::{BufRead, BufReader, Read, Write};
use std::process::{Child, ChildStdin, ChildStdout, Command, Stdio};

pub struct Program {
    child: Child,
    input: ChildStdin,
    output: BufReader<ChildStdout>,
}

impl Program {
    /// Starts a command, given with its arguments.
    pub fn start(command: &[&str]) -> Result<Program, String> {
        let [name, arguments @ ..] = command else { return Err(String::from("no program is given")) };
        let mut child = Command::new(name)
            .args(arguments)
            .stdin(Stdio::piped())
            .stdout(Stdio::piped())
            .spawn()
            .map_err(|error| format!("'{name}' cannot be started: {error}"))?;
        let pipes = (child.stdin.take(), child.stdout.take());
        let (Some(input), Some(output)) = pipes else { unreachable!("both are asked for") };
        Ok(Program { child, input, output: BufReader::new(output) })
    }

    /// The program reads the whole frame before it prints, so neither waits for the other.
    pub fn ask(&mut self, frame: &Frame) -> Result<Answer, String> {
        self.input.write_all(&frame.bytes()).map_err(|error| format!("the program takes no frame: {error}"))?;
        let mut line = String::new();
        self.output.read_line(&mut line).map_err(|error| format!("the program's line cannot be read: {error}"))?;
        let answer = line.strip_suffix('\n').and_then(Answer::read);
        answer.ok_or(format!("the program prints '{}', which is no line of an answer", line.escape_debug()))
    }

    /// With nothing more to read the program has to end, with status 0 and no line more.
    pub fn end(mut self) -> Result<(), String> {
        drop(self.input);
        let mut rest = Vec::new();
        self.output.read_to_end(&mut rest).map_err(|error| format!("the program's end cannot be read: {error}"))?;
        let status = self.child.wait().map_err(|error| format!("the program cannot be waited for: {error}"))?;
        if !rest.is_empty() || !status.success() {
            return Err(format!("the program prints {} bytes more than it was asked for, and ends with {status}", rest.len()));
        }
        Ok(())
    }
}
