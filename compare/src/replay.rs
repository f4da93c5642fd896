//! The replay program, asked case by case.

use crate::case::Case;
use crate::format;
use std::io::{self, BufRead, BufReader, Write};
use std::process::{Child, ChildStdin, ChildStdout, Command, Stdio};

/// A replay program that waits for the next case.
pub struct Replay {
    name: String,
    child: Child,
    input: ChildStdin,
    output: BufReader<ChildStdout>,
}

impl Replay {
    pub fn start(name: &str) -> io::Result<Self> {
        let mut child = Command::new(name)
            .stdin(Stdio::piped())
            .stdout(Stdio::piped())
            .spawn()
            .map_err(|error| io::Error::new(error.kind(), format!("{name}: {error}")))?;
        let (Some(input), Some(output)) = (child.stdin.take(), child.stdout.take()) else {
            return Err(io::Error::other("the replay program has no standard input or output"));
        };
        Ok(Self {
            name: name.into(),
            child,
            input,
            output: BufReader::new(output),
        })
    }

    /// Its result line.
    pub fn answer(&mut self, case: &Case) -> io::Result<String> {
        self.input.write_all(format!("{}\n", format::case_line(case)).as_bytes())?;
        let mut line = String::new();
        self.output.read_line(&mut line)?;
        match line.strip_suffix('\n') {
            Some(answer) => Ok(answer.into()),
            None => Err(io::Error::other(format!("{}: no answer to a case", self.name))),
        }
    }

    /// Ends it, which it has to survive.
    pub fn stop(mut self) -> io::Result<()> {
        drop(self.input);
        let status = self.child.wait()?;
        if status.success() {
            Ok(())
        } else {
            Err(io::Error::other(format!("{}: {status}", self.name)))
        }
    }
}
