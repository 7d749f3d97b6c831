//! The program `listing` run on an input, as a process of its own.

use std::io::Write;
use std::path::PathBuf;
use std::process::{ChildStdin, Command, Output, Stdio};
use std::time::Duration;

use crate::compare::Lister;

pub struct Program {
    path: PathBuf,
    high: bool,
    turn: u64,
}

impl Program {
    /// In the mode of change request 6, or without it.
    pub fn new(path: &str, high: bool) -> Result<Program, String> {
        let path = PathBuf::from(path);
        match path.is_file() {
            true => Ok(Program { path, high, turn: 0 }),
            false => Err(format!("{}: no program", path.display())),
        }
    }

    fn output(&mut self, input: &[u8]) -> std::io::Result<Output> {
        let arguments: &[&str] = if self.high { &["--high"] } else { &[] };
        let mut child = Command::new(&self.path)
            .args(arguments)
            .stdin(Stdio::piped())
            .stdout(Stdio::piped())
            .stderr(Stdio::piped())
            .spawn()?;
        self.turn += 1;
        self.feed(child.stdin.take().expect("a pipe to the program"), input);
        child.wait_with_output()
    }

    /// The input; one in eight comes in two parts, with a while between. The program need not read more than its buffer holds and a byte:
    /// a pipe that is closed early is no fault.
    fn feed(&self, mut pipe: ChildStdin, input: &[u8]) {
        let (first, second) = input.split_at(if self.turn % 8 == 0 { input.len() / 3 } else { 0 });
        if !first.is_empty() {
            pipe.write_all(first).ok();
            std::thread::sleep(Duration::from_millis(1));
        }
        pipe.write_all(second).ok();
    }
}

impl Lister for Program {
    fn list(&mut self, trace: &[u8]) -> Result<Vec<u8>, String> {
        let output = self.output(trace).map_err(|e| format!("{}: {e}", self.path.display()))?;
        if output.status.code() != Some(0) {
            return Err(format!("it ended with {}", output.status));
        }
        if !output.stderr.is_empty() {
            return Err(format!("it wrote to standard error: {}", String::from_utf8_lossy(&output.stderr)));
        }
        Ok(output.stdout)
    }
}
