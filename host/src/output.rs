//! Standard output, written in parts that the library fills.

use std::io::{Write, stdout};

use crate::Fault;
use crate::memory::buffer;

pub struct Output {
    buffer: Vec<u8>,
}

impl Output {
    pub fn new(size: usize) -> Result<Output, Fault> {
        Ok(Output { buffer: buffer("a part of the text", size)? })
    }

    /// One line; `make` writes it and says how long it is.
    pub fn line(&mut self, make: impl FnOnce(&mut [u8]) -> u64) -> Result<(), Fault> {
        let size = make(&mut self.buffer);
        write(&self.buffer[..size as usize])
    }

    /// Some lines; `make` tells how many bytes they are. Gives what it answers.
    pub fn part(&mut self, make: impl FnOnce(&mut [u8], &mut [u64; 1]) -> u64) -> Result<u64, Fault> {
        let mut told = [0];
        let next = make(&mut self.buffer, &mut told);
        write(&self.buffer[..told[0] as usize])?;
        Ok(next)
    }
}

/// A text that was asked for.
pub fn say(text: &str) -> Result<(), Fault> {
    write(text.as_bytes())
}

fn write(bytes: &[u8]) -> Result<(), Fault> {
    let mut out = stdout().lock();
    out.write_all(bytes).and_then(|()| out.flush()).map_err(|e| format!("standard output could not be written: {e}"))
}
