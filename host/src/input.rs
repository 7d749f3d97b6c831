//! A file, or standard input, read in windows.

use std::ffi::OsStr;
use std::fs::File;
use std::io::{ErrorKind, Read, stdin};

use crate::Fault;
use crate::library::HEADER_SIZE;
use crate::memory::buffer;

/// How many bytes that were passed stay before the window: the library is lent them in the place of a trace's header.
const BEFORE: usize = HEADER_SIZE;

/// What a window is called, where there is no memory for it.
const WINDOW: &str = "a part of the input";

/// A part of the input: the bytes that were read and not passed yet.
pub struct Window {
    name: String,
    source: Box<dyn Read>,
    /// The bytes of the input, where that is known.
    size: Option<u64>,
    buffer: Vec<u8>,
    start: usize,
    end: usize,
    /// Where `start` is in the input.
    offset: u64,
    last: bool,
}

/// What a file is called in messages.
pub fn name(file: &OsStr) -> String {
    if file == "-" { "standard input".to_string() } else { file.to_string_lossy().into_owned() }
}

impl Window {
    /// Opens a file; `-` is standard input.
    pub fn open(file: &OsStr, size: usize) -> Result<Window, Fault> {
        let name = name(file);
        let (source, length): (Box<dyn Read>, _) = if file == "-" {
            (Box::new(stdin().lock()), None)
        } else {
            let opened = File::open(file).map_err(|e| format!("{name}: {e}"))?;
            let length = opened.metadata().ok().filter(|m| m.is_file()).map(|m| m.len());
            (Box::new(opened), length)
        };
        Window::over(name, source, length, size)
    }

    fn over(name: String, source: Box<dyn Read>, length: Option<u64>, size: usize) -> Result<Window, Fault> {
        let buffer = buffer(WINDOW, BEFORE + size)?;
        Ok(Window { name, source, size: length, buffer, start: BEFORE, end: BEFORE, offset: 0, last: false })
    }

    pub fn size(&self) -> Option<u64> {
        self.size
    }

    pub fn bytes(&self) -> &[u8] {
        &self.buffer[self.start..self.end]
    }

    /// Its first bytes, and those before it; zeros where there are none.
    pub fn with_before(&self, count: usize) -> &[u8] {
        &self.buffer[self.start - BEFORE..self.start + count]
    }

    /// Whether the input ends with it.
    pub fn is_last(&self) -> bool {
        self.last
    }

    /// Where in the input it begins.
    pub fn offset(&self) -> u64 {
        self.offset
    }

    /// Its first bytes are done with.
    pub fn pass(&mut self, count: usize) {
        self.start += count;
        self.offset += count as u64;
    }

    /// Reads on until the window is full or the input ends.
    pub fn fill(&mut self) -> Result<(), Fault> {
        self.buffer.copy_within(self.start - BEFORE..self.end, 0);
        (self.start, self.end) = (BEFORE, BEFORE + self.end - self.start);
        while self.end < self.buffer.len() && !self.last {
            match self.source.read(&mut self.buffer[self.end..]) {
                Ok(0) => self.last = true,
                Ok(count) => self.end += count,
                Err(e) if e.kind() == ErrorKind::Interrupted => {}
                Err(e) => {
                    return Err(format!(
                        "{}: could not be read at byte {}: {e}",
                        self.name,
                        self.offset + self.bytes().len() as u64
                    ));
                }
            }
        }
        Ok(())
    }

    /// Makes the window one of so many bytes, where it is smaller: for a record that is longer.
    pub fn widen(&mut self, count: usize) -> Result<(), Fault> {
        if BEFORE + count <= self.buffer.len() {
            return Ok(());
        }
        let mut wider = buffer(WINDOW, BEFORE + count)?;
        wider[..self.end].copy_from_slice(&self.buffer[..self.end]);
        self.buffer = wider;
        Ok(())
    }
}

#[cfg(test)]
mod tests {
    use super::*;

    /// Gives three bytes at a time, is interrupted before each, and fails behind the last where it is told to.
    struct Slow {
        bytes: Vec<u8>,
        interrupted: bool,
        fails: bool,
    }

    impl Read for Slow {
        fn read(&mut self, buffer: &mut [u8]) -> std::io::Result<usize> {
            self.interrupted = !self.interrupted;
            if self.interrupted {
                return Err(ErrorKind::Interrupted.into());
            }
            if self.bytes.is_empty() && self.fails {
                return Err(ErrorKind::TimedOut.into());
            }
            let count = buffer.len().min(3).min(self.bytes.len());
            buffer[..count].copy_from_slice(&self.bytes[..count]);
            self.bytes.drain(..count);
            Ok(count)
        }
    }

    fn window(fails: bool, size: usize) -> Window {
        let source = Slow { bytes: (0..20).collect(), interrupted: false, fails };
        Window::over("slow".to_string(), Box::new(source), None, size).unwrap()
    }

    #[test]
    fn what_is_not_passed_is_met_again() {
        let mut w = window(false, 8);
        w.fill().unwrap();
        assert_eq!((w.bytes(), w.offset(), w.is_last()), (&[0, 1, 2, 3, 4, 5, 6, 7][..], 0, false));
        assert_eq!(w.with_before(1), [0, 0, 0, 0, 0, 0]);
        w.pass(6);
        assert_eq!((w.bytes(), w.offset()), (&[6, 7][..], 6));
        assert_eq!(w.with_before(1), [1, 2, 3, 4, 5, 6]);
        w.fill().unwrap();
        assert_eq!((w.bytes(), w.offset(), w.is_last()), (&[6, 7, 8, 9, 10, 11, 12, 13][..], 6, false));
        assert_eq!(w.with_before(2), [1, 2, 3, 4, 5, 6, 7]);
        w.pass(6);
        w.fill().unwrap();
        assert_eq!((w.bytes(), w.offset(), w.is_last()), (&[12, 13, 14, 15, 16, 17, 18, 19][..], 12, false));
        w.pass(8);
        w.fill().unwrap();
        assert_eq!((w.bytes(), w.offset(), w.is_last()), (&[][..], 20, true));
    }

    #[test]
    fn a_wider_window_keeps_what_was_read() {
        let mut w = window(false, 2);
        w.fill().unwrap();
        w.widen(1).unwrap();
        assert_eq!(w.bytes(), [0, 1]);
        w.widen(5).unwrap();
        w.fill().unwrap();
        assert_eq!((w.bytes(), w.offset(), w.is_last()), (&[0, 1, 2, 3, 4][..], 0, false));
        w.widen(100).unwrap();
        w.fill().unwrap();
        assert_eq!((w.bytes().len(), w.is_last()), (20, true));
    }

    #[test]
    fn a_failure_says_where() {
        let mut w = window(true, 8);
        w.fill().unwrap();
        w.pass(7);
        w.fill().unwrap();
        w.pass(7);
        assert_eq!(w.fill().unwrap_err(), "slow: could not be read at byte 20: timed out");
    }
}
