//! A capture through the decoder, window by window: a UTL trace, or a pcap file of USB packets.

use crate::Fault;
use crate::arguments::Capture;
use crate::decoder::{Decoder, Taken};
use crate::input::{Window, name};
use crate::library::{self, HEADER_SIZE, PCAP_HEAD_SIZE, PCAP_MICROSECONDS, PCAP_NANOSECONDS, answer};
use crate::output::Output;
use crate::progress::Progress;

/// Why a command has no result: an answer of the library, with its place in the file, or a fault of the machine.
#[derive(Debug, PartialEq)]
pub enum Stop {
    Refused { answer: u8, place: u64 },
    Failed(Fault),
}

impl From<Fault> for Stop {
    fn from(fault: Fault) -> Stop {
        Stop::Failed(fault)
    }
}

impl Stop {
    /// Prints the line of a refusal, and gives what is wrong in words.
    pub fn told(self, capture: &Capture, output: &mut Output) -> Fault {
        let (answer, place) = match self {
            Stop::Refused { answer, place } => (answer, place),
            Stop::Failed(fault) => return fault,
        };
        match output.line(|out| library::refused_line(answer, place, out)) {
            Ok(()) => format!("{}: refused at byte {place}: {} (answer {answer})", name(&capture.file), library::words(answer)),
            Err(fault) => fault,
        }
    }
}

pub fn accepted(answer: u8, place: u64) -> Result<(), Stop> {
    if answer == answer::ACCEPTED { Ok(()) } else { Err(Stop::Refused { answer, place }) }
}

/// What a capture leaves, when it was taken to its end.
pub struct Run {
    pub decoder: Decoder,
    /// The details that were typed in.
    pub details: u64,
    /// The bytes of the file.
    pub size: u64,
}

/// A whole capture: its first bytes, a fresh decoder, its records, and finish.
pub fn run(capture: &Capture, progress: &mut Progress) -> Result<Run, Stop> {
    let mut window = Window::open(&capture.file, capture.window)?;
    let mut decoder = Decoder::new(&capture.room)?;
    window.widen(HEADER_SIZE)?;
    window.fill()?;
    let details = if capture.pcap || is_pcap(window.bytes()) {
        pcap(&mut decoder, capture.high, &mut window, progress)?;
        0
    } else {
        trace(&mut decoder, capture.high, &mut window, progress)?
    };
    let size = window.offset();
    accepted(decoder.finish(), size)?;
    Ok(Run { decoder, details, size })
}

/// Whether a file begins with one of the marks of pcap, in either byte order.
fn is_pcap(bytes: &[u8]) -> bool {
    let Some(mark) = bytes.first_chunk() else { return false };
    let is_mark = |mark: u32| [PCAP_MICROSECONDS, PCAP_NANOSECONDS].contains(&(mark as usize));
    is_mark(u32::from_le_bytes(*mark)) || is_mark(u32::from_be_bytes(*mark))
}

/// The library's word on the first bytes of a file: the answer in its top byte, the place below.
fn accepted_head(word: u64) -> Result<(), Stop> {
    accepted((word >> 56) as u8, word & ((1 << 56) - 1))
}

/// A trace up to its end. Gives the number of details in it.
fn trace(decoder: &mut Decoder, high: bool, window: &mut Window, progress: &mut Progress) -> Result<u64, Stop> {
    accepted_head(library::header(window.bytes()))?;
    window.pass(HEADER_SIZE);
    accepted(decoder.fresh(high), 0)?;
    let mut details = 0;
    records(window, progress, |window| {
        let taken = decoder.block(window.bytes());
        details += library::details(window.with_before(taken.place));
        taken
    })?;
    Ok(details)
}

/// A pcap file up to its end.
fn pcap(decoder: &mut Decoder, high: bool, window: &mut Window, progress: &mut Progress) -> Result<(), Stop> {
    window.widen(PCAP_HEAD_SIZE)?;
    window.fill()?;
    let mut format = [0; 2];
    accepted_head(library::pcap_head(window.bytes(), &mut format))?;
    window.pass(PCAP_HEAD_SIZE);
    accepted(decoder.fresh(high), 0)?;
    records(window, progress, |window| decoder.pcap_records(&format, window.bytes()))
}

/// The records. One that a window cuts is met again at the front of the next; only the input's end cuts it for good.
fn records(window: &mut Window, progress: &mut Progress, mut take: impl FnMut(&Window) -> Taken) -> Result<(), Stop> {
    loop {
        window.fill()?;
        let taken = take(window);
        window.pass(taken.place);
        progress.show("read", window.offset(), window.size());
        if taken.cut && !window.is_last() {
            // A record that fills the window needs a wider one.
            window.widen(2 * window.bytes().len())?;
            continue;
        }
        accepted(taken.answer, window.offset())?;
        if window.is_last() {
            return Ok(());
        }
    }
}

#[cfg(test)]
mod tests {
    use super::*;

    #[test]
    fn a_file_is_a_pcap_file_by_four_bytes() {
        for mark in [0xA1B2_C3D4u32, 0xA1B2_3C4D] {
            assert!(is_pcap(&mark.to_le_bytes()) && is_pcap(&mark.to_be_bytes()));
            assert!(!is_pcap(&mark.to_le_bytes()[..3]) && !is_pcap(&(mark + 1).to_be_bytes()));
        }
        assert!(!is_pcap(b"") && !is_pcap(b"UTL\x01\x00"));
    }
}
