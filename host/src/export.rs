//! The command `to-pcap`: a capture through the decoder, and its packets as a pcap file.

use std::path::Path;

use crate::Fault;
use crate::arguments::ToPcap;
use crate::decoder::{Decoder, Exported};
use crate::memory::buffer;
use crate::output::{Output, say};
use crate::progress::Progress;
use crate::run::{Stop, run};
use crate::whole;

pub fn to_pcap(options: &ToPcap) -> Result<(), Fault> {
    let mut output = Output::new(options.part)?;
    match export(options) {
        Ok(events) => say(&format!("events {events}\n")),
        Err(stop) => Err(stop.told(&options.capture, &mut output)),
    }
}

/// Writes the file, and gives the events that it leaves behind. The progress is wiped out by then: standard output may be the same terminal.
fn export(options: &ToPcap) -> Result<u64, Stop> {
    let mut progress = Progress::always();
    let mut run = run(&options.capture, &mut progress)?;
    let (file, events) = packets(&mut run.decoder, run.size)?;
    let size = file.len() as u64;
    whole::write(Path::new(&options.out), &file, options.part, |done| progress.show("written", done, Some(size)))?;
    Ok(events)
}

/// The packets as a file, and the events left behind. What is refused is refused behind the capture's last byte.
fn packets(decoder: &mut Decoder, end: u64) -> Result<(Vec<u8>, u64), Stop> {
    let refused = |answer| Stop::Refused { answer, place: end };
    let Exported { size, .. } = decoder.pcap_size().map_err(refused)?;
    let mut file = buffer("the pcap file", size)?;
    let Exported { events, .. } = decoder.pcap_export(&mut file).map_err(refused)?;
    Ok((file, events))
}

#[cfg(test)]
mod tests {
    use super::*;
    use crate::memory::Room;

    const SECOND: u64 = 1_000_000_000;

    fn decoder() -> Decoder {
        let mut room = Room::largest();
        room.choose("100").unwrap();
        let mut decoder = Decoder::new(&room).unwrap();
        assert_eq!(decoder.fresh(false), 0);
        decoder
    }

    #[test]
    fn seconds_of_33_bits_are_refused_behind_the_last_byte() {
        let mut decoder = decoder();
        assert_eq!(decoder.packet(&[0xD2], (1 << 32) * SECOND - 1), 0);
        let (file, events) = packets(&mut decoder, 77).unwrap();
        assert_eq!((file.len(), &file[24..32], events), (41, &[255, 255, 255, 255, 0xFF, 0xC9, 0x9A, 0x3B][..], 0));
        assert_eq!(decoder.packet(&[0xD2], (1 << 32) * SECOND), 0);
        assert_eq!(packets(&mut decoder, 77).unwrap_err(), Stop::Refused { answer: 18, place: 77 });
    }

    #[test]
    fn a_decoder_without_packets_gives_a_head() {
        let (file, events) = packets(&mut decoder(), 0).unwrap();
        assert_eq!((file.len(), events), (24, 0));
    }
}
