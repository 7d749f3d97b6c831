//! A decoder of the library, with all that it is lent.

use crate::Fault;
use crate::library::{self, Logs, PcapFormat, Record, Shelf, Table, answer};
use crate::memory::{Room, array};

pub struct Decoder {
    record: Box<Record>,
    table: Box<Table>,
    shelf: Box<Shelf>,
    /// Whether there was a tick, the last counter, the time.
    clock: [u64; 3],
    pub logs: Logs,
}

/// What became of some records: the answer of the one that stopped them, 0 where none did; where that record begins, or the records end; and
/// whether it is cut by the end of what was lent, so that more bytes may mend it.
pub struct Taken {
    pub answer: u8,
    pub place: usize,
    pub cut: bool,
}

/// What an export tells, where it is accepted.
pub struct Exported {
    pub size: usize,
    /// The events that are left behind.
    pub events: u64,
}

impl Decoder {
    /// The memory of a decoder, to be made fresh.
    pub fn new(room: &Room) -> Result<Decoder, Fault> {
        Ok(Decoder { record: array()?, table: array()?, shelf: array()?, clock: [0; 3], logs: room.logs()? })
    }

    pub fn fresh(&mut self, high: bool) -> u8 {
        library::fresh(high as u8, &mut self.record, &mut self.table, &mut self.logs)
    }

    /// The records of a trace, in which details that were typed in are obeyed. They begin where the block before stopped.
    pub fn block(&mut self, records: &[u8]) -> Taken {
        let (typed, mut told) = (1, [0; 3]);
        let Decoder { record, table, shelf, clock, logs } = self;
        let answer = library::block(typed, record, clock, records, table, logs, shelf, &mut told);
        let [_taken, _eights, place] = told;
        Taken { answer, place: place as usize, cut: answer == answer::CUT }
    }

    /// The records of a pcap file, each a packet.
    pub fn pcap_records(&mut self, format: &PcapFormat, records: &[u8]) -> Taken {
        let mut told = [0; 3];
        let Decoder { record, table, shelf, logs, .. } = self;
        let answer = library::pcap_records(record, format, records, table, logs, shelf, &mut told);
        let [_taken, _eights, place] = told;
        let place = place as usize;
        Taken { answer, place, cut: answer == answer::PCAP_CUT && is_cut(format, &records[place..]) }
    }

    pub fn finish(&mut self) -> u8 {
        library::finish(&mut self.record, &mut self.table, &mut self.logs)
    }

    /// How long the pcap file of the packets is; or what refuses it.
    pub fn pcap_size(&mut self) -> Result<Exported, u8> {
        let mut told = [0; 3];
        exported(library::pcap_size(&self.record, &self.table, &mut self.logs, &mut told), told)
    }

    /// The packets as a pcap file.
    pub fn pcap_export(&mut self, out: &mut [u8]) -> Result<Exported, u8> {
        let mut told = [0; 3];
        exported(library::pcap_export(&self.record, &self.table, &mut self.logs, out, &mut told), told)
    }

    /// A packet at any time: no file has times as late as `to-pcap` refuses.
    #[cfg(test)]
    pub fn packet(&mut self, packet: &[u8], time: u64) -> u8 {
        let Decoder { record, table, shelf, logs, .. } = self;
        library::packet(record, packet, time, table, logs, shelf)
    }

    /// How many rows each log has.
    pub fn counts(&self) -> [u64; 12] {
        let mut counts = [0; 12];
        library::counts(&self.record, &mut counts);
        counts
    }
}

fn exported(answer: u8, [size, _packets, events]: [u64; 3]) -> Result<Exported, u8> {
    if answer == answer::ACCEPTED { Ok(Exported { size: size as usize, events }) } else { Err(answer) }
}

/// The bytes of a pcap file's record before its packet, and where among them it is said how many bytes of the packet were captured.
const RECORD_HEAD: usize = 16;
const CAPTURED: usize = 8;

/// Whether a record that was refused as cut is shorter than it says. Otherwise its packet was not captured whole, and no more bytes
/// mend that: without this test such a record would have us read on to the end of the file, and keep all of it.
fn is_cut(format: &PcapFormat, record: &[u8]) -> bool {
    let Some((head, packet)) = record.split_at_checked(RECORD_HEAD) else { return true };
    let captured: [u8; 4] = std::array::from_fn(|i| head[CAPTURED + i]);
    let [big, _unit] = format;
    let captured = if *big == 0 { u32::from_le_bytes(captured) } else { u32::from_be_bytes(captured) };
    packet.len() < captured as usize
}

#[cfg(test)]
mod tests {
    use super::*;

    #[test]
    fn a_record_is_cut_where_it_is_shorter_than_it_says() {
        // 3 bytes of 4 were captured.
        let mut record = [0; 24];
        (record[8], record[12]) = (3, 4);
        let (little, big) = ([0, 1], [1, 1]);
        for size in 0..record.len() {
            assert_eq!(is_cut(&little, &record[..size]), size < 19);
            assert!(is_cut(&big, &record[..size]));
        }
        (record[8], record[11]) = (0, 3);
        for size in 0..record.len() {
            assert_eq!(is_cut(&big, &record[..size]), size < 19);
            assert!(is_cut(&little, &record[..size]));
        }
    }
}
