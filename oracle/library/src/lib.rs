//! The C entries of the proved port, linked as a static library: `scripts/library` first. Their declarations are generated (scripts/header).

#[path = "../../../host/src/library.rs"]
#[rustfmt::skip]
pub mod entries;

use oracle::blocks::Input;
use oracle::decoder::machine::State;
use oracle::lent::{Lent, Slice};
use oracle::singles::{Call, RECORD, Told};

/// The port's packet check.
pub fn check(packet: &[u8]) -> u16 {
    entries::check(packet)
}

/// The port's `group_status`.
pub fn group_status(state: &State) -> [u64; 10] {
    let mut out = [0; 10];
    entries::group_status(state, &mut out);
    out
}

/// An entry on lent logs: what is its own, the table and the logs, and what comes behind them.
macro_rules! entry {
    ($entry:ident($($own:ident: $type:ty),*; $($behind:ident: $last:ty),*) -> $result:ty) => {
        unsafe fn $entry($($own: $type,)* lent: &Lent, $($behind: $last),*) -> $result {
            let Lent { table, bytes, statebytes, words: w, .. } = lent;
            unsafe {
                entries::entry::$entry(
                    $($own,)*
                    *table,
                    bytes.0, bytes.1,
                    w[0].0, w[0].1, w[1].0, w[1].1, w[2].0, w[2].1, w[3].0, w[3].1, w[4].0, w[4].1, w[5].0, w[5].1,
                    statebytes.0, statebytes.1,
                    w[6].0, w[6].1, w[7].0, w[7].1, w[8].0, w[8].1, w[9].0, w[9].1,
                    $($behind),*
                )
            }
        }
    };
}

/// An answer in the top byte and a number below it.
fn told(word: u64) -> (u8, u64) {
    ((word >> 56) as u8, word & ((1 << 56) - 1))
}

entry!(
    pivotspark_trace(
        high: u8, trace: *const u8, trace_len: usize;
        shelf: *mut u8, counts: *mut u64, counts_len: usize
    ) -> u64
);

/// A whole trace by the port, its decoder fresh in the mode of change request 6 or not: the answer and the offset.
///
/// # Safety
/// Each log, the table and the shelf have as many elements as is said, are initialised, and nobody else uses them during the call.
pub unsafe fn trace(high: bool, trace: &[u8], lent: &Lent, counts: &mut [u64]) -> (u8, u64) {
    told(unsafe {
        pivotspark_trace(high as u8, trace.as_ptr(), trace.len(), lent, lent.shelf, counts.as_mut_ptr(), counts.len())
    })
}

mod single {
    use super::*;

    entry!(pivotspark_fresh(mode: u8, record: *mut u64;) -> u8);
    entry!(pivotspark_packet(record: *mut u64, packet: *const u8, packet_len: usize, time: u64; shelf: *mut u8) -> u8);
    entry!(pivotspark_event(record: *mut u64, kind: u8, code: u8, time: u64;) -> u8);
    entry!(pivotspark_finish(record: *mut u64;) -> u8);
    entry!(
        pivotspark_block(
            typed: u8, record: *mut u64, clock: *mut u64, records: *const u8, records_len: usize;
            shelf: *mut u8, told: *mut u64
        ) -> u8
    );
    entry!(
        pivotspark_pcap_records(
            record: *mut u64, format: *const u64, records: *const u8, records_len: usize;
            shelf: *mut u8, told: *mut u64
        ) -> u8
    );
    entry!(pivotspark_pcap_size(record: *const u64; told: *mut u64) -> u8);
    entry!(pivotspark_pcap_export(record: *const u64; out: *mut u8, out_len: usize, told: *mut u64) -> u8);

    const GUARD: u64 = u64::MAX;

    /// Three words to lend, between two that nobody may write.
    fn guarded(words: [u64; 3]) -> [u64; 5] {
        [GUARD, words[0], words[1], words[2], GUARD]
    }

    fn unguarded([before, a, b, c, behind]: [u64; 5]) -> [u64; 3] {
        assert!(before == GUARD && behind == GUARD, "a block wrote beside the words that it was lent");
        [a, b, c]
    }

    /// A single call on a record.
    ///
    /// # Safety
    /// As for `trace`, and the record has `RECORD` words, which nobody else uses during the call.
    pub unsafe fn call(call: &Call, record: *mut u64, lent: &Lent) -> Told {
        let mut told = Told::default();
        told.answer = unsafe {
            match *call {
                Call::Fresh { mode } => pivotspark_fresh(mode, record, lent),
                Call::Packet { bytes, time } => pivotspark_packet(record, bytes.as_ptr(), bytes.len(), time, lent, lent.shelf),
                Call::Event { kind, code, time } => pivotspark_event(record, kind, code, time, lent),
                Call::Finish => pivotspark_finish(record, lent),
                Call::Block { typed, clock, records } => {
                    let (mut ticks, mut block) = (guarded(clock), guarded([GUARD; 3]));
                    let (clock, words) = (ticks[1..].as_mut_ptr(), block[1..].as_mut_ptr());
                    let answer = pivotspark_block(typed, record, clock, records.as_ptr(), records.len(), lent, lent.shelf, words);
                    (told.clock, told.block) = (unguarded(ticks), unguarded(block));
                    answer
                }
                Call::Records { ref format, records } => {
                    told.block = [u64::MAX; 3];
                    let (format, block) = (format.as_ptr(), told.block.as_mut_ptr());
                    pivotspark_pcap_records(record, format, records.as_ptr(), records.len(), lent, lent.shelf, block)
                }
            }
        };
        told
    }

    /// The counts that stand in a record.
    pub fn counts(record: &[u64; RECORD]) -> [u64; 12] {
        let mut counts = [u64::MAX; 12];
        entries::counts(record, &mut counts);
        counts
    }

    /// The head of a pcap file: the answer and the place.
    pub fn pcap_head(file: &[u8], format: &mut [u64; 2]) -> (u8, u64) {
        super::told(entries::pcap_head(file, format))
    }

    /// The packets as a pcap file in `out`, or, without it, how long that would be.
    ///
    /// # Safety
    /// As for `call`, and `out` has as many bytes as is said.
    pub unsafe fn pcap_export(record: *const u64, lent: &Lent, out: Option<Slice<u8>>, told: &mut [u64; 3]) -> u8 {
        unsafe {
            match out {
                Some((out, length)) => pivotspark_pcap_export(record, lent, out, length, told.as_mut_ptr()),
                None => pivotspark_pcap_size(record, lent, told.as_mut_ptr()),
            }
        }
    }
}

pub use single::{call, counts, pcap_export, pcap_head};

/// Records without header in blocks, as `blocks::Blocks` says, on a record that is made fresh; gives the answer of fresh. The tick state before them is the last
/// counter and its time, 0 and 0 before the first. Of each block that was called six words are told: answer, taken, eights, place in the block, last
/// counter, time.
///
/// # Safety
/// As for `call`.
pub unsafe fn blocks(high: bool, input: &Input, record: *mut u64, lent: &Lent, mut tell: impl FnMut([u64; 6])) -> u8 {
    let fresh = unsafe { call(&Call::Fresh { mode: high as u8 }, record, lent) }.answer;
    if fresh != 0 {
        return fresh;
    }
    let (records, (last, time)) = (input.records, input.clock.state());
    let (mut at, mut clock) = (0, [1, last as u64, time]);
    for cut in input.cuts.iter().map(|cut| *cut as usize).chain([records.len()]) {
        let block = Call::Block { typed: 0, clock, records: &records[at..cut.clamp(at, records.len())] };
        let told = unsafe { call(&block, record, lent) };
        let [taken, eights, place] = told.block;
        clock = told.clock;
        tell([told.answer as u64, taken, eights, place, clock[1], clock[2]]);
        if told.answer != 0 && told.answer != 13 {
            break;
        }
        at = at.saturating_add(place as usize).min(records.len());
    }
    0
}
