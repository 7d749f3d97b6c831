//! What the benchmark asks of the system: the processor time, and the twelve logs, the table and the shelf in fresh memory, on which the port
//! runs a trace.

use std::ffi::c_void;

use oracle::blocks::Input;
use oracle::calls::{BYTES, Rows, STATE_BYTES, WIDTHS};
use oracle::descriptors::SHELF;
use oracle::lent::{Lent, TABLE};
use oracle::singles::{Call, RECORD};

unsafe extern "C" {
    fn mmap(place: *mut c_void, length: usize, access: i32, flags: i32, file: i32, offset: i64) -> *mut c_void;
    fn munmap(place: *mut c_void, length: usize) -> i32;
    fn clock_gettime(clock: i32, time: *mut [i64; 2]) -> i32;
}

/// The processor time that this thread has had, in nanoseconds.
pub fn processor_time() -> u64 {
    const THREAD: i32 = 3;
    let mut time = [0; 2];
    // Seconds and nanoseconds are written, 64 bits each.
    assert!(unsafe { clock_gettime(THREAD, &mut time) } == 0, "the system has no clock of the thread");
    time[0] as u64 * 1_000_000_000 + time[1] as u64
}

/// Zeros from the system, in pages that come in when they are first touched.
struct Pages {
    place: *mut c_void,
    length: usize,
}

impl Pages {
    fn new(length: usize) -> Pages {
        let (read_write, private_anonymous) = (3, 0x22);
        let length = length.max(1);
        // A new mapping of no file: nobody else has it.
        let place = unsafe { mmap(std::ptr::null_mut(), length, read_write, private_anonymous, -1, 0) };
        assert!(place as isize != -1, "the system has no {length} bytes");
        Pages { place, length }
    }
}

impl Drop for Pages {
    fn drop(&mut self) {
        // The mapping of `new`, whole.
        unsafe { munmap(self.place, self.length) };
    }
}

pub struct Logs {
    table: Pages,
    shelf: Pages,
    logs: [Pages; 12],
    /// Of each log, in its own elements.
    lengths: [usize; 12],
}

fn is_bytes(log: usize) -> bool {
    log == BYTES || log == STATE_BYTES
}

impl Logs {
    pub fn new(room: &Rows) -> Logs {
        let lengths: [usize; 12] = std::array::from_fn(|log| room.0[log] as usize * WIDTHS[log]);
        let logs = std::array::from_fn(|log| Pages::new(lengths[log] * if is_bytes(log) { 1 } else { 8 }));
        Logs { table: Pages::new(TABLE * 8), shelf: Pages::new(SHELF), logs, lengths }
    }

    fn lend(&mut self) -> Lent {
        let bytes = |log: usize| (self.logs[log].place.cast(), self.lengths[log]);
        let words: Vec<_> =
            (0..12).filter(|log| !is_bytes(*log)).map(|log| (self.logs[log].place.cast(), self.lengths[log])).collect();
        Lent {
            table: self.table.place.cast(),
            shelf: self.shelf.place.cast(),
            bytes: bytes(BYTES),
            statebytes: bytes(STATE_BYTES),
            words: words.try_into().expect("ten logs of words"),
        }
    }

    /// A whole trace, which must end with 0; the rows that it leaves in each log.
    pub fn run(&mut self, trace: &[u8]) -> Result<Rows, String> {
        let (lent, mut rows) = (self.lend(), Rows([0; 12]));
        // The pages are this struct's own, zeros at first, and have the lengths that are told.
        match unsafe { library::trace(false, trace, &lent, &mut rows.0) } {
            (0, _) => Ok(rows),
            (answer, at) => Err(format!("the port answers {answer} at {at}")),
        }
    }

    /// Its records, each as a block of its own, so that each is tested as by a call of its own; the rows that they leave.
    pub fn run_one_by_one(&mut self, input: &Input) -> Result<Rows, String> {
        let (lent, mut record, mut blocks) = (self.lend(), [0; RECORD], 0);
        // Likewise, and the record is our own.
        match unsafe { library::blocks(false, input, record.as_mut_ptr(), &lent, |_| blocks += 1) } {
            0 if blocks == input.cuts.len() + 1 => Ok(Rows(library::counts(&record))),
            answer => Err(format!("the port makes a decoder with {answer}, and {blocks} blocks")),
        }
    }

    /// Packets by a call each, on a record in lent words; the rows that they leave.
    pub fn run_singly<'a>(&mut self, packets: impl Iterator<Item = &'a [u8]>) -> Result<Rows, String> {
        let (lent, mut record) = (self.lend(), [0; RECORD]);
        // Likewise.
        let mut call = |call: Call| match unsafe { library::call(&call, record.as_mut_ptr(), &lent) }.answer {
            0 | 8 => Ok(()),
            answer => Err(format!("the port answers {answer}")),
        };
        call(Call::Fresh { mode: 0 })?;
        for (time, bytes) in packets.enumerate() {
            call(Call::Packet { bytes, time: time as u64 })?;
        }
        Ok(Rows(library::counts(&record)))
    }

    /// The first elements of a log of bytes.
    pub fn bytes(&self, log: usize, length: usize) -> &[u8] {
        assert!(is_bytes(log) && length <= self.lengths[log]);
        // Within the pages, which are initialised.
        unsafe { std::slice::from_raw_parts(self.logs[log].place.cast(), length) }
    }

    /// The first elements of a log of words.
    pub fn words(&self, log: usize, length: usize) -> &[u64] {
        assert!(!is_bytes(log) && length <= self.lengths[log]);
        // Likewise; pages are aligned for words.
        unsafe { std::slice::from_raw_parts(self.logs[log].place.cast(), length) }
    }
}
