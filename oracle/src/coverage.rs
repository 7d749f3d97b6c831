//! How often each case of the source was met: the module `counted` counts here; and what the calls found, seen beside them.

use std::cell::RefCell;
use std::collections::BTreeMap;
use std::sync::atomic::{AtomicU64, Ordering::Relaxed};

use crate::calls::{Mechanism, Style};
use crate::trace::{Record, Watch};
use crate::usb::PID;
use crate::usb::{reason_of, validate_packet};

/// A place of the source that is counted: an arm of a match with its alternatives, or the two ways of an `if`.
pub struct Case {
    pub function: &'static str,
    /// The match that an arm belongs to; nothing for an `if`.
    pub of: &'static str,
    pub what: &'static str,
    pub ways: &'static [&'static str],
    /// The first of its counters.
    pub first: usize,
}

/// All cases, in the order of the source.
pub const CASES: &[Case] = include!(concat!(env!("OUT_DIR"), "/cases.rs"));
/// Those of the decoder in the mode of change request 6; their counters are others.
pub const HIGH_CASES: &[Case] = include!(concat!(env!("OUT_DIR"), "/high_cases.rs"));

static COUNTS: [AtomicU64; 1024] = [const { AtomicU64::new(0) }; 1024];

thread_local! {
    /// The ways that the call at hand took.
    static TAKEN: RefCell<Vec<usize>> = const { RefCell::new(Vec::new()) };
}

pub fn hit(counter: usize) {
    TAKEN.with_borrow_mut(|taken| taken.push(counter));
}

/// The call at hand is over: what it took counts where it was accepted.
fn settle(accepted: bool) {
    TAKEN.with_borrow_mut(|taken| {
        for counter in taken.drain(..).filter(|_| accepted) {
            COUNTS[counter].fetch_add(1, Relaxed);
        }
    });
}

pub fn count(counter: usize) -> u64 {
    COUNTS[counter].load(Relaxed)
}

/// What `transaction_status` sees of the next packet: its PID, or that it is malformed, here with the reason, or a DATA0 of 11 bytes.
pub const NEXT: [&str; 20] = [
    "OUT",
    "IN",
    "SOF",
    "SETUP",
    "PING",
    "SPLIT",
    "DATA0",
    "DATA1",
    "DATA2",
    "MDATA",
    "ACK",
    "NAK",
    "STALL",
    "NYET",
    "ERR",
    "DATA0 of 11",
    "empty",
    "bad PID",
    "wrong length",
    "bad CRC",
];

fn next(packet: &[u8]) -> usize {
    use PID::*;
    let pids = [OUT, IN, SOF, SETUP, PING, SPLIT, DATA0, DATA1, DATA2, MDATA, ACK, NAK, STALL, NYET, ERR];
    match validate_packet(packet) {
        Ok(DATA0) if packet.len() == 11 => 15,
        Ok(pid) => pids.iter().position(|p| *p == pid).expect("a PID of the fifteen"),
        Err(_) => 15 + reason_of(packet) as usize,
    }
}

/// What calls found and how they were answered. What a refused call found does not count.
#[derive(Default)]
pub struct Seen {
    pub calls: u64,
    pub answers: [u64; 10],
    /// For each transaction that a packet can find, resumed or not, how often each packet came.
    pub pairs: BTreeMap<(bool, Option<Style>), [u64; 20]>,
    /// For each event state, how often each kind of event came.
    pub events: [[u64; 8]; 8],
    found: Option<Found>,
}

/// What the call at hand found.
enum Found {
    Packet(bool, Option<Style>, usize),
    Event(u8, u8),
}

impl<M: Mechanism> Watch<M> for Seen {
    fn before(&mut self, machine: &M, record: &Record) {
        let place = machine.place();
        self.found = match *record {
            Record::Packet { bytes, .. } if !place.dropped => Some(Found::Packet(place.resumed, place.transaction, next(bytes))),
            Record::Event { kind, .. } => Some(Found::Event(place.event, kind)),
            _ => None,
        };
    }

    fn answer(&mut self, answer: u8) {
        let accepted = answer == 0 || answer == 8;
        self.calls += 1;
        self.answers[answer as usize] += 1;
        settle(accepted);
        match self.found.take().filter(|_| accepted) {
            Some(Found::Packet(resumed, style, next)) => self.pairs.entry((resumed, style)).or_default()[next] += 1,
            Some(Found::Event(state, kind)) => self.events[state as usize][kind as usize] += 1,
            None => {}
        }
    }
}
