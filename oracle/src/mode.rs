//! The mode of change request 6, high-bandwidth isochronous data. It is chosen at the fresh decoder, and no call changes it: so a decoder in the mode
//! is another one (changes/high.txt), and the one without it is as it was.

use crate::calls::{Mechanism, Style};
use crate::coverage::{CASES, Case, HIGH_CASES};
use crate::ledger::Told;
use crate::usb::PID;
use crate::{counted, decoder, high, traced};

/// A decoder's mode, with the decoders that are right in it: as it is, counting its cases, and with an account of what it counts.
pub trait Mode: Default {
    const HIGH: bool;
    const CASES: &'static [Case];
    type Machine: Mechanism;
    type Counted: Mechanism;
    type Traced: Told;
}

/// Without the mode: document 01 and the Rust.
#[derive(Default)]
pub struct Plain;

impl Mode for Plain {
    const HIGH: bool = false;
    const CASES: &'static [Case] = CASES;
    type Machine = decoder::machine::Machine;
    type Counted = counted::machine::Machine;
    type Traced = traced::machine::Machine;
}

/// In the mode.
#[derive(Default)]
pub struct High;

impl Mode for High {
    const HIGH: bool = true;
    const CASES: &'static [Case] = HIGH_CASES;
    type Machine = high::decoder::machine::Machine;
    type Counted = high::counted::machine::Machine;
    type Traced = high::traced::machine::Machine;
}

/// Whether a packet of a PID yields a payload, where a transaction takes it and it is no setup data.
pub fn yields(high: bool, pid: PID) -> bool {
    match pid {
        PID::DATA0 | PID::DATA1 => true,
        PID::DATA2 | PID::MDATA => high,
        _ => false,
    }
}

/// The PID and the status of a packet behind a transaction, by the decoder that is right.
pub fn status_behind(high: bool, found: Option<Style>, packet: &[u8]) -> (u8, &'static str) {
    match high {
        false => decoder::machine::status_behind(found, packet),
        true => high::decoder::machine::status_behind(found, packet),
    }
}
