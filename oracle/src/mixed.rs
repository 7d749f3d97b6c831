//! The mixed sequence by which the speed of the calls is measured: SOFs, bulk IN and OUT, NAKs, interrupt polls, control transfers, a few
//! splits and malformed packets.

use crate::packets::{data, handshake, setup, sof, split, token};
use crate::trace::Writer;
use crate::usb::PID::{self, *};

const PACKETS: u64 = 200_000;

/// A trace of 200,000 packets, always the same for a length; the payloads of bulk transfers and the descriptors have at most so many bytes.
/// A packet's time is its number.
pub fn mixed(longest: usize) -> Vec<u8> {
    let mut bus = Bus { trace: Writer::default(), random: 1, longest, toggles: [false; 128] };
    let mut frame = 0;
    while bus.trace.records < PACKETS {
        bus.frame(frame);
        frame += 1;
    }
    bus.trace.bytes
}

struct Bus {
    trace: Writer,
    random: u64,
    longest: usize,
    toggles: [bool; 128],
}

impl Bus {
    /// A generator of its own, under which the figures of docs/SPEED.md were taken.
    fn below(&mut self, n: u64) -> u64 {
        self.random = self.random.wrapping_mul(6364136223846793005).wrapping_add(1442695040888963407);
        (self.random >> 33) % n
    }

    fn send(&mut self, packet: &[u8]) {
        if self.trace.records < PACKETS {
            self.trace.packet(self.trace.records as u32, packet);
        }
    }

    fn filled(&mut self, length: usize) -> Vec<u8> {
        (0..length).map(|_| self.below(256) as u8).collect()
    }

    /// A bulk or interrupt transaction with data; the toggle turns with each that is acknowledged.
    fn moved(&mut self, pid: PID, address: u8, number: u8, length: usize, end: PID) {
        self.send(&token(pid, address, number));
        let place = address as usize * 16 + number as usize;
        let payload = self.filled(length);
        self.send(&data(if self.toggles[place] { DATA1 } else { DATA0 }, &payload));
        self.toggles[place] ^= end == ACK;
        self.send(&handshake(end));
    }

    fn refused(&mut self, address: u8, number: u8) {
        self.send(&token(IN, address, number));
        self.send(&handshake(NAK));
    }

    /// A control transfer that reads 18 bytes (USB 2.0, 9.4.3).
    fn control(&mut self, address: u8) {
        self.send(&token(SETUP, address, 0));
        self.send(&data(DATA0, &setup(0x80, 6, 0x0100, 0, 18)));
        self.send(&handshake(ACK));
        let descriptor = self.filled(self.longest.min(18));
        self.send(&token(IN, address, 0));
        self.send(&data(DATA1, &descriptor));
        self.send(&handshake(ACK));
        self.send(&token(OUT, address, 0));
        self.send(&data(DATA1, &[]));
        self.send(&handshake(ACK));
    }

    /// An interrupt IN of a slow device, by its hub: start, then complete.
    fn splits(&mut self) {
        for complete in 0..2 {
            self.send(&split(3, complete, 1, 3));
            self.send(&token(IN, 4, 1));
        }
        if self.below(2) == 0 {
            self.send(&handshake(NYET));
        } else {
            let payload = self.filled(4);
            self.send(&data(DATA0, &payload));
        }
    }

    fn malformed(&mut self) {
        let length = self.below(9) as usize;
        let packet = self.filled(length);
        self.send(&packet);
    }

    fn frame(&mut self, number: u16) {
        self.send(&sof(number));
        let bulk = self.longest.min(512);
        for _ in 0..12 {
            let address = 1 + self.below(2) as u8;
            match self.below(64) {
                0..=23 => self.moved(IN, address, 1, bulk, ACK),
                24..=43 => self.moved(OUT, address, 2, bulk, ACK),
                44..=45 => self.moved(OUT, address, 2, bulk, NAK),
                46..=53 => self.refused(address, 1),
                54..=57 => self.refused(address, 3),
                58..=59 => self.moved(IN, address, 3, 8, ACK),
                60..=61 => self.control(address),
                62 => self.splits(),
                _ => self.malformed(),
            }
        }
    }
}
