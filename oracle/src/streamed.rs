//! The scenes of the kind `camera` (change request 6): endpoints with up to three isochronous transactions in a microframe (USB 2.0, 5.9.2), and
//! data that come in parts through a hub. Types are known by descriptors, by details, wrongly, or not at all.

use super::Bench;
use crate::chapter9::{configuration, device, endpoint, interface};
use crate::packets::{setup, split};
use crate::usb::PID::{self, *};

const ISOCHRONOUS: u8 = 1;
const INTERRUPT: u8 = 3;

impl Bench {
    pub(super) fn camera(&mut self) {
        match self.random.below(12) {
            0..7 => self.stream(),
            7..11 => self.behind_hub(),
            _ => self.read_behind_hub(),
        }
    }

    /// Some microframes of one endpoint.
    fn stream(&mut self) {
        let (address, number) = (self.random.below(3) as u8, self.random.below(2) as u8 + 1);
        let pid = self.random.pick(&[IN, OUT]);
        let (direction, max) = ((pid == IN) as u8, self.random.pick(&[8, 8, 16, 64]));
        match self.random.below(10) {
            0..3 => self.described_as(address, number | direction << 7, ISOCHRONOUS, max),
            3..6 => self.known_detail(address, number, direction, ISOCHRONOUS, max),
            6 => {
                let kind = self.random.pick(&[0, 2, INTERRUPT]);
                self.known_detail(address, number, direction, kind, max);
            }
            7 => {
                let attributes = self.random.pick(&[2, 3, 5, 13]);
                self.described_as(address, number | direction << 7, attributes, max);
            }
            _ => {}
        }
        for _ in 0..self.random.below(4) + 1 {
            self.microframe(pid, address, number, max);
        }
    }

    /// A device whose endpoint is in an interface's alternate setting 1, or in 0: read, chosen, set.
    fn described_as(&mut self, address: u8, place: u8, attributes: u8, max: u16) {
        let transactions = self.random.pick(&[0x0000, 0x0800, 0x1000]);
        let alternate = self.random.pick(&[0, 1, 1]);
        let mut parts = vec![interface(0, alternate, 1, 14), endpoint(place, attributes, max | transactions)];
        if alternate == 1 {
            parts.insert(0, interface(0, 0, 0, 14));
        }
        let bytes = configuration(1, &parts);
        self.read(address, setup(0x80, 6, 0x0200, 0, bytes.len() as u16), &bytes, 64);
        self.control(address, 0, setup(0x00, 9, 1, 0, 0));
        if alternate == 1 {
            self.control(address, 0, setup(0x01, 11, 1, 0, 0));
        }
    }

    /// One to three transactions, with the PIDs that 5.9.2 has for them, now and then with another.
    fn microframe(&mut self, pid: PID, address: u8, number: u8, max: u16) {
        let frame = self.next_frame();
        self.send(&frame);
        let names: &[PID] = match (pid, self.random.below(4)) {
            (_, 0) => &[DATA0],
            (IN, 1) => &[DATA1, DATA0],
            (IN, _) => &[DATA2, DATA1, DATA0],
            (_, 1) => &[MDATA, DATA1],
            _ => &[MDATA, MDATA, DATA2],
        };
        for name in names {
            let name = if self.random.chance(8) { self.random.pick(&[DATA0, DATA1, DATA2, MDATA]) } else { *name };
            self.token(pid, address, number);
            if self.random.chance(4) {
                let kind = self.random.pick(&[0, 0, 0, 7]);
                self.event(kind);
            }
            // Too late for this transaction. The device at 0 always stands.
            if address == 0 && self.random.chance(3) {
                self.detail(0, number, (pid == IN) as u8, ISOCHRONOUS, max);
            }
            let count = self.random.pick(&[max, max, max, max - 1, 0, max + 1]);
            let payload = self.payload(count as u64);
            self.data(name, &payload);
            if self.random.chance(3) {
                self.handshake(ACK);
            }
        }
    }

    /// A start, and completes whose data come in parts: MDATA says that more follow.
    fn behind_hub(&mut self) {
        let (address, number) = (self.random.below(3) as u8, self.random.below(2) as u8 + 1);
        let (kind, pid) = (self.random.pick(&[ISOCHRONOUS, INTERRUPT]), self.random.pick(&[IN, IN, IN, OUT]));
        if self.random.chance(40) {
            self.known_detail(address, number, (pid == IN) as u8, kind, 8);
        }
        self.send(&split(1, 0, 1, kind));
        self.token(pid, address, number);
        if pid == OUT {
            let name = self.random.pick(&[DATA0, DATA0, DATA1, DATA2, MDATA]);
            let payload = self.payload(8);
            self.data(name, &payload);
        }
        for _ in 0..self.random.below(4) + 1 {
            self.send(&split(1, 1, 1, kind));
            self.token(pid, address, number);
            if pid == IN && self.random.chance(80) {
                let name = self.random.pick(&[MDATA, MDATA, MDATA, DATA0, DATA1, DATA2]);
                let count = self.random.pick(&[8, 8, 4, 0]);
                let payload = self.payload(count);
                self.data(name, &payload);
            } else {
                let answer = self.random.pick(&[ACK, NYET, NYET, ERR, NAK]);
                self.handshake(answer);
            }
        }
    }

    /// A read whose data come as MDATA of an interrupt or isochronous split to number 0. No hub does so, but the rules take it.
    fn read_behind_hub(&mut self) {
        let address = self.random.below(3) as u8;
        let bytes = device(self.random.pick(&[8, 64]));
        self.setup_stage(address, 0, &setup(0x80, 6, 0x0100, 0, 18));
        let kind = self.random.pick(&[ISOCHRONOUS, INTERRUPT]);
        for part in bytes.chunks(8) {
            self.send(&split(1, 1, 1, kind));
            self.token(IN, address, 0);
            let name = self.random.pick(&[MDATA, MDATA, MDATA, DATA0]);
            self.data(name, part);
        }
        // One more than the request asks for, or none; then the status stage.
        if self.random.chance(20) {
            self.send(&split(1, 1, 1, kind));
            self.token(IN, address, 0);
            self.data(MDATA, &[1, 2, 3]);
        }
        self.stage(OUT, address, 0, &[]);
        // No data belong to it: what comes is not used.
        if self.random.chance(30) {
            self.setup_stage(address, 0, &setup(0x00, 9, 1, 0, 0));
            self.send(&split(1, 1, 1, kind));
            self.token(IN, address, 0);
            self.data(MDATA, &[4, 5]);
        }
    }
}
