//! The scenes of the kinds `EXTRA`: each is steered to cases that the others seldom reach.

use super::{ALL_PIDS, Bench};
use crate::packets::{data, handshake, setup, split, token};
use crate::usb::PID;
use crate::usb::PID::*;

/// What a walk does behind each PID: the packets that a rule speaks of.
const STEPS: [(PID, &[PID]); 7] = [
    (SPLIT, &[SETUP, IN, OUT]),
    (SETUP, &[DATA0]),
    (IN, &[DATA0, DATA1, MDATA, ACK, NAK, STALL, NYET, ERR]),
    (OUT, &[DATA0, DATA1, ACK, NAK, STALL, NYET, ERR]),
    (PING, &[ACK, NAK, STALL]),
    (DATA0, &[ACK, NAK, STALL, NYET]),
    (DATA1, &[ACK, NAK, STALL, NYET]),
];

/// What a packet may find: the packets that lead there.
const SIMPLE: [&[PID]; 11] =
    [&[], &[SETUP], &[SETUP, DATA0], &[IN], &[IN, DATA0], &[IN, DATA1], &[OUT], &[OUT, DATA0], &[OUT, DATA1], &[PING], &[SOF]];

/// The same behind a SPLIT.
const SPLITS: [&[PID]; 8] = [&[], &[SETUP], &[SETUP, DATA0], &[IN], &[OUT], &[OUT, DATA0], &[OUT, DATA1], &[PING]];

/// The events that lead to each event state, from idle.
const EVENTS: [&[u8]; 8] = [&[], &[0], &[1], &[1, 4], &[1, 4, 5], &[1, 4, 5, 2], &[1, 4, 5, 2, 4], &[1, 4, 5, 2, 4, 6]];

/// What stands between a transaction and the packet that comes to it: nothing, a keepalive that suspends it, an event that ends it.
const BETWEEN: [Option<u8>; 3] = [None, Some(0), Some(7)];

/// A malformed packet for each reason: empty, one bit off ACK, an ACK with a byte behind it, a SETUP with a bit of its CRC5 turned.
const MALFORMED: [&[u8]; 4] = [&[], &[0xD3], &[0xD2, 0x00], &[0x2D, 0x00, 0x11]];

/// Traces in which each packet, and finish, comes to each transaction that it can find, also with an event between, and each event to each
/// event state. An ACK ends any transaction, and any packet the event state.
pub fn every_pair() -> Vec<Vec<u8>> {
    let mut traces = Vec::new();
    for path in SIMPLE {
        for kind in 0..5 {
            let lead = |b: &mut Bench| b.follow(path, kind);
            traces.extend(BETWEEN.map(|between| Bench::new(1).pairs(kind, kind, lead, between)));
            traces.push(Bench::new(1).finished(kind, kind, lead));
        }
    }
    for path in SPLITS {
        for (sc, kind) in [0, 1].into_iter().flat_map(|sc| (0..4).map(move |kind| (sc, kind))) {
            let number = if kind == 0 { 0 } else { 5 };
            let lead = |b: &mut Bench| {
                b.packet(&split(1, sc, 1, kind));
                b.follow(path, number);
            };
            traces.extend(BETWEEN.map(|between| Bench::new(1).pairs(4, number, lead, between)));
            traces.push(Bench::new(1).finished(4, number, lead));
        }
    }
    traces.extend(EVENTS.map(|path| Bench::new(1).events_behind(path)));
    traces
}

impl Bench {
    /// An endpoint of a type; 4 is unknown.
    fn typed(&mut self, kind: u8, number: u8) {
        if kind != 0 && kind != 4 {
            self.detail(0, number, 0, kind, 8);
            self.detail(0, number, 1, kind, 8);
        }
    }

    /// Each packet behind what `lead` plays and an event, on an endpoint of a type.
    fn pairs(mut self, kind: u8, number: u8, lead: impl Fn(&mut Bench), between: Option<u8>) -> Vec<u8> {
        self.typed(kind, number);
        for next in 0..=ALL_PIDS.len() + MALFORMED.len() {
            lead(&mut self);
            if let Some(event) = between {
                self.event(event);
            }
            match ALL_PIDS.get(next) {
                Some(pid) => self.one(*pid, number, 3),
                None if next == ALL_PIDS.len() => self.one(DATA0, number, 8),
                None => self.packet(MALFORMED[next - ALL_PIDS.len() - 1]),
            }
            self.packet(&handshake(ACK));
        }
        self.trace.bytes
    }

    fn finished(mut self, kind: u8, number: u8, lead: impl Fn(&mut Bench)) -> Vec<u8> {
        self.typed(kind, number);
        lead(&mut self);
        self.trace.bytes
    }

    /// Each event behind some others.
    fn events_behind(mut self, path: &[u8]) -> Vec<u8> {
        for kind in 0..8 {
            path.iter().for_each(|kind| self.event(*kind));
            self.event(kind);
            self.packet(&handshake(ACK));
        }
        self.trace.bytes
    }

    fn follow(&mut self, path: &[PID], number: u8) {
        path.iter().for_each(|pid| self.one(*pid, number, 8));
    }

    /// A packet of a PID to address 0, data of so many bytes.
    fn one(&mut self, pid: PID, number: u8, length: u64) {
        let packet = match pid {
            SOF => self.next_frame(),
            SPLIT => split(1, 0, 1, 2),
            OUT | IN | SETUP | PING => token(pid, 0, number),
            DATA0 | DATA1 | DATA2 | MDATA => data(pid, &self.payload(length)),
            _ => handshake(pid),
        };
        self.packet(&packet);
    }

    /// Endpoints whose types are known beforehand, number by type; 5 stays unknown.
    fn place_of_type(&mut self) -> (u8, u8) {
        (self.random.below(2) as u8, self.random.pick(&[0, 1, 2, 3, 4, 5]))
    }

    fn of_pid(&mut self, pid: PID, (address, number): (u8, u8)) -> Vec<u8> {
        match pid {
            SOF => self.next_frame(),
            SPLIT => {
                let (sc, kind) = (self.random.below(2) as u8, self.random.below(4) as u8);
                split(1, sc, 1, kind)
            }
            OUT | IN | SETUP | PING => token(pid, address, number),
            DATA0 | DATA1 | DATA2 | MDATA => {
                let count = self.random.pick(&[0, 8, 8, 8, 7, 9, 64]);
                data(pid, &self.payload(count))
            }
            _ => handshake(pid),
        }
    }

    /// Steps that rules speak of, up to any depth, then a packet of any PID or a malformed one; now and then an event.
    pub(super) fn walk(&mut self) {
        if self.trace.records == 0 {
            for address in 0..2 {
                self.known_detail(address, 0, 0, 0, 8);
                for kind in 0..4 {
                    let direction = self.random.below(2) as u8;
                    self.known_detail(address, kind + 1, direction, kind, 8);
                    self.known_detail(address, kind + 1, 1 - direction, kind, 8);
                }
            }
        }
        let place = self.place_of_type();
        let mut pid = self.random.pick(&[SPLIT, SPLIT, SPLIT, SPLIT, SETUP, IN, IN, OUT, OUT, PING, SOF]);
        for _ in 0..self.random.below(4) + 1 {
            let packet = self.of_pid(pid, place);
            self.packet(&packet);
            match STEPS.iter().find(|(last, _)| *last == pid) {
                Some((_, next)) => pid = self.random.pick(next),
                None => break,
            }
            if self.random.chance(3) {
                let kind = self.random.pick(&[0, 0, 0, 1, 7]);
                self.event(kind);
            }
        }
        let any = self.random.below(17) as usize;
        let packet = match ALL_PIDS.get(any) {
            Some(pid) => self.of_pid(*pid, place),
            None if any == 15 => data(DATA0, &[0; 8]),
            None => vec![0xD3],
        };
        self.packet(&packet);
    }

    /// A control transfer whose stages come in any order, plain or split, some of them refused.
    pub(super) fn stages(&mut self) {
        let (address, number) = (self.random.below(2) as u8, 0);
        if self.random.chance(10) {
            let kind = self.random.below(8) as u8;
            self.event(kind);
        }
        let kind = self.random.pick(&[0x00, 0x80, 0x21, 0xC0]);
        let request = setup(kind, self.random.pick(&[5, 6, 9]), 1, 0, self.random.pick(&[0, 8]));
        if self.random.chance(80) {
            self.stage_transaction(SETUP, address, number, &request);
        }
        for _ in 0..self.random.below(5) + 1 {
            let pid = self.random.pick(&[IN, IN, IN, OUT, OUT, OUT, PING, PING, SETUP]);
            if self.random.chance(5) {
                self.event(7);
            }
            self.stage_transaction(pid, address, number, &request);
        }
        if self.random.chance(10) {
            self.outlives_an_event(address);
        }
    }

    /// A start's OUT payload waits, an event ends its group, and the start of an IN takes the payload.
    fn outlives_an_event(&mut self, address: u8) {
        self.event(7);
        self.split_data(0, OUT, address, 0, &[1; 8]);
        self.event(7);
        self.split_data(0, IN, address, 0, &[2; 8]);
    }

    /// A transaction of a control transfer: plain, or a start and some completes.
    fn stage_transaction(&mut self, pid: PID, address: u8, number: u8, request: &[u8; 8]) {
        let payload = match pid {
            SETUP => request.to_vec(),
            _ => {
                let count = self.random.pick(&[8, 8, 4, 0]);
                self.payload(count)
            }
        };
        let name = if pid == SETUP { DATA0 } else { self.toggle() };
        let answer = self.random.pick(&[ACK, ACK, ACK, ACK, NAK, STALL, NYET]);
        if pid == PING || self.random.chance(60) {
            self.packet(&token(pid, address, number));
            match (pid, answer) {
                (IN, NAK | STALL) | (PING, _) => {}
                _ => self.packet(&data(name, &payload)),
            }
            return self.packet(&handshake(answer));
        }
        if self.random.chance(90) {
            self.packet(&split(1, 0, 1, 0));
            self.packet(&token(pid, address, number));
            if pid != IN {
                self.packet(&data(name, &payload));
            }
            let answer = self.random.pick(&[ACK, ACK, ACK, NAK]);
            self.packet(&handshake(answer));
        }
        for _ in 0..self.random.below(3) {
            self.packet(&split(1, 1, 1, 0));
            self.packet(&token(pid, address, number));
            if pid == IN && self.random.chance(60) {
                self.packet(&data(name, &payload));
            } else {
                self.packet(&handshake(answer));
            }
        }
    }

    /// Transactions of one endpoint, of any type, whose success and length turn often; plain or by splits, whose waiting payloads count later.
    pub(super) fn transfers(&mut self) {
        let (address, number) = (self.random.below(2) as u8, self.random.below(3) as u8 + 1);
        let kind = self.random.below(4) as u8;
        let pid = self.random.pick(&[IN, OUT]);
        if self.random.chance(50) {
            self.known_detail(address, number, (pid == IN) as u8, kind, 8);
        }
        for _ in 0..self.random.below(8) + 2 {
            let count = self.random.pick(&[8, 8, 8, 4, 0]);
            let payload = self.payload(count);
            let answer = self.random.pick(&[ACK, ACK, ACK, NAK, STALL, NYET]);
            match self.random.below(8) {
                0..=2 => self.data_transaction(pid, address, number, &payload, answer),
                3 => {
                    self.packet(&token(pid, address, number));
                    self.packet(&handshake(answer));
                }
                4 => {
                    self.packet(&token(PING, address, number));
                    self.packet(&handshake(answer));
                }
                _ => self.split_data(kind, pid, address, number, &payload),
            }
        }
    }

    /// A start and its completes, as the type has them.
    fn split_data(&mut self, kind: u8, pid: PID, address: u8, number: u8, payload: &[u8]) {
        self.packet(&split(1, 0, 1, kind));
        self.packet(&token(pid, address, number));
        if pid == OUT {
            self.packet(&data(DATA0, payload));
        }
        if kind == 0 || kind == 2 {
            let answer = self.random.pick(&[ACK, ACK, ACK, NAK]);
            self.packet(&handshake(answer));
        }
        for _ in 0..self.random.below(3) {
            self.packet(&split(1, 1, 1, kind));
            self.packet(&token(pid, address, number));
            let answer = self.random.pick(&[ACK, ACK, NYET, NAK, STALL, ERR]);
            if pid == IN && self.random.chance(60) {
                self.packet(&data(DATA1, payload));
            } else {
                self.packet(&handshake(answer));
            }
        }
    }

    /// Many addresses and numbers: the most devices and endpoints are soon reached, by tokens or by SET_ADDRESS.
    pub(super) fn crowd(&mut self) {
        let (address, number) = (self.random.below(128) as u8, self.random.below(16) as u8);
        match self.random.below(8) {
            0 => {
                let value = self.random.below(256) as u16;
                self.control(address % 64, 0, setup(0x00, 5, value, 0, 0));
            }
            1 => {
                let kind = self.random.below(8) as u8;
                self.event(kind);
            }
            _ => {
                let pid = self.random.pick(&[IN, OUT, SETUP, PING]);
                let address = if self.random.chance(80) { address % 50 } else { address };
                self.token(pid, address, number);
                let answer = self.random.pick(&[ACK, NAK]);
                self.handshake(answer);
            }
        }
    }
}
