//! Traces that look like a bench, made from a seed: the same seed always gives the same bytes.

use crate::packets::{data, handshake, setup, sof, split, token};
use crate::trace::Writer;
use crate::usb::PID;
use crate::usb::PID::*;

#[path = "described.rs"]
mod described;
#[path = "steered.rs"]
pub mod steered;
#[path = "streamed.rs"]
mod streamed;

/// A small random generator (splitmix64).
pub struct Random(u64);

impl Random {
    pub fn new(seed: u64) -> Self {
        Random(seed)
    }

    /// The generator of a number under a seed: those of other numbers and seeds go other ways.
    pub fn of(seed: u64, number: u64) -> Self {
        Random(Random(seed).next() ^ number)
    }

    pub fn next(&mut self) -> u64 {
        self.0 = self.0.wrapping_add(0x9E37_79B9_7F4A_7C15);
        let mut x = self.0;
        x = (x ^ x >> 30).wrapping_mul(0xBF58_476D_1CE4_E5B9);
        x = (x ^ x >> 27).wrapping_mul(0x94D0_49BB_1331_11EB);
        x ^ x >> 31
    }

    /// A number below a bound.
    pub fn below(&mut self, bound: u64) -> u64 {
        self.next() % bound
    }

    /// True so many times in a hundred.
    pub fn chance(&mut self, percent: u64) -> bool {
        self.below(100) < percent
    }

    pub fn pick<T: Copy>(&mut self, of: &[T]) -> T {
        of[self.below(of.len() as u64) as usize]
    }

    pub fn bytes(&mut self, count: u64) -> Vec<u8> {
        (0..count).map(|_| self.next() as u8).collect()
    }
}

const ALL_PIDS: [PID; 15] = [OUT, IN, SOF, SETUP, PING, SPLIT, DATA0, DATA1, DATA2, MDATA, ACK, NAK, STALL, NYET, ERR];

/// The kinds of trace, each with its scene. `mixed` plays all the others, with noise between the packets.
pub const KINDS: [(&str, fn(&mut Bench)); 16] = [
    ("enumeration", Bench::enumeration),
    ("bulk", Bench::bulk),
    ("isochronous", Bench::isochronous),
    ("interrupt", Bench::interrupt),
    ("split", Bench::split_transfer),
    ("sof", Bench::frames),
    ("malformed", Bench::malformed),
    ("event", Bench::events),
    ("chirp", Bench::chirp),
    ("keepalive", Bench::keepalive),
    ("detail", Bench::details),
    ("address", Bench::address),
    ("time", Bench::times),
    ("refused", Bench::refused),
    ("soup", Bench::soup),
    ("mixed", Bench::mixed),
];

/// Kinds that the comparison plays besides, to reach what the scenes above seldom do. They stand apart, since traces/ and the runs of
/// crates/runs are made of the others.
pub const EXTRA: [(&str, fn(&mut Bench)); 7] = [
    ("walk", Bench::walk),
    ("stages", Bench::stages),
    ("transfers", Bench::transfers),
    ("crowd", Bench::crowd),
    DESCRIBED[0],
    DESCRIBED[1],
    TYPED,
];

/// Those of them that read descriptors (change request 2).
pub const DESCRIBED: [(&str, fn(&mut Bench)); 2] = [("descriptors", Bench::descriptors), ("reread", Bench::reread)];

/// The one of them in which details and descriptors meet (change request 13).
const TYPED: (&str, fn(&mut Bench)) = ("typed", Bench::retyped);

/// The kind of change request 6. It is played in the mode alone, and stands apart from all others, so that what is made of those stays as it is.
pub const CAMERA: (&str, fn(&mut Bench)) = ("camera", Bench::camera);

/// The kinds that random calls are made of, in the mode of change request 6 or without it.
pub fn kinds(high: bool) -> Vec<(&'static str, fn(&mut Bench))> {
    let mut kinds = [&KINDS[..], &EXTRA].concat();
    if high {
        // As often as four of the others.
        kinds.extend([CAMERA; 4]);
    }
    kinds
}

/// A trace of n records of a kind, or none where there is no such kind.
pub fn generate(seed: u64, n: u64, kind: &str) -> Option<Vec<u8>> {
    let (_, scene) = KINDS.iter().chain(&EXTRA).chain([&CAMERA]).find(|(name, _)| *name == kind)?;
    let mut bench = Bench::new(seed);
    if kind == "mixed" {
        bench.noise = 6;
    } else if DESCRIBED.iter().chain([&TYPED, &CAMERA]).any(|(name, _)| *name == kind) {
        // Most of these traces run undisturbed, so that the reads in them come to their end.
        bench.noise = [0, 0, 0, 1, 3][seed as usize % 5];
    }
    while bench.trace.records < n {
        scene(&mut bench);
    }
    Some(bench.cut(n))
}

/// The bus as the scenes play it.
pub struct Bench {
    random: Random,
    trace: Writer,
    /// Where each record starts.
    starts: Vec<usize>,
    ticks: u32,
    /// In a hundred packets so many are disturbed.
    noise: u64,
    frame: u16,
}

impl Bench {
    pub fn new(seed: u64) -> Self {
        let mut random = Random::new(seed);
        let ticks = random.next() as u32;
        Bench { random, trace: Writer::default(), starts: Vec::new(), ticks, noise: 0, frame: 0 }
    }

    pub fn cut(mut self, n: u64) -> Vec<u8> {
        if let Some(end) = self.starts.get(n as usize) {
            self.trace.bytes.truncate(*end);
        }
        self.trace.bytes
    }

    fn tick(&mut self) -> u32 {
        self.starts.push(self.trace.bytes.len());
        self.ticks = self.ticks.wrapping_add(self.random.below(2000) as u32);
        self.ticks
    }

    fn packet(&mut self, bytes: &[u8]) {
        let ticks = self.tick();
        self.trace.packet(ticks, bytes);
    }

    fn event(&mut self, kind: u8) {
        let code = self.random.next() as u8;
        let ticks = self.tick();
        self.trace.event(ticks, kind, code);
    }

    fn detail(&mut self, address: u8, number: u8, direction: u8, kind: u8, max: u16) {
        self.starts.push(self.trace.bytes.len());
        self.trace.detail(address, number, direction, kind, max);
    }

    /// A detail for a device that stands. Of two tokens at least one reaches it: the first may be the packet that is answered 8.
    fn known_detail(&mut self, address: u8, number: u8, direction: u8, kind: u8, max: u16) {
        self.packet(&token(IN, address, number));
        self.packet(&token(IN, address, number));
        self.packet(&handshake(NAK));
        self.detail(address, number, direction, kind, max);
    }

    /// A packet, disturbed now and then: lost, sent twice, damaged, or with something before it.
    fn send(&mut self, bytes: &[u8]) {
        if !self.random.chance(self.noise) {
            return self.packet(bytes);
        }
        match self.random.below(8) {
            0 => {}
            1 => {
                self.packet(bytes);
                self.packet(bytes);
            }
            2 => {
                let mut damaged = bytes.to_vec();
                let place = self.random.below(damaged.len() as u64) as usize;
                damaged[place] ^= 1 << self.random.below(8);
                self.packet(&damaged);
            }
            3 => {
                self.event(0);
                self.packet(bytes);
            }
            4 => {
                let kind = self.random.below(8) as u8;
                self.event(kind);
                self.packet(bytes);
            }
            5 => {
                let frame = self.next_frame();
                self.packet(&frame);
                self.packet(bytes);
            }
            6 => {
                let pid = self.random.pick(&[ACK, NAK, STALL, NYET]);
                self.packet(&handshake(pid));
                self.packet(bytes);
            }
            _ => {
                let wrong = self.any_packet();
                self.packet(&wrong);
                self.packet(bytes);
            }
        }
    }

    fn token(&mut self, pid: PID, address: u8, number: u8) {
        self.send(&token(pid, address, number));
    }

    fn data(&mut self, pid: PID, payload: &[u8]) {
        self.send(&data(pid, payload));
    }

    fn handshake(&mut self, pid: PID) {
        self.send(&handshake(pid));
    }

    /// The next SOF.
    fn next_frame(&mut self) -> Vec<u8> {
        self.frame = self.frame.wrapping_add(1);
        sof(self.frame)
    }

    fn payload(&mut self, count: u64) -> Vec<u8> {
        self.random.bytes(count)
    }

    /// A few addresses and numbers, so that traffic meets.
    fn place(&mut self) -> (u8, u8) {
        (self.random.below(4) as u8, self.random.below(4) as u8)
    }

    fn toggle(&mut self) -> PID {
        self.random.pick(&[DATA0, DATA1])
    }

    /// Any valid packet.
    fn any_packet(&mut self) -> Vec<u8> {
        let (address, number) = self.place();
        match self.random.pick(&ALL_PIDS) {
            SOF => sof(self.random.next() as u16),
            SPLIT => {
                let (sc, kind) = (self.random.below(2) as u8, self.random.below(4) as u8);
                split(1, sc, 1, kind)
            }
            pid @ (OUT | IN | SETUP | PING) => token(pid, address, number),
            pid @ (DATA0 | DATA1 | DATA2 | MDATA) => {
                let count = self.random.pick(&[0, 1, 7, 8, 8, 8, 9, 63, 64]);
                data(pid, &self.payload(count))
            }
            pid => handshake(pid),
        }
    }

    // ---- control transfers

    /// SETUP, its DATA0 and ACK.
    fn setup_stage(&mut self, address: u8, number: u8, bytes: &[u8; 8]) {
        self.token(SETUP, address, number);
        self.data(DATA0, bytes);
        self.handshake(ACK);
    }

    /// A transaction of a control transfer, with NAKs before it.
    fn stage(&mut self, pid: PID, address: u8, number: u8, payload: &[u8]) {
        while self.random.chance(20) {
            self.token(pid, address, number);
            if pid == OUT {
                self.data(DATA1, payload);
            }
            self.handshake(NAK);
        }
        if pid == OUT && self.random.chance(10) {
            self.token(PING, address, number);
            self.handshake(ACK);
        }
        self.token(pid, address, number);
        let toggle = self.toggle();
        self.data(toggle, payload);
        let answer = if pid == OUT && self.random.chance(10) { NYET } else { ACK };
        self.handshake(answer);
    }

    /// A control transfer as the request's direction and length ask; some end with STALL or break off.
    fn control(&mut self, address: u8, number: u8, request: [u8; 8]) {
        self.setup_stage(address, number, &request);
        let length = u16::from_le_bytes([request[6], request[7]]) as u64;
        let to_host = request[0] & 0x80 != 0;
        let (forth, back) = if to_host { (IN, OUT) } else { (OUT, IN) };
        let mut left = length;
        while left > 0 {
            let part = left.min(8);
            let payload = self.payload(part);
            self.stage(forth, address, number, &payload);
            left -= part;
            if self.random.chance(5) {
                self.token(forth, address, number);
                return self.handshake(STALL);
            }
        }
        if !self.random.chance(8) {
            let status = if length == 0 && to_host { OUT } else { back };
            self.stage(status, address, number, &[]);
        }
    }

    fn enumeration(&mut self) {
        let address = self.random.below(3) as u8 + 1;
        self.control(0, 0, setup(0x80, 6, 0x0100, 0, 18));
        self.control(0, 0, setup(0x00, 5, address as u16, 0, 0));
        self.control(address, 0, setup(0x80, 6, 0x0100, 0, 18));
        self.control(address, 0, setup(0x80, 6, 0x0200, 0, 32));
        self.control(address, 0, setup(0x00, 9, 1, 0, 0));
    }

    /// SET_ADDRESS in all its forms, and requests that look like it.
    fn address(&mut self) {
        let (from, number) = (self.random.below(3) as u8, self.random.pick(&[0, 0, 0, 1]));
        let kind = self.random.pick(&[0x00, 0x00, 0x00, 0x80, 0x20, 0x40, 0x1F]);
        let request = self.random.pick(&[5, 5, 5, 9]);
        let value = self.random.pick(&[0, 1, 2, 3, 127, 128, 255, 256, 257]);
        let length = self.random.pick(&[0, 0, 0, 8]);
        self.control(from, number, setup(kind, request, value, 0, length));
        let (address, number) = self.place();
        self.token(IN, address, number);
        self.handshake(NAK);
    }

    // ---- data transfers

    fn bulk(&mut self) {
        let (address, number) = (self.random.below(3) as u8, self.random.below(3) as u8 + 1);
        let max = self.random.pick(&[8u64, 16, 64]);
        if self.random.chance(30) {
            let direction = self.random.below(2) as u8;
            self.known_detail(address, number, direction, 2, max as u16);
        }
        let pid = self.random.pick(&[IN, OUT]);
        for _ in 0..self.random.below(8) + 1 {
            self.bulk_transaction(pid, address, number, max);
        }
        let count = self.random.below(max);
        let short = self.payload(count);
        self.data_transaction(pid, address, number, &short, ACK);
    }

    fn bulk_transaction(&mut self, pid: PID, address: u8, number: u8, max: u64) {
        match self.random.below(10) {
            0 | 1 if pid == IN => {
                self.token(IN, address, number);
                self.handshake(NAK);
            }
            2 if pid == OUT => {
                let answer = self.random.pick(&[ACK, NAK, STALL]);
                self.token(PING, address, number);
                self.handshake(answer);
            }
            3 => {
                let answer = self.random.pick(&[NAK, STALL, NYET]);
                let payload = self.payload(max);
                self.data_transaction(pid, address, number, &payload, answer);
            }
            _ => {
                let payload = self.payload(max);
                self.data_transaction(pid, address, number, &payload, ACK);
            }
        }
    }

    fn data_transaction(&mut self, pid: PID, address: u8, number: u8, payload: &[u8], answer: PID) {
        self.token(pid, address, number);
        let toggle = self.toggle();
        self.data(toggle, payload);
        self.handshake(answer);
    }

    fn isochronous(&mut self) {
        let (address, number) = (self.random.below(2) as u8, self.random.below(2) as u8 + 1);
        let pid = self.random.pick(&[IN, OUT]);
        if self.random.chance(60) {
            self.known_detail(address, number, (pid == IN) as u8, 1, 64);
        }
        for _ in 0..self.random.below(6) + 2 {
            let frame = self.next_frame();
            self.send(&frame);
            self.token(pid, address, number);
            let count = self.random.pick(&[64, 63, 0, 65]);
            let payload = self.payload(count);
            let name = self.random.pick(&[DATA0, DATA0, DATA1, DATA2, MDATA]);
            self.data(name, &payload);
        }
    }

    fn interrupt(&mut self) {
        let (address, number) = (self.random.below(2) as u8, self.random.below(2) as u8 + 1);
        if self.random.chance(50) {
            self.known_detail(address, number, 1, 3, 8);
        }
        for _ in 0..self.random.below(6) + 2 {
            self.token(IN, address, number);
            if self.random.chance(70) {
                self.handshake(NAK);
            } else {
                let count = self.random.pick(&[8, 4]);
                let payload = self.payload(count);
                self.data(DATA0, &payload);
                self.handshake(ACK);
            }
        }
    }

    // ---- splits

    /// A split transaction of each type, start and complete, right or wrong in one place.
    fn split_transfer(&mut self) {
        let kind = self.random.below(4) as u8;
        let (address, number) = (self.random.below(3) as u8, if kind == 0 { 0 } else { self.random.below(3) as u8 + 1 });
        let pid = match kind {
            0 => self.random.pick(&[SETUP, IN, OUT]),
            _ => self.random.pick(&[IN, OUT]),
        };
        self.split_phase(0, kind, pid, address, number);
        for _ in 0..self.random.below(3) + 1 {
            self.split_phase(1, kind, pid, address, number);
        }
    }

    fn split_phase(&mut self, sc: u8, kind: u8, pid: PID, address: u8, number: u8) {
        self.send(&split(1, sc, 1, kind));
        if self.random.chance(4) {
            return self.send(&split(1, sc, 1, kind));
        }
        let pid = if self.random.chance(5) { self.random.pick(&[SETUP, IN, OUT, PING]) } else { pid };
        self.token(pid, address, number);
        let carries = (sc == 0 && pid != IN) || (sc == 1 && pid == IN && self.random.chance(60));
        if carries {
            let name = match pid {
                SETUP => DATA0,
                _ => self.random.pick(&[DATA0, DATA1, DATA0, MDATA]),
            };
            let count = if pid == SETUP { self.random.pick(&[8, 8, 8, 7]) } else { self.random.pick(&[8, 8, 4, 0]) };
            let mut payload = self.payload(count);
            if pid == SETUP && count == 8 {
                let length = self.random.pick(&[0, 8]);
                payload = setup(self.random.pick(&[0x00, 0x80]), self.random.pick(&[6, 5, 9]), 1, 0, length).to_vec();
            }
            self.data(name, &payload);
            if sc == 1 {
                return;
            }
        }
        if self.random.chance(85) {
            let answer = self.random.pick(&[ACK, ACK, ACK, NYET, NAK, STALL, ERR]);
            self.handshake(answer);
        }
    }

    // ---- frames, malformed packets, events

    fn frames(&mut self) {
        for _ in 0..self.random.below(5) + 1 {
            let frame = self.next_frame();
            self.send(&frame);
        }
        if self.random.chance(40) {
            self.interrupt();
        }
    }

    /// Each way in which a packet can be wrong.
    fn malformed(&mut self) {
        let (address, number) = self.place();
        let bad = match self.random.below(11) {
            0 => vec![],
            1 => vec![self.random.next() as u8],
            2 => vec![ACK as u8, 0],
            3 => token(IN, address, number)[..2].to_vec(),
            4 => {
                let mut packet = token(OUT, address, number);
                packet[2] ^= 1 << self.random.below(8);
                packet
            }
            5 => {
                let mut packet = split(1, 0, 1, 2);
                packet[3] ^= 8;
                packet
            }
            6 => data(DATA0, &self.random.bytes(8))[..10].to_vec(),
            7 => {
                let mut packet = data(DATA1, &self.random.bytes(16));
                let place = self.random.below(19) as usize;
                packet[place] ^= 1 << self.random.below(8);
                packet
            }
            8 => data(DATA0, &self.random.bytes(1025)),
            9 => vec![RSVD as u8],
            _ => {
                let count = self.random.below(20);
                self.random.bytes(count)
            }
        };
        self.packet(&bad);
        if self.random.chance(60) {
            self.bulk();
        }
    }

    fn events(&mut self) {
        for _ in 0..self.random.below(4) + 1 {
            let kind = self.random.below(8) as u8;
            self.event(kind);
        }
        match self.random.below(3) {
            0 => self.bulk(),
            1 => self.frames(),
            _ => self.split_transfer(),
        }
    }

    /// Reset and high-speed negotiation, as it should be or with one step wrong.
    fn chirp(&mut self) {
        let steps = [1, 4, 5, 2, 4, 3, 4, 3, 6, 4, 3, 2];
        for kind in steps {
            match self.random.below(12) {
                0 => {}
                1 => {
                    let other = self.random.below(8) as u8;
                    self.event(other);
                }
                _ => self.event(kind),
            }
        }
        if self.random.chance(50) {
            self.frames();
        }
    }

    /// Keepalives between the packets of transactions and splits.
    fn keepalive(&mut self) {
        let (address, number) = self.place();
        for _ in 0..4 {
            match self.random.below(4) {
                0 => self.send(&token(IN, address, number)),
                1 => {
                    self.token(OUT, address, number);
                    let payload = self.payload(8);
                    self.data(DATA0, &payload);
                }
                2 => {
                    let (sc, kind) = (self.random.below(2) as u8, self.random.below(4) as u8);
                    self.send(&split(1, sc, 1, kind));
                    if self.random.chance(70) {
                        self.token(OUT, address, number);
                    }
                }
                _ => self.setup_stage(address, 0, &setup(0x80, 6, 0x0100, 0, 8)),
            }
            for _ in 0..self.random.below(3) {
                self.event(0);
            }
            if self.random.chance(20) {
                let kind = self.random.below(8) as u8;
                self.event(kind);
            }
        }
        self.handshake(ACK);
    }

    fn details(&mut self) {
        let (address, number) = self.place();
        let (direction, max) = (self.random.below(2) as u8, self.random.pick(&[0, 8, 64]));
        let kind = if number == 0 { 0 } else { self.random.below(4) as u8 };
        self.known_detail(address, number, direction, kind, max);
        let pid = self.random.pick(&[IN, OUT]);
        for _ in 0..3 {
            let count = self.random.pick(&[8, 7, 64, 63]);
            let payload = self.payload(count);
            self.data_transaction(pid, address, number, &payload, ACK);
        }
    }

    /// Ticks that go back, stand still and jump.
    fn times(&mut self) {
        self.ticks = match self.random.below(4) {
            0 => self.ticks.wrapping_sub(self.random.below(100_000) as u32),
            1 => u32::MAX - self.random.below(100) as u32,
            2 => 0,
            _ => self.random.next() as u32,
        };
        self.frames();
    }

    /// Calls that are refused, among others: too long a packet, an event kind past 7, details that are wrong.
    fn refused(&mut self) {
        match self.random.below(6) {
            0 => {
                let long = self.random.bytes(4097);
                self.packet(&long);
            }
            1 => {
                let kind = self.random.below(248) as u8 + 8;
                self.event(kind);
            }
            2 => {
                let (address, number) = self.place();
                let (direction, kind) = (self.random.below(4) as u8, self.random.below(6) as u8);
                self.detail(address, number, direction, kind, 64);
            }
            3 => self.detail(0, 16, 0, 2, 64),
            4 => self.detail(99, 1, 0, 2, 64),
            _ => {
                let most = self.random.bytes(4096);
                self.packet(&most);
            }
        }
        self.bulk();
    }

    /// Packets from a small alphabet with no order at all, and events between them.
    fn soup(&mut self) {
        for _ in 0..20 {
            match self.random.below(20) {
                0 => self.event(0),
                1 => {
                    let kind = self.random.below(8) as u8;
                    self.event(kind);
                }
                2 => self.packet(&[]),
                3 => {
                    let (address, number) = self.place();
                    let kind = if number == 0 { 0 } else { self.random.below(4) as u8 };
                    let direction = self.random.below(2) as u8;
                    self.known_detail(address, number, direction, kind, 8);
                }
                _ => {
                    let packet = self.any_packet();
                    self.packet(&packet);
                }
            }
        }
    }

    fn mixed(&mut self) {
        let kinds = KINDS.len() as u64 - 1;
        let mut scene = self.random.below(kinds) as usize;
        // A refused call ends a listing: `refused` has a kind of its own.
        if KINDS[scene].0 == "refused" {
            scene = 0;
        }
        KINDS[scene].1(self);
    }
}

/// The trace of change request 11: an enumeration and a bulk download of 512-byte packets, repeated so many times up to a size in bytes. Each
/// enumeration but one whose SET_ADDRESS breaks off takes a device and three endpoints of 01's 64 and 128; four endpoints stand besides.
pub fn download(size: usize, times: usize) -> Vec<u8> {
    let mut bench = Bench::new(11);
    for time in 1..=times {
        let address = bench.random.below(3) as u8 + 1;
        bench.control(0, 0, setup(0x80, 6, 0x0100, 0, 18));
        bench.control(0, 0, setup(0x00, 5, address as u16, 0, 0));
        bench.control(address, 0, setup(0x80, 6, 0x0200, 0, 32));
        bench.control(address, 0, setup(0x00, 9, 1, 0, 0));
        bench.known_detail(address, 1, 0, 2, 512);
        for i in 0.. {
            if i % 16 == 0 {
                let frame = bench.next_frame();
                bench.packet(&frame);
            }
            let last = bench.trace.bytes.len() >= size / times * time;
            let payload = bench.payload(if last { 100 } else { 512 });
            bench.data_transaction(OUT, address, 1, &payload, ACK);
            if last {
                break;
            }
        }
    }
    bench.trace.bytes
}
