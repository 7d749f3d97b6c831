//! The scenes `descriptors` and `reread`: devices that are asked for random configurations, damaged now and then, and traffic around the
//! sizes that these give; and `typed`, where details say other things of the same endpoints.

use super::{Bench, Random};
use crate::chapter9::{association, audio_endpoint, configuration, device, endpoint, hid, interface, many, unknown};
use crate::packets::{setup, split};
use crate::usb::PID::*;

/// A configuration as a device has it: its value, and the descriptors behind the first.
#[derive(Clone)]
struct Described {
    value: u8,
    parts: Vec<Vec<u8>>,
}

impl Described {
    fn bytes(&self) -> Vec<u8> {
        configuration(self.value, &self.parts)
    }

    /// One to three interfaces, mostly in order, with one to three alternate settings. Endpoints have numbers of their interface's, so that
    /// few are shared.
    fn random(random: &mut Random, value: u8) -> Described {
        let mut parts = Vec::new();
        let mut numbers: Vec<u8> = (0..random.below(3) as u8 + 1).collect();
        if random.chance(25) {
            numbers.reverse();
        }
        for number in numbers {
            if random.chance(10) {
                parts.push(association(number, 2));
            }
            for alternate in 0..random.pick(&[1, 1, 1, 2, 3]) {
                let endpoints = random.below(4) as u8;
                parts.push(interface(number, alternate, endpoints, random.pick(&[3, 8, 255])));
                parts.extend(random.chance(20).then(|| hid(1, 9)));
                for i in 0..endpoints {
                    let place = if random.chance(3) { 1 } else { number * 3 + i + 1 };
                    parts.push(any_endpoint(random, place));
                    let length = random.below(9) as u8 + 2;
                    parts.extend(random.chance(10).then(|| unknown(random.pick(&[0x24, 0x25, 0x41, 0, 1]), length)));
                }
            }
        }
        Described { value, parts }
    }

    /// One endpoint, or the number of them, is changed.
    fn changed(&mut self, random: &mut Random) {
        let endpoints: Vec<usize> = (0..self.parts.len()).filter(|i| self.parts[*i][1] == 5).collect();
        if endpoints.is_empty() {
            return;
        }
        let place = random.pick(&endpoints);
        match random.below(3) {
            0 => drop(self.parts.remove(place)),
            1 => self.parts[place][3] ^= 1 << random.below(2),
            _ => self.parts[place][4] ^= 1 << random.below(8),
        }
    }

    /// The interfaces with their alternate settings.
    fn settings(&self) -> Vec<(u8, u8)> {
        self.parts.iter().filter(|d| d[1] == 4).map(|d| (d[2], d[3])).collect()
    }
}

fn any_endpoint(random: &mut Random, number: u8) -> Vec<u8> {
    let address = number | (random.below(2) as u8) << 7;
    let attributes = random.pick(&[0, 1, 2, 3, 2, 3, 5, 13]);
    let bits = if random.chance(2) { random.pick(&[0x0800, 0x1000, 0x8000]) } else { 0 };
    let size = random.pick(&[0, 8, 8, 16, 64, 64, 512, 1023, 1024]) | bits;
    if random.chance(10) { audio_endpoint(address, attributes, size) } else { endpoint(address, attributes, size) }
}

/// A payload that is wrong in one place.
fn damaged(random: &mut Random, mut bytes: Vec<u8>) -> Vec<u8> {
    let mut starts = vec![0];
    while let Some(length) = bytes.get(starts[starts.len() - 1]).filter(|length| **length > 1) {
        starts.push(starts[starts.len() - 1] + *length as usize);
    }
    starts.retain(|start| start + 1 < bytes.len());
    let at = random.pick(&starts);
    match random.below(11) {
        0 => bytes[at] = random.pick(&[0, 1, 2, 6, 8, 9, 255]),
        1 => bytes[at] = bytes[at].wrapping_add(random.pick(&[1, 255])),
        2 => bytes[at + 1] = random.pick(&[1, 2, 4, 5, 6, 0x24]),
        3 => {
            let place = random.below(bytes.len() as u64) as usize;
            bytes[place] = random.next() as u8;
        }
        4 => {
            // A descriptor twice: an interface whose endpoints then come again, or a second configuration.
            let end = (at + bytes[at] as usize).min(bytes.len());
            let copy = bytes[at..end].to_vec();
            let to = random.pick(&starts);
            bytes.splice(to..to, copy);
        }
        5 => {
            let end = (at + bytes[at] as usize).min(bytes.len());
            bytes.drain(at..end);
        }
        6 => {
            let count = random.pick(&[1, 86, 87, 90, 172, 255]);
            bytes.splice(at..at, hid(count, (6 + 3 * count as usize % 256).clamp(6, 255) as u8));
        }
        7 | 8 => {
            // A byte less or more, of which bLength tells: what stands behind it is as it was.
            let end = (at + bytes[at] as usize).min(bytes.len());
            if random.chance(60) && bytes[at] > 2 {
                bytes[at] -= 1;
                bytes.remove(end - 1);
            } else {
                bytes[at] = bytes[at].saturating_add(1);
                bytes.insert(end, random.next() as u8);
            }
        }
        9 => {
            // An endpoint before its interface.
            let copy = endpoint(random.pick(&[0x81, 0x02, 0x00, 0x93, 0x4F]), 2, 64);
            bytes.splice(at..at, copy);
        }
        _ => bytes.truncate(random.below(bytes.len() as u64) as usize),
    }
    bytes
}

impl Bench {
    /// A read with its payload; some are stalled, break off before the status stage, or have a packet acknowledged twice.
    pub(super) fn read(&mut self, address: u8, request: [u8; 8], payload: &[u8], size: usize) {
        self.setup_stage(address, 0, &request);
        for part in payload.chunks(size) {
            self.stage(IN, address, 0, part);
            if self.random.chance(1) {
                self.stage(IN, address, 0, part);
            }
            if self.random.chance(1) {
                self.token(IN, address, 0);
                return self.handshake(STALL);
            }
        }
        if !self.random.chance(3) {
            self.stage(OUT, address, 0, &[]);
        }
    }

    /// A configuration in one to three reads, the last of them mostly whole.
    fn read_described(&mut self, address: u8, described: &Described) {
        let mut bytes = described.bytes();
        if self.random.chance(8) {
            bytes = damaged(&mut self.random, bytes);
        }
        let total = bytes.len() as u16;
        let cut = self.random.below(total as u64 + 1) as u16;
        let lengths: &[u16] = match self.random.below(6) {
            0 => &[total],
            1 => &[255],
            2 => &[9, cut, total],
            3 => &[cut],
            _ => &[9, total],
        };
        // Sixteen-byte packets are common enough; long ones keep a trace short.
        let size = self.random.pick(&[8, 16, 64, 64, 64]);
        for length in lengths {
            let kind = if self.random.chance(2) { self.random.pick(&[0x00, 0x81, 0xA0]) } else { 0x80 };
            let request = setup(kind, 6, 0x0200, 0, *length);
            let payload = &bytes[..bytes.len().min(*length as usize)];
            if kind == 0 {
                self.control_out(address, request, payload);
            } else {
                self.read(address, request, payload, size);
            }
        }
    }

    /// A request whose data go to the device.
    fn control_out(&mut self, address: u8, request: [u8; 8], payload: &[u8]) {
        self.setup_stage(address, 0, &request);
        for part in payload.chunks(64) {
            self.stage(OUT, address, 0, part);
        }
        self.stage(IN, address, 0, &[]);
    }

    fn read_device(&mut self, address: u8) {
        let max = self.random.pick(&[8, 16, 64, 0]);
        let mut bytes = device(max);
        if self.random.chance(4) {
            bytes = damaged(&mut self.random, bytes);
        }
        let length = self.random.pick(&[8, 18, 18, 64]);
        let payload = &bytes[..bytes.len().min(length as usize)];
        self.read(address, setup(0x80, 6, 0x0100, 0, length), payload, 64);
    }

    /// SET_CONFIGURATION, mostly of a value that the device has; or SET_INTERFACE.
    fn choose(&mut self, address: u8, all: &[Described], interfaces: bool) {
        let described = &all[self.random.below(all.len() as u64) as usize];
        let settings = described.settings();
        let (mut value, mut interface, request) = (described.value as u16, 0, if interfaces { 11 } else { 9 });
        if interfaces {
            let (number, alternate) = if self.random.chance(90) { self.random.pick(&settings) } else { (4, 1) };
            (value, interface) = (alternate as u16, number as u16);
        }
        match self.random.below(50) {
            0 => value += 256,
            1 => interface += 256 * interfaces as u16,
            2..5 => value = 0,
            5 => value = 3,
            _ => {}
        }
        let kind = self.random.pick(&[0x00, 0x00, 0x00, 0x01, 0x20]);
        self.control(address, 0, setup(kind, request, value, interface, 0));
    }

    /// Payloads around the size of some endpoints, whether it was set or not.
    fn around_sizes(&mut self, address: u8, described: &Described) {
        for d in described.parts.iter().filter(|d| d[1] == 5 && d.len() >= 7) {
            let max = u16::from_le_bytes([d[4], d[5]]) as u64 % 2048;
            if self.random.chance(50) || max > 64 && self.random.chance(80) {
                continue;
            }
            let pid = if d[2] > 127 { IN } else { OUT };
            for size in [max, max.saturating_sub(1), max + 1] {
                let payload = self.payload(size.min(1024));
                let answer = self.random.pick(&[ACK, ACK, ACK, NAK]);
                self.data_transaction(pid, address, d[2] % 16, &payload, answer);
            }
        }
    }

    fn some_device(&mut self) -> (u8, Vec<Described>) {
        let address = self.random.below(3) as u8;
        if self.random.chance(25) {
            self.control(0, 0, setup(0x00, 5, address as u16, 0, 0));
        }
        if self.random.chance(10) {
            let kind = self.random.below(4) as u8;
            self.send(&split(1, 0, 1, kind));
            let number = self.random.below(6) as u8 + 1;
            self.token(IN, address, number);
        }
        let count = self.random.pick(&[1, 1, 1, 2]);
        (address, (1..=count).map(|value| Described::random(&mut self.random, value)).collect())
    }

    /// A device that is enumerated: reads, SETs, traffic.
    pub fn descriptors(&mut self) {
        if self.random.chance(1) {
            return self.at_limits();
        }
        let (address, all) = self.some_device();
        self.read_device(address);
        for described in &all {
            self.read_described(address, described);
        }
        self.choose(address, &all, false);
        for _ in 0..self.random.below(3) {
            let interfaces = self.random.chance(70);
            self.choose(address, &all, interfaces);
        }
        for described in &all {
            self.around_sizes(address, described);
        }
    }

    /// A device that is read again, as it was or changed, with SETs between.
    pub fn reread(&mut self) {
        let (address, mut all) = self.some_device();
        for _ in 0..self.random.below(4) + 2 {
            let place = self.random.below(all.len() as u64) as usize;
            self.read_described(address, &all[place].clone());
            if self.random.chance(60) {
                let interfaces = self.random.chance(50);
                self.choose(address, &all, interfaces);
            }
            self.around_sizes(address, &all[place].clone());
            if self.random.chance(20) {
                all[place].changed(&mut self.random);
            }
        }
    }

    /// Details before the read, between it and the SET, and behind the SET, also behind one of value 0; then traffic, which tells what holds.
    pub fn retyped(&mut self) {
        let (address, all) = self.some_device();
        if self.random.chance(50) {
            // A new row, of which nothing is given.
            self.control(0, 0, setup(0x00, 5, address as u16, 0, 0));
        }
        let described = &all[0];
        let bytes = described.bytes();
        // Details want a device that stands.
        self.known_detail(address, 1, 0, 2, 64);
        self.some_details(address, described);
        if self.random.chance(30) {
            self.around_sizes(address, described);
        }
        if self.random.chance(30) {
            self.read_device(address);
        }
        self.read(address, setup(0x80, 6, 0x0200, 0, bytes.len() as u16), &bytes, 64);
        self.some_details(address, described);
        self.choose(address, &all[..1], false);
        self.some_details(address, described);
        self.around_sizes(address, described);
        if self.random.chance(30) {
            self.control(address, 0, setup(0x00, 9, 0, 0, 0));
        } else {
            self.choose(address, &all[..1], true);
        }
        self.some_details(address, described);
        self.around_sizes(address, described);
    }

    /// Details for some of the endpoints that are described, now and then for number 0 and for any other.
    fn some_details(&mut self, address: u8, described: &Described) {
        let mut places: Vec<u8> = described.parts.iter().filter(|d| d[1] == 5).map(|d| d[2]).collect();
        places.retain(|_| self.random.chance(50));
        places.extend([0, 0x80].into_iter().filter(|_| self.random.chance(15)));
        places.extend([1, 0x81, 2, 0x8F].into_iter().filter(|_| self.random.chance(8)));
        for place in places {
            let kind = if place % 16 == 0 { 0 } else { self.random.below(4) as u8 };
            let max = self.random.pick(&[0, 8, 16, 64, 512]);
            self.detail(address, place % 16, place / 128, kind, max);
        }
    }

    /// About 4,096 bytes, or about 585 entries in two configurations.
    fn at_limits(&mut self) {
        let address = self.random.below(3) as u8;
        let payloads = if self.random.chance(50) {
            let filler = self.random.below(6) as u8 + 2;
            vec![many(1, 582, filler)]
        } else {
            let entries = 583 + self.random.below(6) as usize;
            vec![many(1, 290, 0), many(2, entries - 290, 0)]
        };
        for payload in payloads {
            self.read(address, setup(0x80, 6, 0x0200, 0, payload.len() as u16), &payload, 512);
        }
        for value in 1..=2 {
            self.control(address, 0, setup(0x00, 9, value, 0, 0));
        }
    }
}
