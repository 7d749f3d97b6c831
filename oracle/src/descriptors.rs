//! What is read of descriptors (change request 2; USB 2.0, chapter 9): the rules R1 to R10, written by hand. They decide; the Rust's own
//! `decode_request` (src/lib.rs, `own`) is run beside them, and src/listed.rs says where the two part.
//!
//! R1. A request completes where `group_status` comes to `decode_request`: the status stage, with success and complete. There it is read.
//! R9. A new device row has nothing read, none chosen and no details: each `DeviceData` has its own shelf, which starts empty.

use crate::capture::Detail;
use crate::usb::{Direction, EndpointAddr, EndpointNum, EndpointType};

/// Whether and how a decoder reads descriptors.
#[derive(Copy, Clone, PartialEq, Debug)]
pub enum Descriptors {
    /// A completed request is a row of three words and nothing else (document 01).
    Off,
    /// By the rules here: the row has a fourth word, the note.
    Ruled,
    /// By the Rust's own lines. Its rows have no note.
    Own,
}

impl Descriptors {
    /// What holds wherever no mode is named: what the port does.
    pub const DEFAULT: Descriptors = Descriptors::Ruled;

    /// The words of a request row.
    pub const fn request_words(self) -> usize {
        match self {
            Descriptors::Ruled => 4,
            Descriptors::Off | Descriptors::Own => 3,
        }
    }
}

impl Default for Descriptors {
    fn default() -> Self {
        Descriptors::DEFAULT
    }
}

/// The payload bytes that are kept for a device; what lies beyond is not read.
pub const BYTES: usize = 4096;
/// The entries that are kept for a device: 585 of 7 bytes are 4,095.
pub const ENTRIES: usize = 585;
/// The port's shelf: for each of 64 devices 4,096 bytes for the payload and 4,096 for the entries.
pub const PART: usize = 2 * BYTES;
pub const SHELF: usize = 64 * PART;

/// R2: what a request is, by its 8 setup bytes alone.
#[derive(Copy, Clone, PartialEq, Debug)]
pub enum Kind {
    DeviceRead,
    ConfigurationRead,
    SetConfiguration(u8),
    /// Interface, alternate setting.
    SetInterface(u8, u8),
    Other,
}

/// A read is 80 06 with the descriptor's type in the high byte of wValue. Of a SET the type bits (standard), bRequest and the numbers,
/// which must be bytes, are looked at; its direction and recipient are not.
pub fn kind(setup: &[u8; 8]) -> Kind {
    let [request_type, request, value, value_high, index, index_high, ..] = *setup;
    let standard = request_type & 0x60 == 0;
    match (request, value_high) {
        (6, 1) if request_type == 0x80 => Kind::DeviceRead,
        (6, 2) if request_type == 0x80 => Kind::ConfigurationRead,
        (9, 0) if standard => Kind::SetConfiguration(value),
        (11, 0) if standard && index_high == 0 => Kind::SetInterface(index, value),
        _ => Kind::Other,
    }
}

/// R4: the whole descriptors of a payload, one behind the other. One is whole if its bLength is at least 2 and it ends inside the payload;
/// the walk ends at the first place without one.
pub fn whole(payload: &[u8]) -> Vec<&[u8]> {
    let mut found = Vec::new();
    let mut rest = payload;
    while let Some(&length) = rest.first()
        && length >= 2
        && let Some((descriptor, behind)) = rest.split_at_checked(length as usize)
    {
        found.push(descriptor);
        rest = behind;
    }
    found
}

/// A descriptor of a type, with at least so many bytes.
fn is(descriptor: &[u8], kind: u8, least: usize) -> bool {
    descriptor[1] == kind && descriptor.len() >= least
}

/// R5: the max of number 0, byte 7 of a device descriptor (9.6.1) that stands first.
pub fn device_max(payload: &[u8]) -> Option<u8> {
    whole(payload).first().filter(|d| is(d, 1, 18)).map(|d| d[7])
}

/// An endpoint descriptor as it is kept: where it stood, and its bytes 2 to 5 (9.6.6).
#[derive(Copy, Clone, PartialEq, Debug)]
pub struct Entry {
    pub value: u8,
    pub interface: u8,
    pub alternate: u8,
    /// bEndpointAddress, bmAttributes.
    pub address: u8,
    pub attributes: u8,
    /// wMaxPacketSize.
    pub size: u16,
}

impl Entry {
    pub fn kind(&self) -> EndpointType {
        EndpointType::from(self.attributes % 4)
    }

    /// The largest payload: bits 10 to 0.
    pub fn max(&self) -> u16 {
        self.size % 2048
    }

    pub fn place(&self) -> EndpointAddr {
        EndpointAddr::from_parts(EndpointNum(self.address % 16), Direction::from(self.address / 128))
    }

    /// The 7 bytes that the port keeps.
    fn bytes(&self) -> [u8; 7] {
        let [low, high] = self.size.to_le_bytes();
        [self.value, self.interface, self.alternate, self.address, self.attributes, low, high]
    }
}

/// R6: the value of a configuration that was read and its endpoints in order; nothing where no configuration descriptor stands first. An
/// endpoint belongs to the interface descriptor before it, and its number is 1 to 15 with bits 6 to 4 clear.
pub fn configuration(payload: &[u8]) -> Option<(u8, Vec<Entry>)> {
    let descriptors = whole(payload);
    let value = descriptors.first().filter(|d| is(d, 2, 9))?[5];
    let mut current = None;
    let mut entries = Vec::new();
    for d in &descriptors[1..] {
        if is(d, 4, 9) {
            current = Some((d[2], d[3]));
        } else if let Some((interface, alternate)) = current
            && is(d, 5, 7)
            && (1..=15).contains(&(d[2] % 128))
        {
            let size = u16::from_le_bytes([d[4], d[5]]);
            entries.push(Entry { value, interface, alternate, address: d[2], attributes: d[3], size });
        }
    }
    Some((value, entries))
}

/// R10: a note is four times a count, and its kind.
fn note(count: usize, kind: u64) -> u64 {
    4 * count as u64 + kind
}

/// How a note ends its line of the listing.
pub fn note_text(note: u64) -> String {
    match (note % 4, note / 4) {
        (1, max) => format!("max {max}"),
        (2, count) => format!("read {count}"),
        (3, count) => format!("set {count}"),
        _ => "none".to_string(),
    }
}

/// What is kept for a device.
#[derive(Clone, Default)]
pub struct Shelf {
    /// The payload under way. Bytes count as far as the endpoint's payload length goes; others may stand behind them.
    bytes: Vec<u8>,
    pub entries: Vec<Entry>,
    pub chosen: Option<u8>,
    /// The entries as the port stores them; behind them stands what is left of earlier ones.
    stored: Vec<u8>,
}

impl Shelf {
    /// R3: a payload is laid by when it is seen, behind the bytes that count, as far as it lies below 4,096. It counts when its transaction's
    /// end counts it; until then the next one is written over it.
    pub fn lay(&mut self, counted: usize, payload: &[u8]) {
        let from = counted.min(BYTES);
        let length = payload.len().min(BYTES - from);
        write(&mut self.bytes, from, &payload[..length]);
    }

    /// R3: the payload of a read that counted so many bytes.
    pub fn payload(&self, counted: usize) -> &[u8] {
        &self.bytes[..counted.min(BYTES)]
    }

    /// A completed request: what it does to the shelf and the details, and its note.
    pub fn request(&mut self, setup: &[u8; 8], counted: usize, details: &mut [Detail; 32]) -> u64 {
        match kind(setup) {
            Kind::DeviceRead => match device_max(self.payload(counted)) {
                Some(max) => {
                    details[0] = given(EndpointType::Control, max as u16);
                    note(max as usize, 1)
                }
                None => 0,
            },
            Kind::ConfigurationRead => self.read(counted),
            Kind::SetConfiguration(value) => {
                self.chosen = Some(value);
                self.apply(details, |e| e.value == value && e.alternate == 0)
            }
            Kind::SetInterface(interface, alternate) => match self.chosen {
                Some(c) => self.apply(details, |e| (e.value, e.interface, e.alternate) == (c, interface, alternate)),
                None => 0,
            },
            Kind::Other => 0,
        }
    }

    /// R6: the entries of the value read are forgotten, the new ones stand behind the others, while there are fewer than 585.
    fn read(&mut self, counted: usize) -> u64 {
        let Some((value, new)) = configuration(self.payload(counted)) else { return 0 };
        self.entries.retain(|e| e.value != value);
        let fitting = new.len().min(ENTRIES - self.entries.len());
        self.entries.extend(&new[..fitting]);
        let bytes: Vec<u8> = self.entries.iter().flat_map(Entry::bytes).collect();
        write(&mut self.stored, 0, &bytes);
        note(fitting, 2)
    }

    /// What was written to the device's part of the port's shelf: the payload's half and that of the entries, each from its beginning.
    pub fn written(&self) -> [&[u8]; 2] {
        [&self.bytes, &self.stored]
    }

    /// R7, R8: the chosen entries, in their order, set the details of their endpoints; those of other endpoints stay.
    fn apply(&self, details: &mut [Detail; 32], chosen: impl Fn(&Entry) -> bool) -> u64 {
        let setting: Vec<&Entry> = self.entries.iter().filter(|e| chosen(e)).collect();
        for e in &setting {
            details[Detail::place(e.place())] = given(e.kind(), e.max());
        }
        note(setting.len(), 3)
    }
}

/// Bytes from a place on.
fn write(to: &mut Vec<u8>, from: usize, bytes: &[u8]) {
    to.resize(to.len().max(from + bytes.len()), 0);
    to[from..from + bytes.len()].copy_from_slice(bytes);
}

/// Details that a descriptor gave; a max of 0 is unknown.
fn given(kind: EndpointType, max: u16) -> Detail {
    Detail { kind: Some(kind), max: (max != 0).then_some(max as usize), given: true, typed: false }
}
