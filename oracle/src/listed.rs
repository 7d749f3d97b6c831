//! The listed cases: requests on which the rules of src/descriptors.rs and the Rust's own `decode_request` may part. A request is marked
//! from what it is and what came before it, never from what the two made of it, and by nothing that the rules are made of: so a fault of
//! either is not taken for a case. docs/DIFFERENCES.md has the list in words; tests/listed.rs has for each a trace on which the Rust does
//! differ.

use std::collections::{BTreeMap, BTreeSet};

#[derive(Copy, Clone, PartialEq, Eq, PartialOrd, Ord, Debug)]
pub enum Case {
    ReadOut,
    DeviceLength,
    PastBytes,
    ShortLength,
    ConfigurationBehind,
    AlternateTwice,
    SharedAtConfiguration,
    SizeBits,
    ReadAgain,
    AboveByte,
    PastEntries,
    SharedAtInterface,
    HidCount,
}

use Case::*;

/// The cases in the order of docs/DIFFERENCES.md, numbered from 1.
pub const CASES: [(Case, &str); 13] = [
    (ReadOut, "a descriptor read with direction OUT"),
    (DeviceLength, "a device read where a device descriptor and 18 bytes are not the same"),
    (PastBytes, "a configuration read of more than 4,096 bytes"),
    (ShortLength, "a bLength below 2"),
    (ConfigurationBehind, "a configuration descriptor that is not the first"),
    (AlternateTwice, "an interface's alternate setting described twice"),
    (SharedAtConfiguration, "SET_CONFIGURATION, an endpoint in two interfaces that come out of order"),
    (SizeBits, "a SET with bits 15 to 11 of wMaxPacketSize"),
    (ReadAgain, "the chosen configuration read again with other details"),
    (AboveByte, "a SET of a number above 255"),
    (PastEntries, "more than 585 entries"),
    (SharedAtInterface, "SET_INTERFACE, an endpoint in two interfaces"),
    (HidCount, "a HID descriptor whose count does not fit"),
];

/// An endpoint descriptor of a configuration that was read: where it stood, its address, type and wMaxPacketSize.
#[derive(Copy, Clone)]
struct Endpoint {
    interface: u8,
    alternate: u8,
    address: u8,
    kind: u8,
    size: u16,
}

impl Endpoint {
    /// The same endpoint in another interface, with other details.
    fn shared(&self, other: &Endpoint) -> bool {
        let same = (self.kind, self.size) == (other.kind, other.size);
        self.address == other.address && self.interface != other.interface && !same
    }
}

/// A configuration as it was read.
#[derive(Clone, Default)]
struct Configuration {
    value: u8,
    /// All interface numbers, those without an endpoint among them.
    interfaces: BTreeSet<u8>,
    endpoints: Vec<Endpoint>,
    /// Whether an alternate setting came again that had an endpoint.
    twice: bool,
}

/// What was asked of a device so far. No rule looks at it.
#[derive(Clone, Default)]
pub struct Witness {
    configurations: BTreeMap<u8, Configuration>,
    chosen: Option<u8>,
    /// The alternate setting of each interface that the Rust knew at the last SETs.
    settings: BTreeMap<u8, u8>,
    /// Type and wMaxPacketSize that the SETs gave, by address.
    details: BTreeMap<u8, (u8, u16)>,
}

/// The descriptors of a payload up to the first that is not whole, and what is left there.
fn taken_apart(payload: &[u8]) -> (Vec<&[u8]>, &[u8]) {
    let mut found = Vec::new();
    let mut at = 0;
    while at < payload.len() {
        let length = payload[at] as usize;
        if length < 2 || at + length > payload.len() {
            break;
        }
        found.push(&payload[at..at + length]);
        at += length;
    }
    (found, &payload[at..])
}

fn of_type(descriptor: &[u8], kind: u8, length: usize) -> bool {
    descriptor.len() >= length && descriptor[1] == kind
}

fn configuration(payload: &[u8]) -> Option<Configuration> {
    let (descriptors, _) = taken_apart(payload);
    let mut found = match descriptors.first() {
        Some(first) if of_type(first, 2, 9) => Configuration { value: first[5], ..Configuration::default() },
        _ => return None,
    };
    let mut current = None;
    for d in descriptors {
        if of_type(d, 4, 9) {
            found.twice |= found.endpoints.iter().any(|e| (e.interface, e.alternate) == (d[2], d[3]));
            found.interfaces.insert(d[2]);
            current = Some((d[2], d[3]));
        }
        // Bits 6 to 4 of an address are 0 and number 0 has no descriptor: others have no effect in either.
        if let (true, Some((interface, alternate))) = (of_type(d, 5, 7), current)
            && d[2] & 0x70 == 0
            && d[2] & 0x0F != 0
        {
            let size = d[4] as u16 + 256 * d[5] as u16;
            found.endpoints.push(Endpoint { interface, alternate, address: d[2], kind: d[3] & 3, size });
        }
    }
    Some(found)
}

impl Witness {
    /// The marks of a request that completes, with its whole payload.
    pub fn marks(&self, setup: &[u8; 8], payload: &[u8]) -> Vec<Case> {
        let [request_type, request, low, high, index, index_high, ..] = *setup;
        let standard = request_type & 0x60 == 0;
        match (request_type, request) {
            (0x00, 6) if high == 1 && payload.len() == 18 || high == 2 && payload.len() >= 9 => vec![ReadOut],
            (0x80, 6) if high == 1 => of([(DeviceLength, other_device(payload))]),
            (0x80, 6) if high == 2 && payload.len() >= 9 => self.read_marks(payload),
            (_, 9) if standard && high != 0 => vec![AboveByte],
            (_, 9) if standard => self.configuration_marks(low),
            (_, 11) if standard && (high != 0 || index_high != 0) => vec![AboveByte],
            (_, 11) if standard => self.interface_marks(index, low),
            _ => Vec::new(),
        }
    }

    /// Fewer than 9 bytes are no configuration in either.
    fn read_marks(&self, payload: &[u8]) -> Vec<Case> {
        let (descriptors, rest) = taken_apart(payload);
        let mut marks = of([
            (PastBytes, payload.len() > 4096),
            // A lone last byte ends the reading in the Rust too.
            (ShortLength, rest.len() >= 2 && rest[0] < 2),
            (ConfigurationBehind, descriptors.iter().skip(1).any(|d| of_type(d, 2, 9))),
            (HidCount, hid_count(&descriptors)),
        ]);
        if let Some(new) = configuration(payload) {
            let others = self.configurations.values().filter(|c| c.value != new.value);
            let entries = new.endpoints.len() + others.map(|c| c.endpoints.len()).sum::<usize>();
            let chosen = self.chosen == Some(new.value);
            marks.extend(of([
                (AlternateTwice, new.twice),
                (PastEntries, entries > 585),
                (ReadAgain, chosen && new.endpoints.iter().any(|e| self.sets_other(e))),
            ]));
        }
        marks
    }

    /// Whether the Rust, which applies a read of the chosen configuration at once, changes a detail by this endpoint.
    fn sets_other(&self, e: &Endpoint) -> bool {
        self.settings.get(&e.interface) == Some(&e.alternate) && self.details.get(&e.address) != Some(&(e.kind, e.size))
    }

    /// The later descriptor wins by the rules, the higher interface in the Rust: the same where they come in the order of interfaces.
    fn configuration_marks(&self, value: u8) -> Vec<Case> {
        let set: Vec<Endpoint> = self.endpoints(Some(value)).into_iter().filter(|e| e.alternate == 0).collect();
        let falls = |i: usize| set[i..].iter().any(|f| set[i].shared(f) && set[i].interface > f.interface);
        of([(SizeBits, set.iter().any(|e| e.size >= 2048)), (SharedAtConfiguration, (0..set.len()).any(falls))])
    }

    fn interface_marks(&self, interface: u8, alternate: u8) -> Vec<Case> {
        let all = self.endpoints(self.chosen);
        let own: Vec<&Endpoint> = all.iter().filter(|e| e.interface == interface).collect();
        of([
            (SizeBits, own.iter().any(|e| e.alternate == alternate && e.size >= 2048)),
            (SharedAtInterface, own.iter().any(|e| all.iter().any(|f| e.shared(f)))),
        ])
    }

    fn endpoints(&self, value: Option<u8>) -> Vec<Endpoint> {
        let found = value.and_then(|value| self.configurations.get(&value));
        found.map_or(Vec::new(), |c| c.endpoints.clone())
    }

    /// What is known after the request.
    pub fn follow(&mut self, setup: &[u8; 8], payload: &[u8]) {
        let [request_type, request, low, high, index, index_high, ..] = *setup;
        let standard = request_type & 0x60 == 0 && high == 0;
        match request {
            6 if request_type == 0x80 && high == 2 => {
                if let Some(new) = configuration(payload) {
                    self.configurations.insert(new.value, new);
                }
            }
            9 if standard => {
                self.chosen = Some(low);
                let known = self.configurations.get(&low).map_or(BTreeSet::new(), |c| c.interfaces.clone());
                self.settings = known.into_iter().map(|interface| (interface, 0)).collect();
                self.give(|e| e.alternate == 0);
            }
            11 if standard && index_high == 0 => {
                self.settings.insert(index, low);
                self.give(|e| (e.interface, e.alternate) == (index, low));
            }
            _ => {}
        }
    }

    /// The details of some endpoints of the chosen configuration.
    fn give(&mut self, some: impl Fn(&Endpoint) -> bool) {
        let given = self.endpoints(self.chosen).into_iter().filter(some);
        self.details.extend(given.map(|e| (e.address, (e.kind, e.size))));
    }
}

/// The cases that apply.
fn of<const N: usize>(cases: [(Case, bool); N]) -> Vec<Case> {
    cases.into_iter().filter(|(_, on)| *on).map(|(case, _)| case).collect()
}

/// The Rust takes 18 bytes, the rules a device descriptor of 18 bytes or more.
fn other_device(payload: &[u8]) -> bool {
    let length = payload.first().map_or(0, |length| *length as usize);
    let taken = length >= 18 && length <= payload.len() && payload[1] == 1;
    taken != (payload.len() == 18)
}

/// A HID descriptor (type 21 behind an interface of class 3) whose count, three bytes each, passes a byte and is the length by what is left
/// of it: the Rust takes its list apart in threes and panics.
fn hid_count(descriptors: &[&[u8]]) -> bool {
    let mut class = 0;
    descriptors.iter().any(|d| {
        if of_type(d, 4, 9) {
            class = d[5];
        }
        class == 3 && of_type(d, 0x21, 9) && d[5] > 85 && d.len() == 6 + 3 * d[5] as usize % 256
    })
}
