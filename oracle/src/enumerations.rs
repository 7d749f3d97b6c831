//! The traces of change request 2 by name: devices that are enumerated, in each of the ways that the rules and the listed cases tell apart.

use crate::chapter9::{association, audio_endpoint, configuration, device, disk, endpoint, hid, interface, many, unknown};
use crate::packets::setup;
use crate::traces::written;

const DEVICE: u16 = 0x0100;
const CONFIGURATION: u16 = 0x0200;

pub fn hex(bytes: &[u8]) -> String {
    let words: Vec<String> = bytes.iter().map(|b| format!("{b:02X}")).collect();
    if bytes.is_empty() { "*0".to_string() } else { format!("={}", words.join(" ")) }
}

pub fn joined(steps: &[String]) -> String {
    steps.join("; ")
}

/// The setup stage.
pub fn asked(address: u8, bytes: [u8; 8]) -> String {
    format!("SETUP {address} 0; DATA0 {}; ACK", hex(&bytes))
}

/// A data stage to the host: the payload in packets of a size; one without bytes is an empty packet.
pub fn sent(address: u8, payload: &[u8], size: usize) -> String {
    let packet = |part: &[u8]| format!("IN {address} 0; DATA1 {}; ACK", hex(part));
    let packets: Vec<String> = payload.chunks(size).map(packet).collect();
    if packets.is_empty() { packet(&[]) } else { joined(&packets) }
}

/// The status stage of a read, and that of a request without data.
pub fn status_out(address: u8) -> String {
    format!("OUT {address} 0; DATA1 *0; ACK")
}

pub fn status_in(address: u8) -> String {
    format!("IN {address} 0; DATA1 *0; ACK")
}

/// A whole GET_DESCRIPTOR of a type, with the payload that comes.
pub fn read(address: u8, value: u16, length: u16, payload: &[u8], size: usize) -> String {
    joined(&[asked(address, setup(0x80, 6, value, 0, length)), sent(address, payload, size), status_out(address)])
}

/// A configuration read whole, in packets of 64.
pub fn read_configuration(address: u8, payload: &[u8]) -> String {
    read(address, CONFIGURATION, payload.len() as u16, payload, 64)
}

/// A request without data.
pub fn set(address: u8, bytes: [u8; 8]) -> String {
    joined(&[asked(address, bytes), status_in(address)])
}

pub fn set_address(to: u8) -> String {
    set(0, setup(0, 5, to as u16, 0, 0))
}

pub fn set_configuration(address: u8, value: u16) -> String {
    set(address, setup(0, 9, value, 0, 0))
}

pub fn set_interface(address: u8, interface: u16, alternate: u16) -> String {
    set(address, setup(1, 11, alternate, interface, 0))
}

/// A full packet and a short one to each endpoint of `disk(_, 64)`: the short one ends its group where the max is known.
fn traffic(address: u8) -> String {
    let out = format!("OUT {address} 2; DATA0 *64; ACK; OUT {address} 2; DATA1 *10; ACK");
    joined(&[out, format!("IN {address} 1; DATA0 *64; ACK; IN {address} 1; DATA1 *63; ACK")])
}

/// A configuration of value 1 is read whole and chosen.
fn chosen(payload: &[u8]) -> String {
    joined(&[read_configuration(5, payload), set_configuration(5, 1)])
}

/// The same of the parts behind its descriptor.
fn chosen_of(behind: &[Vec<u8>]) -> String {
    chosen(&configuration(1, behind))
}

fn whole_enumerations() -> Vec<(&'static str, String)> {
    let disk = disk(1, 64);
    let rest = |max: u8, size: usize| {
        joined(&[
            set_address(5),
            read(5, DEVICE, 18, &device(max), size),
            read(5, CONFIGURATION, 9, &disk[..9], size),
            read(5, CONFIGURATION, 32, &disk, size),
            set_configuration(5, 1),
            traffic(5),
        ])
    };
    vec![
        ("enumerate-8-18", joined(&[read(0, DEVICE, 8, &device(8)[..8], 8), rest(8, 8)])),
        ("enumerate-64", joined(&[read(0, DEVICE, 64, &device(64), 64), rest(64, 64)])),
    ]
}

fn configurations() -> Vec<(&'static str, String)> {
    let (one, wider) = (disk(1, 64), disk(1, 512));
    let two = configuration(2, &[interface(0, 0, 1, 3), endpoint(0x81, 3, 8)]);
    let camera = [interface(0, 0, 0, 14), interface(1, 0, 0, 14), interface(1, 1, 1, 14), endpoint(0x81, 5, 0x1400)];
    let full = format!("IN 5 1; DATA0 *1024; IN 5 1; DATA0 *1023; {}", set_interface(5, 1, 0));
    vec![
        ("config-255-first", joined(&[read(5, CONFIGURATION, 255, &one, 64), set_configuration(5, 1), traffic(5)])),
        (
            "config-nine-last",
            joined(&[read_configuration(5, &one), read_configuration(5, &one[..9]), set_configuration(5, 1), traffic(5)]),
        ),
        ("config-cut", joined(&[read_configuration(5, &one[..27]), set_configuration(5, 1), traffic(5)])),
        (
            "config-two",
            joined(&[read_configuration(5, &one), read_configuration(5, &two), set_configuration(5, 2), set_configuration(5, 1)]),
        ),
        ("config-again", joined(&[chosen(&one), read_configuration(5, &wider), traffic(5), set_configuration(5, 1), traffic(5)])),
        (
            "config-late",
            joined(&[set_configuration(5, 1), read_configuration(5, &one), traffic(5), set_configuration(5, 1), traffic(5)]),
        ),
        ("config-zero", joined(&[chosen(&one), set_configuration(5, 0), traffic(5)])),
        ("config-256", joined(&[read_configuration(5, &one), set_configuration(5, 257), traffic(5)])),
        ("interface-256", joined(&[chosen(&one), set_interface(5, 256, 0), set_interface(5, 0, 256)])),
        ("interface-alternate", joined(&[chosen_of(&camera), set_interface(5, 1, 1), full])),
        ("interface-unchosen", joined(&[read_configuration(5, &one), set_interface(5, 0, 0), traffic(5)])),
        ("readdressed", joined(&[set_address(5), chosen(&one), set_address(5), set_configuration(5, 1), traffic(5)])),
        ("split-then-descriptor", joined(&["SPLIT start int; IN 5 1".to_string(), chosen(&one), traffic(5)])),
    ]
}

fn descriptors() -> Vec<(&'static str, String)> {
    let (inwards, outwards) = (endpoint(0x81, 2, 64), endpoint(0x02, 2, 64));
    let of = |parts: &[&[u8]]| chosen_of(&parts.iter().map(|p| p.to_vec()).collect::<Vec<_>>());
    let plain = interface(0, 0, 2, 8);
    let audio = [
        association(0, 2),
        plain.clone(),
        unknown(0x24, 5),
        inwards.clone(),
        unknown(0x25, 7),
        interface(1, 0, 2, 3),
        hid(1, 9),
        endpoint(0x83, 3, 8),
        audio_endpoint(0x04, 1, 192),
    ];
    let shared = [interface(1, 0, 1, 8), inwards.clone(), interface(0, 0, 1, 3), endpoint(0x81, 3, 8)];
    let alternates = [plain.clone(), inwards.clone(), interface(1, 0, 0, 3), interface(1, 1, 1, 3), endpoint(0x81, 3, 8)];
    let second = configuration(2, &[interface(1, 0, 1, 8), outwards.clone()]);
    let mut short = inwards.clone();
    short[0] = 6;
    short.pop();
    vec![
        ("descriptor-unknown", chosen_of(&audio)),
        ("descriptor-blength-0", of(&[&plain, &inwards, &[0], &outwards])),
        ("descriptor-blength-1", of(&[&plain, &inwards, &[1], &outwards])),
        ("descriptor-lone-byte", of(&[&plain, &inwards, &[7]])),
        ("descriptor-hid-87", of(&[&interface(0, 0, 2, 3), &hid(87, 11), &inwards])),
        (
            "descriptor-config-behind",
            joined(&[read_configuration(5, &[plain.clone(), disk(1, 64)].concat()), set_configuration(5, 1)]),
        ),
        ("descriptor-config-twice", of(&[&plain, &inwards, &second])),
        ("endpoint-6-bytes", of(&[&plain, &short, &outwards])),
        ("endpoint-before-interface", of(&[&inwards, &plain, &outwards])),
        ("endpoint-0", of(&[&plain, &endpoint(0x80, 2, 64), &endpoint(0x00, 0, 8), &outwards])),
        ("endpoint-reserved", of(&[&plain, &endpoint(0x91, 2, 64), &endpoint(0x42, 2, 64), &outwards])),
        ("endpoint-shared", chosen_of(&shared)),
        ("interface-twice", of(&[&plain, &inwards, &plain, &outwards])),
        ("interface-shared", joined(&[chosen_of(&alternates), set_interface(5, 1, 1), set_interface(5, 0, 0)])),
    ]
}

fn reads() -> Vec<(&'static str, String)> {
    let one = disk(1, 64);
    let request = |kind: u8, value: u16| setup(kind, 6, value, 0, 32);
    let other = |kind: u8, value: u16| {
        joined(&[asked(5, request(kind, value)), sent(5, &one, 64), status_out(5), set_configuration(5, 1)])
    };
    let begun = || joined(&[asked(5, request(0x80, CONFIGURATION)), sent(5, &one[..8], 8)]);
    let end = |from: usize| joined(&[sent(5, &one[from..], 8), status_out(5), set_configuration(5, 1)]);
    let first = hex(&one[..8]);
    let written = joined(&[asked(5, request(0, CONFIGURATION)), format!("OUT 5 0; DATA1 {}; ACK", hex(&one)), status_in(5)]);
    let mut twenty = device(64);
    twenty[0] = 20;
    twenty.extend([0, 0]);
    let mut wrong = device(64);
    wrong[1] = 3;
    vec![
        ("device-8", read(5, DEVICE, 8, &device(64)[..8], 8)),
        ("device-20", read(5, DEVICE, 20, &twenty, 64)),
        ("device-18-wrong", read(5, DEVICE, 18, &wrong, 64)),
        ("read-out", joined(&[written, set_configuration(5, 1)])),
        ("read-interface", other(0x81, CONFIGURATION)),
        ("read-other-speed", other(0x80, 0x0700)),
        ("read-class", other(0xA0, CONFIGURATION)),
        ("read-stalled", joined(&[begun(), "IN 5 0; STALL".to_string(), set_configuration(5, 1)])),
        ("read-unacknowledged", joined(&[asked(5, request(0x80, CONFIGURATION)), format!("IN 5 0; DATA1 {first}"), end(0)])),
        ("read-acknowledged-twice", acknowledged_twice()),
        (
            "read-keepalive",
            joined(&[asked(5, request(0x80, CONFIGURATION)), format!("IN 5 0; DATA1 {first}; event 0; ACK"), end(8)]),
        ),
        ("read-reset", joined(&[begun(), "event 1".to_string(), status_out(5), set_configuration(5, 1)])),
        ("read-reset-ignored", joined(&[begun(), "event 1".to_string(), end(8)])),
        ("read-aborted", joined(&[begun(), asked(5, request(0x80, CONFIGURATION)), end(0)])),
        ("read-split", read_split(&one)),
        ("read-two-devices", two_devices()),
    ]
}

/// A read whose second packet is one endpoint descriptor and comes twice, acknowledged each time: it counts twice.
fn acknowledged_twice() -> String {
    let payload = many(1, 7, 4);
    let (first, last) = payload.split_at(64);
    let request = asked(5, setup(0x80, 6, CONFIGURATION, 0, 255));
    joined(&[request, sent(5, first, 64), sent(5, last, 64), sent(5, last, 64), status_out(5), set_configuration(5, 1)])
}

/// A read by split transactions, start and complete.
fn read_split(payload: &[u8]) -> String {
    let request = hex(&setup(0x80, 6, CONFIGURATION, 0, 32));
    let both = |start: String, complete: String| format!("SPLIT start control; {start}; SPLIT complete control; {complete}");
    let part = |bytes: &[u8]| both("IN 5 0; ACK".to_string(), format!("IN 5 0; DATA1 {}", hex(bytes)));
    let parts: Vec<String> = payload.chunks(8).map(part).collect();
    joined(&[
        both(format!("SETUP 5 0; DATA0 {request}; ACK"), "SETUP 5 0; ACK".to_string()),
        joined(&parts),
        both("OUT 5 0; DATA1 *0; ACK".to_string(), "OUT 5 0; ACK".to_string()),
        set_configuration(5, 1),
    ])
}

/// Two devices that are read at the same time, packet by packet in turn.
fn two_devices() -> String {
    let payloads =
        [(5, disk(1, 64)), (6, configuration(1, &[interface(0, 0, 2, 3), endpoint(0x83, 3, 8), endpoint(0x04, 3, 16)]))];
    let each = |step: &dyn Fn(u8, &[u8]) -> String| joined(&payloads.clone().map(|(address, bytes)| step(address, &bytes)));
    let parts: Vec<String> = (0..4).map(|i| each(&|address, bytes| sent(address, &bytes[8 * i..8 * i + 8], 8))).collect();
    joined(&[
        each(&|address, _| asked(address, setup(0x80, 6, CONFIGURATION, 0, 32))),
        joined(&parts),
        each(&|address, _| status_out(address)),
        each(&|address, _| set_configuration(address, 1)),
    ])
}

/// At the limits: payloads of 4,095 to 4,097 bytes, whose last endpoint descriptor is whole, and 584 to 587 entries in two configurations.
fn limits() -> Vec<(String, String)> {
    let bytes = [3, 4, 5].map(|filler| (format!("read-{}", 4092 + filler as usize), chosen(&many(1, 582, filler))));
    let entries = [584, 585, 586, 587].map(|count| {
        let reads = [read_configuration(5, &many(1, 290, 0)), read_configuration(5, &many(2, count - 290, 0))];
        (format!("entries-{count}"), joined(&[joined(&reads), set_configuration(5, 2), set_configuration(5, 1)]))
    });
    bytes.into_iter().chain(entries).collect()
}

/// All of them, by name.
pub fn all() -> Vec<(String, Vec<u8>)> {
    let named = [whole_enumerations(), configurations(), descriptors(), reads()].into_iter().flatten();
    let named = named.map(|(name, text)| (name.to_string(), text));
    named.chain(limits()).map(|(name, text)| (name, written(&text))).collect()
}
