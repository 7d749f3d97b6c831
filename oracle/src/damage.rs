//! Traces for the comparison: a kind and a length from a random generator, whole or damaged in one of several ways; and inputs that are
//! hardly a trace at all.

use crate::generate::{CAMERA, EXTRA, KINDS, Random, generate};
use crate::trace::{Reader, Writer};

/// How a trace is damaged.
pub const DAMAGES: [(&str, fn(&mut Vec<u8>, &mut Random)); 9] = [
    ("bits turned", turn_bits),
    ("bytes changed", change_bytes),
    ("cut", cut),
    ("wrong tag", wrong_tag),
    ("wrong length", wrong_length),
    ("wrong header", wrong_header),
    ("bytes put in", put_in),
    ("bytes taken out", take_out),
    ("bytes behind", behind),
];

fn place(trace: &[u8], random: &mut Random) -> usize {
    random.below(trace.len().max(1) as u64) as usize
}

fn turn_bits(trace: &mut Vec<u8>, random: &mut Random) {
    for _ in 0..random.below(8) + 1 {
        let at = place(trace, random);
        trace[at] ^= 1 << random.below(8);
    }
}

fn change_bytes(trace: &mut Vec<u8>, random: &mut Random) {
    for _ in 0..random.below(4) + 1 {
        let at = place(trace, random);
        trace[at] = random.next() as u8;
    }
}

fn cut(trace: &mut Vec<u8>, random: &mut Random) {
    trace.truncate(place(trace, random));
}

/// Where the records start.
fn starts(trace: &[u8]) -> Vec<usize> {
    let mut reader = Reader::new(trace);
    let mut starts = Vec::new();
    loop {
        let at = reader.at;
        match reader.next() {
            Some(Ok(_)) => starts.push(at),
            _ => return starts,
        }
    }
}

fn wrong_tag(trace: &mut Vec<u8>, random: &mut Random) {
    let starts = starts(trace);
    trace[random.pick(&starts)] = random.pick(&[0, 1, 2, 3, 3, 4, 127, 128, 255]);
}

fn wrong_length(trace: &mut Vec<u8>, random: &mut Random) {
    let starts = starts(trace);
    let at = random.pick(&starts);
    trace[at] = 0;
    let length = random.pick(&[0, 1, 2, 3, 10, 11, 12, 1027, 1028, 4096, 4097, 0xFFFF]);
    trace[at + 5..at + 7].copy_from_slice(&(length as u16).to_le_bytes());
}

fn wrong_header(trace: &mut Vec<u8>, random: &mut Random) {
    let at = random.below(5) as usize;
    trace[at] = trace[at].wrapping_add(random.below(255) as u8 + 1);
}

fn put_in(trace: &mut Vec<u8>, random: &mut Random) {
    let at = place(trace, random);
    let count = random.below(20);
    trace.splice(at..at, random.bytes(count));
}

fn take_out(trace: &mut Vec<u8>, random: &mut Random) {
    let at = place(trace, random);
    let end = (at + random.below(20) as usize).min(trace.len());
    trace.drain(at..end);
}

fn behind(trace: &mut Vec<u8>, random: &mut Random) {
    let count = random.below(30) + 1;
    trace.extend(random.bytes(count));
}

/// A trace, its kind, and the damage done to it.
pub struct Made {
    pub bytes: Vec<u8>,
    pub kind: &'static str,
    pub damage: Option<usize>,
}

/// A kind of trace; those of `EXTRA` two times in five, and the last of them, in which details and descriptors meet, once more in twenty. In the mode
/// of change request 6 one in three is a camera's.
fn any_kind(random: &mut Random, high: bool) -> &'static str {
    if high && random.below(3) == 0 {
        return CAMERA.0;
    }
    match random.below(20) {
        0 => EXTRA[EXTRA.len() - 1].0,
        1..9 => random.pick(&EXTRA).0,
        _ => random.pick(&KINDS).0,
    }
}

/// A trace of any kind: most short enough for the program, some long.
pub fn made(random: &mut Random, high: bool) -> Made {
    let kind = any_kind(random, high);
    let most = random.pick(&[20, 20, 100, 200, 200, 200, 200, 300, 400, 3000]);
    let records = random.below(most) + 1;
    let mut bytes = generate(random.next(), records, kind).expect("a kind of the list");
    let damage = random.chance(30).then(|| random.below(DAMAGES.len() as u64) as usize);
    if let Some(damage) = damage {
        DAMAGES[damage].1(&mut bytes, random);
    }
    Made { bytes, kind, damage }
}

/// What may stand on the program's standard input.
pub const INPUTS: [(&str, fn(&mut Random) -> Vec<u8>); 6] = [
    ("bytes at random", noise),
    ("a header, then bytes at random", headed),
    ("records at random", records),
    ("traces damaged", damaged),
    ("traces whole", whole),
    ("lengths about the buffer's", about_the_buffer),
];

fn noise(random: &mut Random) -> Vec<u8> {
    let most = random.pick(&[4, 16, 300, 20_000, 100_000]);
    let count = random.below(most);
    random.bytes(count)
}

fn headed(random: &mut Random) -> Vec<u8> {
    let mut bytes = Writer::default().bytes;
    bytes.extend(noise(random));
    bytes
}

/// Records that can be read, with fields that are anything.
fn records(random: &mut Random) -> Vec<u8> {
    let mut trace = Writer::default();
    for _ in 0..random.below(60) {
        let ticks = random.next() as u32;
        match random.below(8) {
            0 => trace.event(ticks, random.below(9) as u8, random.next() as u8),
            1 => {
                let numbers = [random.below(2), random.below(17), random.below(2), random.below(5)].map(|n| n as u8);
                trace.detail(numbers[0], numbers[1], numbers[2], numbers[3], random.next() as u16);
            }
            _ => {
                let most = random.pick(&[1, 2, 4, 5, 12, 70]);
                let count = random.below(most);
                trace.packet(ticks, &random.bytes(count));
            }
        }
    }
    trace.bytes
}

fn damaged(random: &mut Random) -> Vec<u8> {
    let mut bytes = whole(random);
    for _ in 0..random.below(3) + 1 {
        // A damage wants a header and a record to work on.
        if bytes.len() > 12 && Reader::new(&bytes).next().is_some_and(|r| r.is_ok()) {
            DAMAGES[random.below(DAMAGES.len() as u64) as usize].1(&mut bytes, random);
        }
    }
    bytes
}

fn whole(random: &mut Random) -> Vec<u8> {
    let kind = any_kind(random, false);
    let most = random.pick(&[10, 50, 150, 800]);
    let records = random.below(most) + 1;
    generate(random.next(), records, kind).expect("a kind of the list")
}

/// Details, which leave no row, and a packet up to a length about the buffer's; now and then the record is cut.
fn about_the_buffer(random: &mut Random) -> Vec<u8> {
    let length = crate::listing::BUFFER + random.below(9) as usize - 4;
    let mut trace = Writer::default();
    while trace.bytes.len() + 7 + 7 <= length {
        trace.detail(0, 1, 0, 2, 64);
    }
    let count = (length - trace.bytes.len() - 7) as u64 + random.pick(&[0, 0, 0, 1]);
    trace.packet(random.next() as u32, &random.bytes(count));
    trace.bytes.truncate(length);
    trace.bytes
}
