//! The proved port, linked as a static library, beside the Rust: packets through both packet checks, states through both `group_status`,
//! whole traces through the library and through the program, blocks, single calls and pcap files through the library.

mod port;

use std::process::ExitCode;

use oracle::decoder::machine::{State, group_status_words};
use oracle::generate::Random;
use oracle::mode::{High, Mode, Plain};
use oracle::packets::{data, handshake, sof, split, token};
use oracle::program::Program;
use oracle::usb::PID::{self, *};
use oracle::usb::{REASONS, reason_of, validate_packet};
use oracle::{compare, report};
use port::Library;

/// What the port must answer: the PID where the Rust says that a packet is valid, else 256 times the reason, which is ours (change request 1).
fn expected_check(packet: &[u8]) -> u16 {
    validate_packet(packet).map_or(256 * reason_of(packet) as u16, |pid| pid as u16)
}

/// A valid packet of any PID.
fn valid(random: &mut Random) -> Vec<u8> {
    let (address, number) = (random.next() as u8, random.next() as u8);
    match random.pick(&[OUT, IN, SETUP, PING, SOF, SPLIT, DATA0, DATA1, DATA2, MDATA, ACK, NAK, STALL, NYET, ERR]) {
        SOF => sof(random.next() as u16),
        SPLIT => split(address, number & 1, random.next() as u8, random.next() as u8),
        pid @ (DATA0 | DATA1 | DATA2 | MDATA) => {
            let length = random.pick(&[0, 1, 7, 8, 9, 15, 16, 31, 32, 33, 63, 64, 512, 1023, 1024]);
            data(pid, &random.bytes(length))
        }
        pid @ (OUT | IN | SETUP | PING) => token(pid, address, number),
        pid => handshake(pid),
    }
}

/// Every length that a rule speaks of, with every first byte in turn; bytes random, but the checks of data packets right half the time.
fn of_length(random: &mut Random, length: u64, first: u8) -> Vec<u8> {
    let mut packet = random.bytes(length);
    if let Some(byte) = packet.first_mut() {
        *byte = first;
    }
    if length >= 3 && random.chance(50) {
        let made = data(PID::from(first), &packet[1..length as usize - 2]);
        packet[1..].copy_from_slice(&made[1..]);
    }
    packet
}

#[derive(Default)]
struct Tally {
    compared: u64,
    /// How many were valid, and how many malformed for each reason.
    reasons: [u64; 5],
    differences: u64,
}

impl Tally {
    fn compare(&mut self, packet: &[u8]) {
        let (expected, port) = (expected_check(packet), library::check(packet));
        self.compared += 1;
        self.reasons[reason_of(packet) as usize] += 1;
        if expected != port {
            self.differences += 1;
            println!("differs: {packet:02X?}: {expected:04X} expected, the port {port:04X}");
        }
    }
}

fn packets(count: u64) -> bool {
    let mut random = Random::new(8);
    let mut tally = Tally::default();
    for first in 0..=255 {
        for length in [0, 1, 2, 3, 4, 5, 11, 1026, 1027, 1028] {
            tally.compare(&of_length(&mut random, length, first));
        }
    }
    for length in (0..=1030).chain(4095..=4097) {
        for first in [DATA0, DATA1, DATA2, MDATA, SETUP, SPLIT, ACK] {
            tally.compare(&of_length(&mut random, length, first as u8));
        }
    }
    while tally.compared < count {
        let mut packet = valid(&mut random);
        tally.compare(&packet);
        let place = random.below(packet.len() as u64) as usize;
        packet[place] ^= 1 << random.below(8);
        tally.compare(&packet);
        packet.truncate(place);
        tally.compare(&packet);
    }
    let reasons: Vec<String> = REASONS.iter().zip(tally.reasons).map(|(name, n)| format!("{name} {n}")).collect();
    println!("packets: {} compared ({}), {} differences", tally.compared, reasons.join(", "), tally.differences);
    tally.differences == 0 && !tally.reasons.contains(&0)
}

// ---- group_status

/// A state that the Rust can hold: a transaction with its token, lengths that a packet can have. Values that matter come often.
fn state(random: &mut Random) -> State {
    let tokens = [SETUP, IN, OUT, PING, SOF, Malformed, SETUP, IN, OUT, ACK, DATA0];
    let pid = |random: &mut Random| random.pick(&tokens) as u64;
    let length = |random: &mut Random| random.pick(&[0, 1, 7, 8, 63, 64, 65, 1024]);
    let bit = |random: &mut Random| random.below(2);
    let setup = |random: &mut Random| {
        let kind = random.pick(&[0x00, 0x80, 0x20, 0x40, 0x60, 0x1F, 0x9F, 0xFF]);
        let request = random.pick(&[5, 5, 6, 9, 0]);
        let length = random.pick(&[0, 0, 1, 8, 256, 0xFF00, 0xFFFF]);
        kind | request << 8 | random.below(1 << 32) << 16 | length << 48
    };
    // Control endpoints and active groups have the most rows.
    let kind = random.pick(&[0, 0, 0, 0, 1, 2, 3, 4, 5, 6, 7]);
    let phase = random.pick(&[0, 1, 2, 2, 2, 2, 3]);
    let max = if kind < 4 { random.pick(&[0, 8, 64, 1024]) } else { 0 };
    [
        phase,
        pid(random),
        bit(random),
        pid(random),
        bit(random),
        bit(random),
        setup(random),
        length(random),
        bit(random),
        length(random),
        random.below(100),
        random.pick(&[1, 3]),
        bit(random),
        random.below(4),
        pid(random),
        bit(random),
        setup(random),
        bit(random),
        length(random),
        kind,
        max,
        bit(random),
        bit(random),
    ]
}

/// Where the setup bytes, or the T number of a payload that did not wait, are not there, the Rust has no value to compare.
fn comparable(mut words: [u64; 10]) -> [u64; 10] {
    if words[3] == 0 {
        words[4] = 0;
    }
    if words[6] == 0 {
        words[7] = 0;
    }
    words
}

fn groups(count: u64) -> bool {
    let mut random = Random::new(4);
    let (mut differences, mut met) = (0, [[0u64; 5]; 6]);
    for _ in 0..count {
        let state = state(&mut random);
        let (rust, port) = (comparable(group_status_words(&state)), comparable(library::group_status(&state)));
        met[rust[0] as usize][rust[1] as usize] += 1;
        if rust != port {
            differences += 1;
            println!("differs: {state:?}: the Rust {rust:?}, the port {port:?}");
        }
    }
    println!("status: no effect, new device, request, pending, indexed");
    for (name, row) in ["Single", "New", "Continue", "Retry", "Done", "Invalid"].iter().zip(met) {
        println!("{name}: {row:?}");
    }
    println!("groups: {count} states compared, {differences} differences");
    differences == 0
}

fn number(text: &str) -> Result<u64, String> {
    text.parse().map_err(|_| format!("{text} is no number"))
}

/// Where `rt check listing` leaves the program.
const LISTING: &str = "crates/listing/out/listing";

const USAGE: &str = "usage: compare COMMAND
  packets N               N packets through both packet checks: PID, or the reason of a malformed one
  groups N                N states through both group_status
  traces N SEED [PROGRAM] N traces through the library with several rooms and through the program: all rows and bytes, every listing
  table N SEED [PROGRAM]  the same, with a table of how often each case of decoder.rs was met
  inputs N SEED [PROGRAM] N inputs to the program, most of them damaged
  blocks N SEED           N traces in blocks through the library: what each block answers, all rows and bytes
  calls N SEED            N single calls through the library, refused ones among them: after each the answer, the counts, the rows
  pcap N SEED             the packets of N sequences of calls exported and imported by the library, in all formats and damaged: files, answers, rows
PROGRAM is the program `listing` (crates/listing/out/listing)
With --high behind traces, table, blocks, calls or pcap the library and the program are compared in the mode of change request 6";

/// Whole traces in a mode.
fn traces<D: Mode>(table: bool, n: u64, seed: u64, rest: &[&str]) -> Result<bool, String> {
    let mut program = Program::new(rest.first().unwrap_or(&LISTING), D::HIGH)?;
    let tally = compare::traces::<D>(&mut Library::new(D::HIGH), &mut program, n, seed);
    Ok(report::traces(&tally, table))
}

fn blocks<D: Mode>(n: u64, seed: u64) -> bool {
    report::blocks(&oracle::blocks::blocks::<D>(&mut Library::new(D::HIGH), n, seed))
}

fn calls<D: Mode>(n: u64, seed: u64) -> bool {
    report::calls(&oracle::singles::singles::<D>(&mut Library::new(D::HIGH), n, seed))
}

fn pcap<D: Mode>(n: u64, seed: u64) -> bool {
    report::files(&oracle::files::files::<D>(&mut Library::new(D::HIGH), n, seed))
}

fn run(words: &[&str]) -> Result<bool, String> {
    match *words {
        ["packets", n] => Ok(packets(number(n)?)),
        ["groups", n] => Ok(groups(number(n)?)),
        [command @ ("traces" | "table"), "--high", n, seed, ref rest @ ..] if rest.len() < 2 => {
            traces::<High>(command == "table", number(n)?, number(seed)?, rest)
        }
        [command @ ("traces" | "table"), n, seed, ref rest @ ..] if rest.len() < 2 => {
            traces::<Plain>(command == "table", number(n)?, number(seed)?, rest)
        }
        ["inputs", n, seed, ref rest @ ..] if rest.len() < 2 => {
            let mut program = Program::new(rest.first().unwrap_or(&LISTING), false)?;
            Ok(report::inputs(&compare::inputs(&mut program, number(n)?, number(seed)?)))
        }
        ["blocks", n, seed] => Ok(blocks::<Plain>(number(n)?, number(seed)?)),
        ["blocks", "--high", n, seed] => Ok(blocks::<High>(number(n)?, number(seed)?)),
        ["calls", n, seed] => Ok(calls::<Plain>(number(n)?, number(seed)?)),
        ["calls", "--high", n, seed] => Ok(calls::<High>(number(n)?, number(seed)?)),
        ["pcap", n, seed] => Ok(pcap::<Plain>(number(n)?, number(seed)?)),
        ["pcap", "--high", n, seed] => Ok(pcap::<High>(number(n)?, number(seed)?)),
        _ => Err(USAGE.to_string()),
    }
}

fn main() -> ExitCode {
    let words: Vec<String> = std::env::args().skip(1).collect();
    match run(&words.iter().map(String::as_str).collect::<Vec<_>>()) {
        Ok(true) => ExitCode::SUCCESS,
        Ok(false) => ExitCode::FAILURE,
        Err(message) => {
            eprintln!("{message}");
            ExitCode::FAILURE
        }
    }
}
