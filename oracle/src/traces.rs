//! The traces of the repository: 01's bench cases, the sequences where readers slip, enumerations, details beside descriptors, and small traces of
//! every kind, each with the listing that it must give. A port replays them with no Rust at hand.

use std::fs;
use std::path::Path;

use crate::calls::{Calls, Mechanism, Rows};
use crate::cameras;
use crate::decoder::machine::Machine;
use crate::enumerations;
use crate::generate::{KINDS, generate};
use crate::listing::{BUFFER, listing};
use crate::mode::{High, Mode};
use crate::packets::{data, handshake, sof, split, token};
use crate::trace::{Clock, Reader, Writer, call};
use crate::typed;
use crate::usb::PID;

/// Sequences by name. `script` says how they are written.
pub const SEQUENCES: &[(&str, &str)] = &[
    // 01, "Trace and listing": the worked example.
    ("worked", "raw A5 00 10; raw D2"),
    // 01, "Bench cases".
    ("empty-packet", "raw"),
    ("setup-token", "raw 2D 00 10"),
    ("setup-bad-crc", "raw 2D 00 11"),
    ("data-empty", "raw 4B 00 00"),
    ("ack", "raw D2"),
    ("ack-two-bytes", "raw D2 00"),
    ("ack-bad-complement", "raw D3"),
    ("setup-eleven", "SETUP 0 0; DATA0 *8; ACK"),
    ("setup-ten", "SETUP 0 0; DATA0 *7; ACK"),
    ("out-unknown", "OUT 0 1; DATA0 *8; OUT 0 1; DATA0 *8; ACK"),
    ("out-isochronous", "detail 0 1 0 1 64; OUT 0 1; DATA0 *8; ACK"),
    ("out-bulk", "detail 0 1 0 2 64; OUT 0 1; DATA0 *8; ACK"),
    ("short-63", "detail 0 1 0 2 64; OUT 0 1; DATA0 *64; ACK; OUT 0 1; DATA1 *63; ACK"),
    ("full-64", "detail 0 1 0 2 64; OUT 0 1; DATA0 *64; ACK; OUT 0 1; DATA1 *64; ACK"),
    ("zero-of-unknown", "OUT 0 1; DATA0 *64; ACK; OUT 0 1; DATA1 *0; ACK"),
    ("isochronous-63", "detail 0 1 0 1 64; OUT 0 1; DATA0 *64; OUT 0 1; DATA0 *63; OUT 0 1; DATA0 *64"),
    ("split-keepalive-packet", "SPLIT start bulk; event 0; ACK; IN 0 1; NAK"),
    ("two-keepalives", "IN 0 1; event 0; event 0; NAK; IN 0 1; NAK"),
    ("longest-packet", "long 4096"),
    ("refused-3", "IN 0 1; NAK; long 4097"),
    // Change request 1: packets that are empty, have a bad PID, a wrong length or a bad CRC, several of these at once among them, and an ACK;
    // then each reason on a packet that resumes a transaction, the last time behind another event.
    (
        "malformed-reasons",
        "raw; raw D3; raw F0; raw F0 00 10; raw D3 00; raw 2C 00 11; raw D2 00; raw 2D 00; raw 2D 00 11 00; raw 78 01 01; raw C3 00; raw 2D 00 11; raw 78 01 01 45; raw 4B 00 01; ACK",
    ),
    (
        "malformed-resumes",
        "IN 0 1; event 0; raw; IN 0 1; event 0; raw D3; IN 0 1; event 0; raw D2 00; IN 0 1; event 0; raw 2D 00 11; IN 0 1; event 0; NAK; IN 0 1; event 0; event 7; raw D3",
    ),
    // Change request 9: an OUT that does not fit the control transfer it stands in has its group rows when it ends, by finish or by an event,
    // which then writes them before its packet row. Finish behind an event, behind a keepalive or behind no packet has no group row.
    (
        "finish-open",
        "detail 0 1 0 2 8; event 7; OUT 0 1; DATA0 *8; ACK; SETUP 0 0; DATA0 =80 06 00 01 00 00 12 00; ACK; OUT 0 0; DATA1 *8",
    ),
    (
        "event-ends-groups",
        "detail 0 1 0 2 8; event 7; OUT 0 1; DATA0 *8; ACK; SETUP 0 0; DATA0 =80 06 00 01 00 00 12 00; ACK; OUT 0 0; DATA1 *8; event 1; OUT 0 1; DATA0 *8; ACK",
    ),
    ("finish-event", "SETUP 0 0; DATA0 =80 06 00 01 00 00 12 00; ACK; OUT 0 0; DATA1 *8; event 7"),
    ("finish-keepalive", "SETUP 0 0; DATA0 =80 06 00 01 00 00 12 00; ACK; OUT 0 0; DATA1 *8; event 0"),
    ("finish-nothing", "detail 0 1 0 2 8"),
    // The mends (docs/DIFFERENCES.md).
    ("split-setup-ten", "SPLIT start control; SETUP 0 0; DATA0 *7; ACK"),
    ("split-event", "SPLIT start bulk; event 1; IN 0 1; NAK"),
    ("split-finish", "SPLIT start bulk"),
    ("split-split", "SPLIT start bulk; SPLIT start bulk; OUT 0 1; DATA0 *8; ACK"),
    ("suspended-no-group", "IN 0 1; IN 0 1; event 0; event 1"),
    ("setup-without-data", "SETUP 0 0; IN 0 0; DATA1 *0; ACK"),
    // Where a reader slips.
    ("early-token-in-split", "IN 0 1; ACK; SPLIT start int; IN 0 1"),
    ("early-ping-in-split", "SETUP 0 0; ACK; SPLIT start control; PING 0 0"),
    ("data-under-waiting", "SPLIT start control; OUT 0 0; DATA0 *8; ACK; SETUP 0 0; raw D3; SPLIT start int; IN 0 0"),
    ("split-type-kept", "SPLIT start int; IN 0 1; SPLIT complete bulk; IN 0 1; DATA0 *8; IN 0 1; DATA0 *8; ACK"),
    (
        "detail-control-in",
        "detail 0 0 1 0 8; SETUP 0 0; DATA0 =80 06 00 01 00 00 12 00; ACK; IN 0 0; DATA1 *8; ACK; OUT 0 0; DATA1 *0; ACK",
    ),
    ("set-address-200", "SETUP 0 0; DATA0 =00 05 C8 00 00 00 00 00; ACK; IN 0 0; DATA1 *0; ACK; detail 200 1 0 2 64"),
    (
        "set-address-zero",
        "IN 0 1; NAK; SETUP 0 0; DATA0 =00 05 00 00 00 00 00 00; ACK; IN 0 0; DATA1 *0; ACK; IN 0 1; NAK; IN 0 0; NAK",
    ),
    (
        "set-address-again",
        "SETUP 0 0; DATA0 =00 05 07 00 00 00 00 00; ACK; IN 0 0; DATA1 *0; ACK; IN 7 1; NAK; SETUP 0 0; DATA0 =00 05 07 00 00 00 00 00; ACK; IN 0 0; DATA1 *0; ACK; IN 7 1; NAK; event 1",
    ),
    ("keepalives", "event 0; event 0; IN 0 1; event 0; NAK; event 7; event 0"),
    ("single-events", "event 1; event 7; event 2; event 5"),
    ("event-ends-transaction", "OUT 0 1; DATA0 *8; event 1; SETUP 0 0; event 7; DATA0 *8"),
    ("resumed-twice", "OUT 0 1; event 0; OUT 0 1; DATA0 *8; event 0; ACK"),
    ("waiting-taken", "SPLIT start int; OUT 0 1; DATA0 *8; SPLIT complete int; OUT 0 1; NYET; SPLIT complete int; OUT 0 1; ACK"),
    ("waiting-counted", "SPLIT start int; OUT 0 1; DATA0 *8; SPLIT complete int; OUT 0 1; ACK"),
    ("bulk-complete-ack", "SPLIT complete bulk; OUT 0 1; ACK"),
    (
        "setup-outlives",
        "SETUP 0 0; DATA0 =00 09 01 00 00 00 08 00; ACK; OUT 0 0; DATA1 *8; ACK; IN 0 0; DATA1 *0; ACK; OUT 0 0; DATA1 *8; ACK; IN 0 0; DATA1 *0; ACK",
    ),
    ("ping-on-early", "IN 0 1; OUT 0 1; PING 0 1; NAK"),
    ("ping-on-out", "OUT 0 1; DATA0 *8; NAK; PING 0 1; NAK; PING 0 1; ACK; OUT 0 1; DATA0 *8; ACK"),
    ("second-setup", "SETUP 0 0; SETUP 0 0; DATA0 *8; ACK"),
    (
        "truncated-download",
        "detail 0 1 0 2 8; OUT 0 1; DATA0 *8; ACK; OUT 0 1; DATA1 *8; NAK; OUT 0 1; DATA1 *8; bad; OUT 0 1; DATA1 *8; ACK",
    ),
    ("detail-first", "detail 0 1 1 2 64; IN 0 1; DATA0 *64; ACK"),
    // Refusals of the calls.
    ("refused-4", "IN 0 1; NAK; event 8"),
    ("refused-5", "detail 0 0 0 2 64"),
    ("refused-5-number", "IN 0 1; NAK; detail 9 16 0 2 64"),
    ("refused-6", "IN 0 1; NAK; detail 9 1 0 2 64"),
];

/// Traces whose bytes matter, not their records: the refusals of the reader, a buffer that is too small, times that wrap.
fn byte_traces() -> Vec<(String, Vec<u8>)> {
    let whole = written("IN 0 1; NAK");
    let with = |tail: &[u8]| [whole.as_slice(), tail].concat();
    let mut wrap = Writer::default();
    for ticks in [5, u32::MAX, 3, 0, 0] {
        wrap.packet(ticks, &handshake(PID::ACK));
    }
    let many = |n: u64| {
        let mut t = Writer::default();
        (0..n).for_each(|_| t.packet(0, &sof(0)));
        t.bytes
    };
    [
        ("no-bytes", vec![]),
        ("no-mark", b"UTK\x01\x00".to_vec()),
        ("cut-mark", b"UT".to_vec()),
        ("no-version", b"UTL".to_vec()),
        ("cut-version", b"UTL\x01".to_vec()),
        ("version-2", b"UTL\x02\x00".to_vec()),
        ("no-records", b"UTL\x01\x00".to_vec()),
        ("unknown-tag", with(&[3])),
        ("cut-header", with(&[0, 1, 2])),
        ("cut-length", with(&[0, 0, 0, 0, 0, 1])),
        ("cut-packet", with(&[0, 0, 0, 0, 0, 2, 0, 0xD2])),
        ("cut-event", with(&[1, 0, 0, 0, 0, 0])),
        ("cut-detail", with(&[2, 0, 1, 0, 2, 64])),
        ("ticks-wrap", wrap.bytes),
        ("packets-512", many(512)),
        ("refused-7", many(513)),
        ("too-long", many(1700)),
    ]
    .into_iter()
    .map(|(name, bytes)| (name.to_string(), bytes))
    .collect()
}

/// All traces of the repository by name.
pub fn all() -> Vec<(String, Vec<u8>)> {
    let mut traces: Vec<_> = SEQUENCES.iter().map(|(name, text)| (name.to_string(), written(text))).collect();
    traces.extend(byte_traces());
    traces.extend(enumerations::all());
    traces.extend(typed::all());
    for (kind, _) in KINDS {
        for seed in 1..=2 {
            traces.push((format!("{kind}-seed{seed}"), generate(seed, 60, kind).expect("a kind of the list")));
        }
    }
    traces
}

/// A trace from a sequence, a tick apart. Words: a token with address and number; `SOF frame`; `SPLIT start|complete TYPE`; data with
/// `*n` (that many bytes 0, 1, ..) or `=` and hex; a handshake; `bad`, a malformed byte; `event kind`; `detail` with its five numbers;
/// `raw` and hex; `long n`, that many zeros.
pub fn written(text: &str) -> Vec<u8> {
    let mut trace = Writer::default();
    for (ticks, step) in text.split(';').enumerate() {
        let words: Vec<&str> = step.split_whitespace().collect();
        let number = |i: usize| words[i].parse::<u16>().expect(step);
        match words[0] {
            "event" => trace.event(ticks as u32, number(1) as u8, 100 + number(1) as u8),
            "detail" => trace.detail(number(1) as u8, number(2) as u8, number(3) as u8, number(4) as u8, number(5)),
            _ => trace.packet(ticks as u32, &packet(&words)),
        }
    }
    trace.bytes
}

/// The decoder after a sequence whose calls are all answered 0.
pub fn after(text: &str) -> Calls<Machine> {
    after_by(text)
}

/// The same by a decoder of one's own.
pub fn after_by<M: Mechanism>(text: &str) -> Calls<M> {
    let trace = written(text);
    let mut calls = Calls::new(Rows::LARGEST, 0, false);
    let mut reader = Reader::new(&trace);
    let mut clock = Clock::default();
    while let Some(record) = reader.next() {
        assert_eq!(call(&mut calls, &mut clock, &record.expect("a record")), 0);
    }
    calls
}

/// A packet by its words.
pub fn packet(words: &[&str]) -> Vec<u8> {
    let number = |i: usize| words[i].parse::<u16>().expect("a number");
    let hex = |words: &[&str]| words.iter().map(|w| u8::from_str_radix(w, 16).expect("hex")).collect::<Vec<u8>>();
    let place = |pid| token(pid, number(1) as u8, number(2) as u8);
    match words[0] {
        "IN" => place(PID::IN),
        "OUT" => place(PID::OUT),
        "SETUP" => place(PID::SETUP),
        "PING" => place(PID::PING),
        "SOF" => sof(number(1)),
        "SPLIT" => {
            let kinds = ["control", "isochronous", "bulk", "int"];
            let kind = kinds.iter().position(|k| *k == words[2]).expect("a type") as u8;
            split(1, (words[1] == "complete") as u8, 1, kind)
        }
        name @ ("DATA0" | "DATA1" | "DATA2" | "MDATA") => {
            let pids = [("DATA0", PID::DATA0), ("DATA1", PID::DATA1), ("DATA2", PID::DATA2), ("MDATA", PID::MDATA)];
            let pid = pids.iter().find(|(word, _)| *word == name).expect("a data packet").1;
            match words[1].split_at(1) {
                ("*", n) => data(pid, &(0..n.parse::<u16>().expect("a number")).map(|i| i as u8).collect::<Vec<u8>>()),
                (_, first) => data(pid, &hex(&[&[first], &words[2..]].concat())),
            }
        }
        "raw" => hex(&words[1..]),
        "bad" => vec![0xD3],
        "long" => vec![0; number(1) as usize],
        "ACK" => handshake(PID::ACK),
        "NAK" => handshake(PID::NAK),
        "NYET" => handshake(PID::NYET),
        "STALL" => handshake(PID::STALL),
        other => panic!("no word {other}"),
    }
}

/// What the program must print for a trace.
pub fn expected(trace: &[u8]) -> String {
    expected_by::<Machine>(trace)
}

fn expected_by<M: Mechanism>(trace: &[u8]) -> String {
    listing::<M>(trace, BUFFER, Rows::PROGRAM, 0)
}

/// The files of the folder by name: NAME.utl and NAME.listing for every trace.
fn files() -> Vec<(String, Vec<u8>)> {
    let both = |(name, trace): (String, Vec<u8>)| {
        let listing = expected(&trace).into_bytes();
        [(format!("{name}.utl"), trace), (format!("{name}.listing"), listing)]
    };
    all().into_iter().flat_map(both).collect()
}

/// The folder in it for the mode of change request 6: NAME.utl, NAME.listing in the mode, and NAME.plain without it.
const HIGH: &str = "high";

fn high_files() -> Vec<(String, Vec<u8>)> {
    let each = |(name, trace): (String, Vec<u8>)| {
        let (high, plain) = (expected_by::<<High as Mode>::Machine>(&trace), expected(&trace));
        let listings = [("listing", high), ("plain", plain)].map(|(end, text)| (format!("{name}.{end}"), text.into_bytes()));
        listings.into_iter().chain([(format!("{name}.utl"), trace)])
    };
    cameras::all().into_iter().flat_map(each).collect()
}

fn in_folder(folder: &str) -> String {
    Path::new(folder).join(HIGH).display().to_string()
}

pub fn write(folder: &str) -> Result<(), String> {
    let (files, high) = (files(), high_files());
    write_files(folder, &files)?;
    write_files(&in_folder(folder), &high)?;
    println!("{} traces written, {} in {HIGH}/", files.len() / 2, high.len() / 3);
    Ok(())
}

pub fn check(folder: &str) -> Result<(), String> {
    let (files, high) = (files(), high_files());
    check_files(folder, &files)?;
    check_files(&in_folder(folder), &high)?;
    println!("{} traces, {} in {HIGH}/: as the oracle gives them", files.len() / 2, high.len() / 3);
    Ok(())
}

/// Writes files, each by its name and its bytes.
pub fn write_files(folder: &str, files: &[(String, Vec<u8>)]) -> Result<(), String> {
    fs::create_dir_all(folder).map_err(|e| format!("{folder}: {e}"))?;
    for (name, bytes) in files {
        let path = Path::new(folder).join(name);
        fs::write(&path, bytes).map_err(|e| format!("{}: {e}", path.display()))?;
    }
    Ok(())
}

/// Compares what stands in the folder with what would be written; a file too many or too few is a difference. Folders in it are left alone.
pub fn check_files(folder: &str, files: &[(String, Vec<u8>)]) -> Result<(), String> {
    for (name, bytes) in files {
        let path = Path::new(folder).join(name);
        let found = fs::read(&path).map_err(|e| format!("{}: {e}", path.display()))?;
        if found != *bytes {
            return Err(format!("{}: differs from what the oracle gives", path.display()));
        }
    }
    let found = fs::read_dir(folder).map_err(|e| format!("{folder}: {e}"))?;
    let count = found.filter(|entry| entry.as_ref().is_ok_and(|e| !e.path().is_dir())).count();
    if count != files.len() {
        return Err(format!("{folder}: {count} files, and not {}", files.len()));
    }
    Ok(())
}
