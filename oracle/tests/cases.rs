//! 01's bench cases and answers on the oracle. What is expected here is written from document 01 and USB 2.0 by hand.

use oracle::calls::{Calls, LOGS, Mechanism, Rows};
use oracle::decoder::machine::Machine;
use oracle::generate::{KINDS, Random, generate};
use oracle::listing::listing;
use oracle::packets::{data, token};
use oracle::trace::{Clock, Reader, answers, call};
use oracle::traces::{after, written};
use oracle::usb::{PID, validate_packet};

fn list(text: &str) -> String {
    listing::<Machine>(&written(text), usize::MAX, Rows::LARGEST, 0)
}

fn answered(text: &str) -> Vec<u8> {
    answers::<Machine>(&written(text), Rows::LARGEST, 0, None)
}

fn lines<'a>(listing: &'a str, start: &str) -> Vec<&'a str> {
    listing.lines().filter(|l| l.starts_with(start)).collect()
}

#[test]
fn worked_example() {
    let trace = [
        0x55, 0x54, 0x4C, 0x01, 0x00, 0x00, 0x00, 0x00, 0x00, 0x00, 0x03, 0x00, 0xA5, 0x00, 0x10, 0x00, 0x01, 0x00, 0x00, 0x00,
        0x01, 0x00, 0xD2,
    ];
    let expected = "\
UTL 1
device 0 0
endpoint 0 0 event
endpoint 1 0 invalid
endpoint 2 0 framing
packet 0 0 0
packet 1 3 1
transaction 0 0 0
transaction 1 1 0
group 0 2 0 start 0 0
group 1 1 0 start 1 1
group 2 1 0 end 1 1
state 0 IIS
state 1 ISO
state 2 IEO
item 0 0
item 1 1
link T 2 0
link G 2 0
link T 1 1
link G 1 0
";
    assert_eq!(listing::<Machine>(&trace, 23, Rows::PROGRAM, 0), expected);
    assert_eq!(listing::<Machine>(&trace, 22, Rows::PROGRAM, 0), "too long\n");
}

#[test]
fn packet_cases() {
    assert_eq!(validate_packet(&[]), Err(None));
    assert_eq!(validate_packet(&[0x2D, 0x00, 0x10]), Ok(PID::SETUP));
    assert!(validate_packet(&[0x2D, 0x00, 0x11]).is_err());
    assert_eq!(validate_packet(&[0x4B, 0x00, 0x00]), Ok(PID::DATA1));
    assert_eq!(validate_packet(&[0xD2]), Ok(PID::ACK));
    assert!(validate_packet(&[0xD2, 0x00]).is_err());
    assert!(validate_packet(&[0xD3]).is_err());
    assert_eq!(validate_packet(&[0x3C]), Ok(PID::ERR));
    assert!(validate_packet(&[0xF0]).is_err());
    for (payload, good) in [(0, true), (1024, true), (1025, false)] {
        assert_eq!(validate_packet(&data(PID::DATA0, &vec![7; payload])).is_ok(), good);
    }
    // The published vectors: address 3A endpoint A, 70 endpoint 4; CRC-16/USB of "123456789".
    assert_eq!(token(PID::SETUP, 0x3A, 0xA)[2] >> 3, 0b00111);
    assert_eq!(token(PID::IN, 0x70, 0x4)[2] >> 3, 0b01110);
    assert_eq!(data(PID::DATA0, b"123456789")[10..], [0xC8, 0xB4]);
}

#[test]
fn transaction_cases() {
    let next = |text: &str, packet: &[u8]| after(text).machine.status(packet).1;
    assert_eq!(next("SETUP 0 0", &data(PID::DATA0, &[0; 8])), "Continue");
    assert_eq!(next("SETUP 0 0", &data(PID::DATA0, &[0; 7])), "Invalid");
    let payload = data(PID::DATA0, &[0; 8]);
    assert_eq!(next("OUT 0 1", &payload), "Ambiguous");
    assert_eq!(next("detail 0 1 0 1 64; OUT 0 1", &payload), "Done");
    assert_eq!(next("detail 0 1 0 2 64; OUT 0 1", &payload), "Continue");
}

#[test]
fn short_payloads() {
    let ends = |text: &str| lines(&list(text), "group").iter().filter(|l| l.contains(" end ")).count();
    assert_eq!(ends("detail 0 1 0 2 64; OUT 0 1; DATA0 *64; ACK; OUT 0 1; DATA1 *63; ACK"), 1);
    assert_eq!(ends("detail 0 1 0 2 64; OUT 0 1; DATA0 *64; ACK; OUT 0 1; DATA1 *64; ACK"), 0);
    assert_eq!(ends("OUT 0 1; DATA0 *64; ACK; OUT 0 1; DATA1 *0; ACK"), 0);
    assert_eq!(ends("detail 0 1 0 1 64; OUT 0 1; DATA0 *64; OUT 0 1; DATA0 *63; OUT 0 1; DATA0 *64"), 0);
}

#[test]
fn suspended_transactions() {
    // SPLIT, keepalive, packet: 8; the packet is logged and nothing else.
    assert_eq!(answered("SPLIT start bulk; event 0; ACK"), [0, 0, 8, 0]);
    let rows = list("SPLIT start bulk; event 0; ACK");
    assert_eq!(lines(&rows, "packet"), ["packet 0 0 0", "packet 1 4 1", "packet 2 4 2"]);
    assert_eq!(lines(&rows, "transaction"), ["transaction 0 0 0", "transaction 1 1 0"]);
    // A keepalive suspends and the packet resumes; a second keepalive with no packet between forgets the transaction.
    assert!(lines(&list("IN 0 1; event 0; NAK"), "link T 3").len() == 2);
    assert!(after("IN 0 1; event 0; event 0").machine.view().expect("a decoder").suspended.is_none());
    assert!(after("IN 0 1; event 0; event 7").machine.view().expect("a decoder").suspended.is_some());
}

#[test]
fn longest_packet() {
    assert_eq!(answered("long 4096"), [0, 0]);
    assert_eq!(answered("long 4097"), [3, 0]);
    assert_eq!(lines(&list("long 4096"), "link"), ["link T 1 0", "link G 1 0"]);
}

#[test]
fn mends() {
    // A SETUP's DATA0 of other than 11 bytes in a split is Invalid: a transaction of its own.
    assert_eq!(lines(&list("SPLIT start control; SETUP 0 0; DATA0 *7"), "transaction").len(), 2);
    // An event or finish that ends a split without its token writes nothing.
    assert_eq!(answered("SPLIT start bulk; event 1"), [0, 0, 0]);
    assert_eq!(lines(&list("SPLIT start bulk"), "group").len(), 0);
    // A transaction without its T link, on an endpoint with neither an early nor an active group: it gets the link with its group.
    let view = after("IN 0 1; IN 0 1; event 0; event 1").machine.view().expect("a decoder");
    assert!(view.suspended.expect("a suspended transaction").link.is_none());
    assert!(view.endpoints[3].early.is_none() && view.endpoints[3].active.is_none());
    let rows = list("IN 0 1; IN 0 1; event 0; event 1; NAK");
    assert_eq!(lines(&rows, "link ")[7..], ["link T 3 4", "link G 3 1"]);
    // No setup was done: Invalid, and no request row.
    assert!(lines(&list("SETUP 0 0; IN 0 0; DATA1 *0; ACK"), "request").is_empty());
    // A D row under the waiting payload's T number.
    let rows = list("SPLIT start control; OUT 0 0; DATA0 *8; ACK; SETUP 0 0; bad; SPLIT start int; IN 0 0");
    assert_eq!(lines(&rows, "link").last(), Some(&"link D 3 0 0"));
}

#[test]
fn requests() {
    let control_write = "SETUP 0 0; DATA0 =00 09 01 00 00 00 08 00; ACK; OUT 0 0; DATA1 *8; ACK; IN 0 0; DATA1 *0; ACK";
    let rows = list(&format!("{control_write}; OUT 0 0; DATA1 *8; ACK; IN 0 0; DATA1 *0; ACK"));
    assert_eq!(lines(&rows, "request"), ["request 0 3 0009010000000800 8 set 0", "request 1 3 0009010000000800 0 set 0"]);
    // SET_ADDRESS makes a device and no request row.
    let rows = list("SETUP 0 0; DATA0 =00 05 C8 01 00 00 00 00; ACK; IN 0 0; DATA1 *0; ACK");
    assert_eq!(lines(&rows, "device"), ["device 0 0", "device 1 200"]);
    assert!(lines(&rows, "request").is_empty());
}

/// The answers in 01's order, each in a case where it is the first that applies.
#[test]
fn every_answer() {
    let trace = written("IN 0 1; DATA0 *8; ACK");
    let large = Rows::LARGEST;
    assert_eq!(answers::<Machine>(&trace, large, 0, None), [0, 0, 0, 0]);
    let mut too_long = large;
    too_long.0[10] += 1;
    assert_eq!(answers::<Machine>(&trace, too_long, 0, None), [1, 1, 1, 1]);
    assert_eq!(listing::<Machine>(&trace, 99, too_long, 0), "refused 1 at 0\n");
    assert_eq!(answers::<Machine>(&trace, large, 0, Some(1)), [0, 0, 2, 2, 2]);
    assert_eq!(answered("event 8"), [4, 0]);
    assert_eq!(
        answered("detail 0 16 0 2 64; detail 0 1 2 2 64; detail 0 1 0 4 64; detail 0 0 0 2 64; detail 9 16 0 0 0"),
        [5, 5, 5, 5, 5, 0]
    );
    assert_eq!(answered("detail 1 1 0 2 64; detail 0 1 0 2 64"), [6, 0, 0]);
    let mut no_links = large;
    no_links.0[10] = 1;
    assert_eq!(answers::<Machine>(&trace, no_links, 0, None), [7, 7, 7, 0]);
    let mut no_endpoint = large;
    no_endpoint.0[2] = 2;
    assert_eq!(answers::<Machine>(&trace, no_endpoint, 0, None), [1, 1, 1, 1]);
    assert_eq!(listing::<Machine>(&trace, 99, no_endpoint, 0), "refused 7 at 0\n");
    assert_eq!(answers::<Machine>(&trace, large, u64::MAX - 8, None), [0, 0, 0, 0]);
    assert_eq!(answers::<Machine>(&trace, large, u64::MAX - 7, None), [0, 0, 9, 0]);
    // 7 before 9, and a packet that would be 8 but has no room is 7.
    let mut full = large;
    full.0[10] = 2;
    assert_eq!(answers::<Machine>(&trace, full, u64::MAX, None), [0, 0, 7, 0]);
    let mut bytes = large;
    bytes.0[0] = 4;
    assert_eq!(answers::<Machine>(&written("SPLIT start bulk; event 0; ACK"), bytes, 0, None), [0, 0, 7, 0]);
    for (text, answer) in [(&b"UTX\x01\x00"[..], 10), (b"UTL\x01", 11), (b"UTL\x01\x00\x03", 12), (b"UTL\x01\x00\x02\x00", 13)] {
        assert_eq!(answers::<Machine>(text, large, 0, None), [answer]);
    }
}

/// Room is exact: with just the rows that a trace leaves it passes, with one row fewer in any log it is refused with 7.
#[test]
fn exact_room() {
    for (kind, _) in KINDS {
        for seed in 0..20 {
            let trace = generate(seed, 80, kind).expect("a kind");
            let Ok(calls) = oracle::trace::run::<Machine>(&trace, Rows::LARGEST, 0) else { continue };
            let room = calls.rows();
            let whole = listing::<Machine>(&trace, usize::MAX, Rows::LARGEST, 0);
            assert_eq!(listing::<Machine>(&trace, usize::MAX, room, 0), whole);
            for log in 0..LOGS.len() {
                let mut tight = room;
                if tight.0[log] > 0 {
                    tight.0[log] -= 1;
                    let refused = listing::<Machine>(&trace, usize::MAX, tight, 0);
                    assert!(refused.starts_with("refused 7 at "), "{kind} {seed} {}: {refused}", LOGS[log]);
                }
            }
        }
    }
}

/// A refused call leaves no mark: a trace without the refused records gives the same rows, but for the ticks.
#[test]
fn refused_calls_change_nothing() {
    let with = "IN 0 1; detail 9 1 0 2 64; DATA0 *8; event 9; ACK; long 4097";
    let trace = written(with);
    let mut calls = Calls::<Machine>::new(Rows::LARGEST, 0, false);
    let mut reader = Reader::new(&trace);
    let mut clock = Clock::default();
    while let Some(record) = reader.next() {
        call(&mut calls, &mut clock, &record.expect("a record"));
    }
    let rows = oracle::listing::rows(&calls);
    let without = oracle::listing::rows(&after("IN 0 1; DATA0 *8; ACK"));
    assert_eq!(rows.replace("packet 1 3 2", "packet 1 3 1").replace("packet 2 14 4", "packet 2 14 2"), without);
}

/// Any byte string gives one of 01's outputs.
#[test]
fn any_input() {
    let mut random = Random::new(5);
    for round in 0..20_000u64 {
        let kind = KINDS[round as usize % KINDS.len()].0;
        let mut bytes = generate(round, 30, kind).expect("a kind");
        for _ in 0..random.below(4) {
            let place = random.below(bytes.len() as u64) as usize;
            bytes[place] = random.next() as u8;
        }
        if random.chance(20) {
            let end = random.below(bytes.len() as u64 + 1) as usize;
            bytes.truncate(end);
        }
        let out = listing::<Machine>(&bytes, 16384, Rows::PROGRAM, 0);
        let one_line = out.lines().count() == 1;
        assert!(out == "too long\n" || one_line && out.starts_with("refused ") || out.starts_with("UTL 1\ndevice 0 0\n"));
    }
}
