//! Why a packet is malformed (change request 1), and the reason that a transaction row carries. What is expected is written by hand, from the
//! request and from USB 2.0, table 8-1.

use oracle::calls::{Calls, Rows, TRANSACTIONS};
use oracle::decoder::machine::Machine;
use oracle::listing::listing;
use oracle::packets::{data, split, token};
use oracle::trace::{Clock, Reader, answers, call};
use oracle::traces::{SEQUENCES, written};
use oracle::usb::{PID, reason_of, validate_packet};

/// Table 8-1.
const PIDS: [u8; 15] = [0xE1, 0x69, 0xA5, 0x2D, 0xC3, 0x4B, 0x87, 0x0F, 0xD2, 0x5A, 0x1E, 0x96, 0x3C, 0x78, 0xB4];
const DATA: [u8; 4] = [0xC3, 0x4B, 0x87, 0x0F];
const HANDSHAKES: [u8; 5] = [0xD2, 0x5A, 0x1E, 0x96, 0x3C];

fn sequence(name: &str) -> Vec<u8> {
    written(SEQUENCES.iter().find(|(n, _)| *n == name).expect("a sequence").1)
}

/// The packet and the reason of each transaction row of a trace.
fn rows(trace: &[u8]) -> Vec<(u64, u64)> {
    let mut calls = Calls::<Machine>::new(Rows::LARGEST, 0, false);
    let mut reader = Reader::new(trace);
    let mut clock = Clock::default();
    while let Some(record) = reader.next() {
        assert!(matches!(call(&mut calls, &mut clock, &record.expect("a record")), 0 | 8));
    }
    assert_eq!(calls.finish(), 0);
    calls.log_words(TRANSACTIONS).chunks(2).map(|row| (row[0], row[1])).collect()
}

/// 01's starred packets, each with the reason that the request gives it.
#[test]
fn starred() {
    let cases: [(&[u8], u8); 8] = [
        (&[], 1),
        (&[0x2D, 0x00, 0x10], 0),
        (&[0x2D, 0x00, 0x11], 4),
        (&[0x4B, 0x00, 0x00], 0),
        (&[0xD2], 0),
        (&[0xD2, 0x00], 3),
        (&[0xD3], 2),
        (&[0; 4096], 2),
    ];
    for (packet, reason) in cases {
        assert_eq!(reason_of(packet), reason, "{packet:02X?}");
        let mut trace = oracle::trace::Writer::default();
        trace.packet(0, packet);
        assert_eq!(rows(&trace.bytes), [(0, reason as u64)], "{packet:02X?}");
    }
}

/// The PID is tested before the length, and the length before the CRC; F0 is no PID though its nibbles are complements.
#[test]
fn order() {
    let wrong = |mut packet: Vec<u8>| {
        *packet.last_mut().expect("a byte") ^= 0x80;
        packet
    };
    for (packet, reason) in [
        // PID before length: an ACK of two bytes, and with a bit turned in its PID.
        (vec![0xD2, 0x00], 3),
        (vec![0xD3, 0x00], 2),
        (vec![0xF0], 2),
        (vec![0xF0, 0x00, 0x10], 2),
        (vec![0xF0; 2000], 2),
        // PID before CRC.
        (vec![0x2C, 0x00, 0x11], 2),
        // Length before CRC: a SETUP cut short, and with a byte behind a CRC that is wrong.
        (vec![0x2D, 0x00], 3),
        (vec![0x2D, 0x00, 0x11, 0x00], 3),
        (vec![0x2D], 3),
        (split(1, 0, 1, 2)[..3].to_vec(), 3),
        (wrong(split(1, 0, 1, 2)), 4),
        (wrong(token(PID::IN, 5, 1)), 4),
        // Data has 3 to 1,027 bytes.
        (vec![0xC3], 3),
        (vec![0xC3, 0x00], 3),
        (data(PID::DATA0, &[7; 1024]), 0),
        (wrong(data(PID::DATA0, &[7; 1024])), 4),
        (data(PID::DATA0, &[7; 1025]), 3),
        (wrong(data(PID::DATA0, &[7; 1025])), 3),
    ] {
        assert_eq!(reason_of(&packet), reason, "{packet:02X?}");
    }
}

/// By every first byte and many lengths: a reason exactly where the Rust says that a packet is invalid, and the one that table 8-1 gives.
#[test]
fn every_first_byte() {
    for first in 0..=255u8 {
        for length in [1, 2, 3, 4, 5, 11, 1026, 1027, 1028, 4096] {
            let mut packet = vec![0x5A; length];
            packet[0] = first;
            let right_length = match first {
                0x78 => length == 4,
                _ if DATA.contains(&first) => (3..=1027).contains(&length),
                _ if HANDSHAKES.contains(&first) => length == 1,
                _ => length == 3,
            };
            // These bytes are the CRC of nothing that stands before them.
            let expected = match (PIDS.contains(&first), right_length, HANDSHAKES.contains(&first)) {
                (false, ..) => 2,
                (_, false, _) => 3,
                (.., false) => 4,
                (.., true) => 0,
            };
            assert_eq!(reason_of(&packet), expected, "{first:02X}, {length} bytes");
            assert_eq!(validate_packet(&packet).is_ok(), expected == 0);
        }
    }
}

/// Each reason in a row of its own; the ACK behind them fits nowhere and is valid.
#[test]
fn each_reason() {
    let reasons = [1, 2, 2, 2, 2, 2, 3, 3, 3, 3, 3, 4, 4, 4, 0];
    let expected: Vec<(u64, u64)> = (0..).zip(reasons).collect();
    assert_eq!(rows(&sequence("malformed-reasons")), expected);
    let lines = listing::<Machine>(&sequence("malformed-reasons"), usize::MAX, Rows::PROGRAM, 0);
    assert!(
        lines.contains("\ntransaction 0 0 1\ntransaction 1 1 2\n")
            && lines.contains("\ntransaction 13 13 4\ntransaction 14 14 0\n")
    );
}

/// A malformed packet that resumes a transaction has two rows, both with its reason: that of the transaction and its own. The keepalive's row has 0,
/// and a valid packet that resumes one has a single row.
#[test]
fn resumed() {
    let expected = [
        [(0, 0), (1, 0), (2, 1), (2, 1)],
        [(3, 0), (4, 0), (5, 2), (5, 2)],
        [(6, 0), (7, 0), (8, 3), (8, 3)],
        [(9, 0), (10, 0), (11, 4), (11, 4)],
    ];
    let last = [(12, 0), (13, 0), (14, 0), (15, 0), (16, 0), (17, 0), (18, 2), (18, 2)];
    assert_eq!(rows(&sequence("malformed-resumes")), [expected.as_flattened(), &last].concat());
}

/// A packet that is answered 8 is logged and has no row, malformed or not.
#[test]
fn dropped() {
    let text = "SPLIT start bulk; event 0; raw D3; raw";
    assert_eq!(answers::<Machine>(&written(text), Rows::LARGEST, 0, None), [0, 0, 8, 0, 0]);
    assert_eq!(rows(&written(text)), [(0, 0), (1, 0), (3, 1)]);
}

/// An event's packet row has no bytes, and is no empty packet.
#[test]
fn events() {
    assert_eq!(rows(&written("event 7; raw; event 1; raw")), [(0, 0), (1, 1), (2, 0), (3, 1)]);
}

/// A call that is refused leaves no reason behind: what comes in its place has its own.
#[test]
fn refused() {
    let mut room = Rows::LARGEST;
    room.0[0] = 1;
    let mut calls = Calls::<Machine>::new(room, 0, false);
    let answers = [calls.packet(&[0xD2, 0x00], 0), calls.packet(&[0xD3], 1), calls.packet(&[0xD2], 2), calls.packet(&[], 3)];
    assert_eq!(answers, [7, 0, 7, 0]);
    assert_eq!(calls.log_words(TRANSACTIONS), [0, 2, 1, 1]);
}
