//! Change request 8: what becomes of payloads, and the Rust's account of those that it counts, with what is expected written by hand.

use oracle::calls::{BYTES, Calls, Rows};
use oracle::ledger::Fate::{self, Counted, Passed};
use oracle::ledger::Why::*;
use oracle::ledger::{Call, Ledger, Note, Told, account, text};
use oracle::mode::Plain;
use oracle::once::{check, slips};
use oracle::trace::{Clock, Reader};
use oracle::traced::machine::Machine;
use oracle::traces::written;

/// The ledger and the Rust's account after the calls of a sequence, and after finish where it is asked for; refused calls are passed over.
fn kept<M: Told>(text: &str, finish: bool, room: Rows) -> (Ledger, Vec<Note>) {
    let (mut calls, mut ledger, mut clock) = (Calls::<M>::new(room, 0, false), Ledger::default(), Clock::default());
    let trace = written(text);
    let mut reader = Reader::new(&trace);
    let records = std::iter::from_fn(|| reader.next()).map(|record| Call::Record(record.expect("a record")));
    for call in records.chain(finish.then_some(Call::Finish)) {
        let world = calls.machine.world(call.packet()).expect("a decoder that has not finished");
        let answer = call.make(&mut calls, &mut clock);
        ledger.follow(&world, &call, answer);
    }
    let notes = account(&calls.machine);
    (ledger, notes)
}

fn fates(text: &str) -> Vec<Fate> {
    kept::<Machine>(text, false, Rows::LARGEST).0.fates
}

/// Rows 0 to 2 are the special endpoints, 3 is the first ordinary one. Packets are counted with events.
const FATES: &[(&str, &[Fate])] = &[
    // The handshake says whether a payload counts; an isochronous one has none.
    ("OUT 0 1; DATA0 *8; ACK", &[Counted(3, 1, 8)]),
    ("IN 0 1; DATA1 *0; ACK", &[Counted(3, 1, 0)]),
    ("detail 0 1 0 1 64; OUT 0 1; DATA0 *8", &[Counted(3, 1, 8)]),
    ("OUT 0 1; DATA0 *8; NAK", &[Passed(Failed, 3, 1, 8)]),
    ("OUT 0 1; DATA0 *8; OUT 0 1", &[Passed(Failed, 3, 1, 8)]),
    ("OUT 0 1; DATA0 *8; event 1", &[Passed(Failed, 3, 1, 8)]),
    // A packet that fits nowhere.
    ("OUT 0 1; DATA0 *8; bad; ACK", &[Passed(Replaced, 3, 1, 8)]),
    ("OUT 0 1; DATA0 *8; DATA1 *4", &[Passed(Replaced, 3, 1, 8), Passed(Stray, 0, 2, 4)]),
    ("DATA1 *3", &[Passed(Stray, 0, 0, 3)]),
    // No data packets: DATA2, and a DATA1 with a bad CRC.
    ("IN 0 1; raw 87 00 00; IN 0 1; raw 4B 00 01", &[]),
    // Setup data; with other than 8 bytes they fit nowhere.
    ("SETUP 0 0; DATA0 *8; ACK", &[Passed(Setup, 3, 1, 8)]),
    ("SPLIT start control; SETUP 0 0; DATA0 *8; ACK", &[Passed(Setup, 3, 2, 8)]),
    ("SETUP 0 0; DATA0 *7; ACK", &[Passed(Stray, 0, 1, 7)]),
    // SET_CONFIGURATION has no data: what comes with its status stage is not counted.
    ("SETUP 0 0; DATA0 =00 09 01 00 00 00 00 00; ACK; IN 0 0; DATA1 *5; ACK", &[Passed(Setup, 3, 1, 8), Passed(Unused, 3, 4, 5)]),
    // A start-split's payload waits for its completion, which counts it or not, once.
    ("SPLIT start int; OUT 0 1; DATA0 *8; SPLIT complete int; OUT 0 1; ACK", &[Counted(3, 2, 8)]),
    ("SPLIT start int; OUT 0 1; DATA0 *8; SPLIT complete int; OUT 0 1; NAK", &[Passed(Waited, 3, 2, 8)]),
    // NYET is a Retry: the group goes on without the payload, but a new group counts it.
    (
        "SPLIT start int; OUT 0 1; DATA0 *8; SPLIT complete int; OUT 0 1; NYET; SPLIT complete int; OUT 0 1; ACK",
        &[Passed(Waited, 3, 2, 8)],
    ),
    ("SPLIT start int; OUT 0 1; DATA0 *8; event 1; SPLIT complete int; OUT 0 1; NYET", &[Counted(3, 2, 8)]),
    // Another start-split in its place; a packet that fits nowhere and goes to its endpoint.
    ("SPLIT start int; OUT 0 1; DATA0 *8; SPLIT start int; OUT 0 1; DATA1 *4", &[Passed(Waited, 3, 2, 8)]),
    ("SPLIT start int; OUT 0 1; DATA0 *8; SPLIT complete int; PING 0 1", &[Passed(Waited, 3, 2, 8)]),
    // A split's own token ends it, on the control endpoint where a payload waits.
    ("SPLIT start control; OUT 0 0; DATA0 *8; ACK; SETUP 0 0; bad; SPLIT start int; IN 0 0", &[Counted(3, 2, 8)]),
    // A keepalive suspends, a second one forgets; another event leaves what is suspended.
    ("OUT 0 1; DATA0 *8; event 0; ACK", &[Counted(3, 1, 8)]),
    ("OUT 0 1; DATA0 *8; event 0; event 0; ACK", &[Passed(Forgotten, 3, 1, 8)]),
    ("OUT 0 1; DATA0 *8; event 0; event 7; ACK", &[Counted(3, 1, 8)]),
    ("SPLIT start bulk; event 0; DATA0 *8; DATA0 *9", &[Passed(Dropped, 0, 2, 8), Passed(Stray, 0, 3, 9)]),
    // A refused call counts for nothing.
    ("OUT 0 1; DATA0 *8; long 4097; event 8; detail 9 1 0 2 8; ACK", &[Counted(3, 1, 8)]),
];

#[test]
fn each_fate() {
    for (text, expected) in FATES {
        assert_eq!(fates(text), *expected, "{text}");
    }
}

/// What is open after the calls, and what finish leaves of it: it ends the current transaction and leaves a suspended one, and what waits.
#[test]
fn open() {
    let open = |text, finish| {
        let ledger = kept::<Machine>(text, finish, Rows::LARGEST).0;
        (ledger.held, ledger.waiting.into_iter().collect::<Vec<_>>(), ledger.fates)
    };
    assert_eq!(open("OUT 0 1; DATA0 *8", false), (Some((1, 8)), vec![], vec![]));
    assert_eq!(open("OUT 0 1; DATA0 *8", true), (None, vec![], vec![Passed(Failed, 3, 1, 8)]));
    for finish in [false, true] {
        assert_eq!(open("OUT 0 1; DATA0 *8; event 0; event 7", finish), (Some((1, 8)), vec![], vec![]));
        assert_eq!(open("SPLIT start int; OUT 0 1; DATA0 *8", finish), (None, vec![(3, (2, 8))], vec![]));
    }
}

/// A packet without room is refused with 7, and the Rust's account is undone with it: an ACK that would count, at the last byte.
#[test]
fn undone() {
    let room = |bytes| {
        let mut room = Rows::LARGEST;
        room.0[BYTES] = bytes;
        room
    };
    let text = "OUT 0 1; DATA0 *8; ACK";
    assert_eq!(kept::<Machine>(text, false, room(15)).1, [[3, 1, 8, 0]]);
    let (ledger, notes) = kept::<Machine>(text, false, room(14));
    assert_eq!((ledger.held, ledger.fates, notes), (Some((1, 8)), vec![], vec![]));
}

/// The account of the Rust has the total before each payload, of its own endpoint.
#[test]
fn accounts() {
    let sequence =
        "OUT 0 1; DATA0 *8; ACK; OUT 0 2; DATA0 *4; ACK; OUT 0 1; DATA1 *8; NAK; OUT 0 1; DATA1 *6; ACK; OUT 0 1; DATA0 *1; ACK";
    let expected = "counted 3 1 8 0\ncounted 4 4 4 0\ncounted 3 10 6 8\ncounted 3 13 1 14\n";
    assert_eq!(text::<Machine>(&written(sequence), Rows::LARGEST), expected);
    // Behind the mark and the version 10, 18 and 8 bytes.
    assert_eq!(text::<Machine>(&written("OUT 0 1; DATA0 *8; ACK; event 8"), Rows::LARGEST), "refused 4 at 41\n");
    assert_eq!(text::<Machine>(b"UTL", Rows::LARGEST), "refused 11 at 3\n");
}

/// What the slips count: a payload that was refused; one that waited, twice.
#[test]
fn slips_count_wrong() {
    let refused = "OUT 0 1; DATA0 *8; NAK";
    let notes = |text| kept::<Machine>(text, false, Rows::LARGEST).1;
    assert_eq!(notes(refused), [[0; 4]; 0]);
    assert_eq!(kept::<slips::payload_seen::machine::Machine>(refused, false, Rows::LARGEST).1, [[3, 1, 8, 0]]);
    let twice = "SPLIT start int; OUT 0 1; DATA0 *8; SPLIT complete int; OUT 0 1; ACK; SPLIT complete int; OUT 0 1; ACK";
    assert_eq!(notes(twice), [[3, 2, 8, 0]]);
    assert_eq!(kept::<slips::wait_kept::machine::Machine>(twice, false, Rows::LARGEST).1, [[3, 2, 8, 0], [3, 2, 8, 8]]);
}

/// On random calls from another seed than `oracle selfcheck` has.
#[test]
fn random_calls() {
    assert_eq!(check::<Plain, Machine>(8, 100_000, true).err(), None);
    assert!(check::<Plain, slips::payload_seen::machine::Machine>(8, 100_000, false).is_err());
    assert!(check::<Plain, slips::wait_kept::machine::Machine>(8, 100_000, false).is_err());
}
