//! The traces of change request 2 (src/enumerations.rs) on the oracle: the note of each of their requests, reckoned by hand, and what is
//! left of them where there is no room.

use oracle::calls::{Calls, LOGS, Mechanism, Rows};
use oracle::chapter9::disk;
use oracle::decoder::machine::Machine;
use oracle::descriptors::Descriptors;
use oracle::enumerations::{all, joined, read_configuration, set_configuration};
use oracle::listing::{BUFFER, listing_by};
use oracle::trace::{Clock, Reader, call, run_by};
use oracle::traces::written;

/// How the request lines of a trace's listing end, with the room of the program: behind the length.
fn notes(trace: &[u8]) -> Vec<String> {
    let listing = listing_by::<Machine>(Descriptors::Ruled, trace, BUFFER, Rows::PROGRAM, 0);
    let lines = listing.lines().filter(|l| l.starts_with("request "));
    lines.map(|l| l.split(' ').skip(5).collect::<Vec<_>>().join(" ")).collect()
}

/// The notes of each trace of src/enumerations.rs, in the order of its requests.
#[test]
fn each_named_trace() {
    let expected: &[(&str, &[&str])] = &[
        // The first 8 bytes give nothing; SET_ADDRESS has no row.
        ("enumerate-8-18", &["none", "max 8", "read 0", "read 2", "set 2"]),
        ("enumerate-64", &["max 64", "max 64", "read 0", "read 2", "set 2"]),
        ("config-255-first", &["read 2", "set 2"]),
        ("config-nine-last", &["read 2", "read 0", "set 0"]),
        ("config-cut", &["read 1", "set 1"]),
        ("config-two", &["read 2", "read 1", "set 1", "set 2"]),
        ("config-again", &["read 2", "set 2", "read 2", "set 2"]),
        ("config-late", &["set 0", "read 2", "set 2"]),
        ("config-zero", &["read 2", "set 2", "set 0"]),
        ("config-256", &["read 2", "none"]),
        ("interface-256", &["read 2", "set 2", "none", "none"]),
        // Alternate setting 0 has no endpoint, 1 has one, 0 again none.
        ("interface-alternate", &["read 1", "set 0", "set 1", "set 0"]),
        ("interface-unchosen", &["read 2", "none"]),
        ("readdressed", &["read 2", "set 2", "set 0"]),
        ("split-then-descriptor", &["read 2", "set 2"]),
        ("descriptor-unknown", &["read 3", "set 3"]),
        ("descriptor-blength-0", &["read 1", "set 1"]),
        ("descriptor-blength-1", &["read 1", "set 1"]),
        ("descriptor-lone-byte", &["read 1", "set 1"]),
        ("descriptor-hid-87", &["read 1", "set 1"]),
        ("descriptor-config-behind", &["none", "set 0"]),
        // The second configuration descriptor is stepped over: its endpoint is the first one's.
        ("descriptor-config-twice", &["read 2", "set 2"]),
        ("endpoint-6-bytes", &["read 1", "set 1"]),
        ("endpoint-before-interface", &["read 1", "set 1"]),
        ("endpoint-0", &["read 1", "set 1"]),
        ("endpoint-reserved", &["read 1", "set 1"]),
        ("endpoint-shared", &["read 2", "set 2"]),
        ("interface-twice", &["read 2", "set 2"]),
        // Interface 0 at 0, interface 1 at 1, interface 0 at 0: one endpoint each.
        ("interface-shared", &["read 2", "set 1", "set 1", "set 1"]),
        ("device-8", &["none"]),
        ("device-20", &["max 64"]),
        ("device-18-wrong", &["none"]),
        ("read-out", &["none", "set 0"]),
        ("read-interface", &["none", "set 0"]),
        ("read-other-speed", &["none", "set 0"]),
        ("read-class", &["none", "set 0"]),
        // Neither the stalled read nor the one that a reset ended has a row.
        ("read-stalled", &["set 0"]),
        ("read-unacknowledged", &["read 2", "set 2"]),
        // 7 endpoints, and the last packet, one endpoint, twice.
        ("read-acknowledged-twice", &["read 8", "set 8"]),
        ("read-keepalive", &["read 2", "set 2"]),
        ("read-reset", &["set 0"]),
        // The setup outlives the reset; the bytes that come behind it are no configuration.
        ("read-reset-ignored", &["none", "set 0"]),
        ("read-aborted", &["read 2", "set 2"]),
        ("read-split", &["read 2", "set 2"]),
        ("read-two-devices", &["read 2", "read 2", "set 2", "set 2"]),
        // 18 bytes, 3 to 5 that are stepped over, 582 endpoints of 7; the last one ends at 4,095, 4,096 or 4,097.
        ("read-4095", &["read 582", "set 582"]),
        ("read-4096", &["read 582", "set 582"]),
        ("read-4097", &["read 581", "set 581"]),
        // 290 and 294 to 297.
        ("entries-584", &["read 290", "read 294", "set 294", "set 290"]),
        ("entries-585", &["read 290", "read 295", "set 295", "set 290"]),
        ("entries-586", &["read 290", "read 295", "set 295", "set 290"]),
        ("entries-587", &["read 290", "read 295", "set 295", "set 290"]),
    ];
    let traces = all();
    assert_eq!(
        traces.iter().map(|(name, _)| name.as_str()).collect::<Vec<_>>(),
        expected.iter().map(|(name, _)| *name).collect::<Vec<_>>()
    );
    for ((name, trace), (_, notes_expected)) in traces.iter().zip(expected) {
        assert_eq!(notes(trace), *notes_expected, "{name}");
    }
}

/// A refused call changes nothing: with just the rows that a trace wants its listing is the same, each call being tried on a copy, and with
/// a request row too few the trace is refused with 7 and the SET has set nothing.
#[test]
fn refused_calls() {
    for (name, trace) in all() {
        let calls = run_by::<Machine>(Descriptors::Ruled, &trace, Rows::LARGEST, 0).expect("a trace that is not refused");
        let room = calls.rows();
        let by = |room| listing_by::<Machine>(Descriptors::Ruled, &trace, usize::MAX, room, 0);
        assert_eq!(by(room), by(Rows::LARGEST), "{name}");
        for log in (0..LOGS.len()).filter(|log| room.0[*log] > 0) {
            let mut tight = room;
            tight.0[log] -= 1;
            assert!(by(tight).starts_with("refused 7 at "), "{name}, {}", LOGS[log]);
        }
    }
    let trace = written(&joined(&[read_configuration(5, &disk(1, 64)), set_configuration(5, 1)]));
    let mut room = Rows::LARGEST;
    room.0[11] = 1;
    let mut calls = Calls::<Machine>::reading(Descriptors::Ruled, room, 0, false);
    let mut reader = Reader::new(&trace);
    let mut clock = Clock::default();
    let mut answers = Vec::new();
    while let Some(Ok(record)) = reader.next() {
        answers.push(call(&mut calls, &mut clock, &record));
    }
    assert_eq!(answers.iter().filter(|a| **a != 0).collect::<Vec<_>>(), [&7]);
    assert_eq!(calls.machine.device(5).expect("a device").told()[2], (4, 0));
}
