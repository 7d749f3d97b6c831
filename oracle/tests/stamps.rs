//! What change request 9 adds to a group row, the packet number and the time of the call that wrote it, with what is expected written by hand.

use oracle::calls::{Calls, GROUPS, Rows};
use oracle::decoder::machine::Machine;
use oracle::listing::listing;
use oracle::trace::{Clock, Reader, call, run};
use oracle::traces::{SEQUENCES, written};

/// The group rows of calls: endpoint, group, start, packet, time.
fn rows(calls: &Calls<Machine>) -> Vec<[u64; 5]> {
    calls.log_words(GROUPS).chunks(5).map(|row| row.try_into().expect("five words")).collect()
}

/// Those of a whole trace, and of the same without finish.
fn both(name: &str) -> (Vec<[u64; 5]>, Vec<[u64; 5]>) {
    let trace = written(SEQUENCES.iter().find(|(n, _)| *n == name).expect("a sequence").1);
    let mut calls = Calls::new(Rows::LARGEST, 0, false);
    let (mut reader, mut clock) = (Reader::new(&trace), Clock::default());
    while let Some(record) = reader.next() {
        assert_eq!(call(&mut calls, &mut clock, &record.expect("a record")), 0);
    }
    (rows(&run(&trace, Rows::LARGEST, 0).ok().expect("a trace that is not refused")), rows(&calls))
}

/// A detail, an event (packet 0, time 1), OUT, DATA0 and ACK (1 to 3), a setup stage (4 to 6), an OUT that does not fit it (7) and its DATA1 (8, time
/// 9). Finish ends that transaction: it is Invalid, so the transfer's group ends and a group of its own starts and ends.
#[test]
fn finish_behind_packets() {
    let before = [[0, 0, 0, 0, 1], [3, 0, 1, 1, 2], [4, 0, 1, 4, 5]];
    let finished = [[4, 0, 0, 8, 9], [4, 1, 1, 8, 9], [4, 1, 0, 8, 9]];
    assert_eq!(both("finish-open"), ([before, finished].concat(), before.to_vec()));
}

/// The same ended by an event (packet 9, time 10): the three rows come before its own packet row and have its number, as its own row has.
#[test]
fn event_that_ends_groups() {
    let rows = both("event-ends-groups").0;
    assert_eq!(rows[3..], [[4, 0, 0, 9, 10], [4, 1, 1, 9, 10], [4, 1, 0, 9, 10], [0, 1, 0, 9, 10], [3, 1, 1, 10, 11]]);
}

/// Finish has no rows behind an event, which ended or suspended the transaction, nor where there was no packet.
#[test]
fn finish_without_rows() {
    let (finished, before) = both("finish-event");
    assert_eq!(finished, before);
    assert_eq!(before[1..], [[3, 0, 0, 5, 5], [3, 1, 1, 5, 5], [3, 1, 0, 5, 5], [0, 0, 0, 5, 5]]);
    let (finished, before) = both("finish-keepalive");
    assert_eq!(finished, before);
    assert_eq!(before, [[3, 0, 1, 0, 0], [0, 0, 1, 5, 5]]);
    assert_eq!(both("finish-nothing"), (vec![], vec![]));
}

/// 01's worked example and a malformed packet, as lines.
#[test]
fn lines() {
    let lines = |text: &str| -> Vec<String> {
        let listing = listing::<Machine>(&written(text), usize::MAX, Rows::PROGRAM, 0);
        listing.lines().filter(|line| line.starts_with("group ")).map(String::from).collect()
    };
    assert_eq!(lines("SOF 0; ACK"), ["group 0 2 0 start 0 0", "group 1 1 0 start 1 1", "group 2 1 0 end 1 1"]);
    assert_eq!(lines("SOF 0; SOF 1; event 7"), ["group 0 2 0 start 0 0", "group 1 0 0 end 2 2"]);
}

/// A packet that is answered 8 is logged: the next one has the number behind it.
#[test]
fn eight() {
    let calls = run::<Machine>(&written("SPLIT start bulk; event 0; ACK; IN 0 1; NAK"), Rows::LARGEST, 0).ok().expect("a trace");
    assert_eq!(rows(&calls), [[0, 0, 1, 1, 1], [3, 0, 1, 3, 3]]);
}

/// Times are the calls' own, also where they go back, and to the last one.
#[test]
fn times() {
    let mut calls = Calls::<Machine>::new(Rows::LARGEST, 0, false);
    assert_eq!([calls.packet(&[0xD2], u64::MAX), calls.event(7, 0, 3), calls.packet(&[0xD2], 2)], [0; 3]);
    assert_eq!(rows(&calls), [[1, 0, 1, 0, u64::MAX], [1, 0, 0, 0, u64::MAX], [0, 0, 0, 1, 3], [1, 1, 1, 2, 2], [1, 1, 0, 2, 2]]);
}

/// A refused call counts for nothing, whichever it is; nor does a detail.
#[test]
fn refused() {
    let mut room = Rows::LARGEST;
    room.0[0] = 2;
    let mut calls = Calls::<Machine>::new(room, 0, false);
    assert_eq!(calls.packet(&[0xD2], 1), 0);
    assert_eq!(
        [calls.packet(&[0xD2, 0], 2), calls.packet(&[0; 4097], 3), calls.event(8, 0, 4), calls.detail(9, 1, 0, 2, 8)],
        [7, 3, 4, 6]
    );
    assert_eq!([calls.detail(0, 1, 0, 2, 8), calls.packet(&[0xD2], 5)], [0, 0]);
    assert_eq!(rows(&calls), [[1, 0, 1, 0, 1], [1, 0, 0, 0, 1], [1, 1, 1, 1, 5], [1, 1, 0, 1, 5]]);
    // A PING has both its group rows when it ends: with room for one of them finish is refused, and leaves nothing.
    for (groups, answer, expected) in [(1, 7, vec![]), (2, 0, vec![[3, 0, 1, 0, 6], [3, 0, 0, 0, 6]])] {
        let mut room = Rows::LARGEST;
        room.0[GROUPS] = groups;
        let mut calls = Calls::<Machine>::new(room, 0, false);
        assert_eq!([calls.packet(&[0xB4, 0x80, 0xA0], 6), calls.finish()], [0, answer]);
        assert_eq!(rows(&calls), expected);
    }
}
