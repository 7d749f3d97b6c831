//! Change request 6 on the oracle: high-bandwidth isochronous data, in the mode and without it. What is expected is written from the request by hand.

use oracle::calls::{Calls, Mechanism, Rows, Style};
use oracle::cameras;
use oracle::generate::{CAMERA, EXTRA, KINDS, generate, kinds};
use oracle::ledger::Fate::{self, Counted, Passed};
use oracle::ledger::Why::*;
use oracle::ledger::{Call, Ledger, Told, text};
use oracle::listing::listing;
use oracle::mode::{High, Mode, Plain, status_behind, yields};
use oracle::once::{check, slips};
use oracle::packets::{data, handshake, sof, split, token};
use oracle::trace::{Clock, Reader, count_details};
use oracle::traces::{after_by, packet, written};
use oracle::usb::PID;

/// The statuses of the last packet of a sequence, without the mode and in it.
fn statuses(text: &str) -> [&'static str; 2] {
    let (lead, last) = text.rsplit_once("; ").expect("more than one packet");
    let bytes = packet(&last.split_whitespace().collect::<Vec<_>>());
    let plain = after_by::<<Plain as Mode>::Machine>(lead).machine.status(&bytes).1;
    [plain, after_by::<<High as Mode>::Machine>(lead).machine.status(&bytes).1]
}

const INVALID: [&str; 2] = ["Invalid", "Invalid"];

/// The design's table, row by row. Details number the types: 0 control, 1 isochronous, 2 bulk, 3 interrupt.
#[test]
fn cells() {
    // Plain, isochronous: these three alone change.
    for changed in ["1 1 1 16; IN 0 1; DATA2 *3", "1 0 1 16; OUT 0 1; DATA2 *3", "1 0 1 16; OUT 0 1; MDATA *3"] {
        assert_eq!(statuses(&format!("detail 0 {changed}")), ["Invalid", "Done"], "{changed}");
    }
    assert_eq!(statuses("detail 0 1 1 1 16; IN 0 1; MDATA *3"), INVALID);
    // DATA0 and DATA1 as ever.
    for same in ["IN 0 1; DATA0 *3", "IN 0 1; DATA1 *3"] {
        assert_eq!(statuses(&format!("detail 0 1 1 1 16; {same}")), ["Done", "Done"]);
    }
    // Any other type, and none known.
    for kind in [0, 2, 3] {
        for (direction, token) in [(1, "IN"), (0, "OUT")] {
            for name in ["DATA2", "MDATA"] {
                assert_eq!(statuses(&format!("detail 0 1 {direction} {kind} 16; {token} 0 1; {name} *3")), INVALID);
                assert_eq!(statuses(&format!("{token} 0 1; {name} *3")), INVALID);
                assert_eq!(statuses(&format!("{token} 0 0; {name} *3")), INVALID);
            }
        }
    }
    // Behind anything else than the token, and behind nothing that was begun.
    for text in
        ["SETUP 0 1; DATA2 *8", "SETUP 0 1; MDATA *8", "PING 0 1; MDATA *3", "SOF 1; DATA2 *3", "OUT 0 1; DATA2 *3; DATA2 *3"]
    {
        assert_eq!(statuses(&format!("detail 0 1 0 1 16; {text}")), INVALID, "{text}");
    }
    // A handshake belongs to nothing: the data were Done.
    assert_eq!(statuses("detail 0 1 0 1 16; OUT 0 1; DATA2 *3; ACK"), INVALID);
}

/// The rows of splits are as written: MDATA behind the IN of a complete one, interrupt and isochronous, is Done in both.
#[test]
fn splits() {
    for kind in ["control", "isochronous", "bulk", "int"] {
        let expected = if kind == "isochronous" || kind == "int" { ["Done", "Done"] } else { INVALID };
        assert_eq!(statuses(&format!("SPLIT complete {kind}; IN 0 1; MDATA *3")), expected, "{kind}");
        for text in
            ["complete K; IN 0 1; DATA2 *3", "start K; OUT 0 1; MDATA *3", "start K; OUT 0 1; DATA2 *3", "complete K; MDATA *3"]
        {
            assert_eq!(statuses(&format!("SPLIT {}", text.replace('K', kind))), INVALID, "{kind}: {text}");
        }
    }
    // The type known of the endpoint changes none of them.
    assert_eq!(statuses("detail 0 1 0 1 16; SPLIT start isochronous; OUT 0 1; MDATA *3"), INVALID);
}

/// Over every transaction and packet: the two modes differ in these three cells and nowhere else.
#[test]
fn only_these() {
    use PID::*;
    let pids = [OUT, IN, SOF, SETUP, PING, SPLIT, DATA0, DATA1, DATA2, MDATA, ACK, NAK, STALL, NYET, ERR, Malformed];
    let packets = pids.into_iter().flat_map(|pid| match pid {
        OUT | IN | SETUP | PING => vec![token(pid, 0, 1)],
        SOF => vec![sof(1)],
        SPLIT => vec![split(1, 0, 1, 2)],
        DATA0 | DATA1 | DATA2 | MDATA => vec![data(pid, &[0; 3]), data(pid, &[0; 8])],
        Malformed => vec![vec![], vec![0xD3]],
        _ => vec![handshake(pid)],
    });
    let splits = (0..2).flat_map(|sc| (0..4).map(move |kind| Some((sc, kind))));
    let styles: Vec<Style> = splits
        .chain([None])
        .flat_map(|split| pids.map(|first| (split, first as u8)))
        .flat_map(|(split, first)| pids.map(|last| (split, first, last as u8)))
        .flat_map(|(split, first, last)| (0..5).map(move |kind| Style { split, first, last, kind }))
        .collect();
    let mut compared = 0;
    for packet in packets {
        for found in styles.iter().map(|style| Some(*style)).chain([None]) {
            let [off, on] = [false, true].map(|high| status_behind(high, found, &packet));
            let next = packet.first().copied().unwrap_or(0);
            let changed = found.is_some_and(|t| {
                let cells = [(IN, DATA2), (OUT, DATA2), (OUT, MDATA)].map(|(last, next)| (last as u8, next as u8));
                t.split.is_none() && t.kind == 1 && cells.contains(&(t.last, next))
            });
            let expected = if changed { ((next, "Invalid"), (next, "Done")) } else { (off, off) };
            assert_eq!((off, on), expected, "{found:?}, {packet:02X?}");
            compared += 1;
        }
    }
    assert_eq!(compared, 21 * (9 * 16 * 16 * 5 + 1));
    for pid in pids {
        let expected = match pid {
            DATA0 | DATA1 => [true, true],
            DATA2 | MDATA => [false, true],
            _ => [false, false],
        };
        assert_eq!([false, true].map(|high| yields(high, pid)), expected, "{pid:?}");
    }
}

/// The D rows of a sequence, without the mode and in it: endpoint, its transaction, the total before.
fn data_rows(text: &str) -> [Vec<String>; 2] {
    let rows = |listing: String| listing.lines().filter_map(|line| line.strip_prefix("link D ")).map(String::from).collect();
    let trace = written(text);
    [
        rows(listing::<<Plain as Mode>::Machine>(&trace, usize::MAX, Rows::LARGEST, 0)),
        rows(listing::<<High as Mode>::Machine>(&trace, usize::MAX, Rows::LARGEST, 0)),
    ]
}

#[test]
fn bytes_count() {
    // A microframe each way. Endpoint 3 is the first ordinary one; each token is a transaction of it.
    let microframe = "detail 0 1 1 1 16; IN 0 1; DATA2 *16; IN 0 1; DATA1 *15; IN 0 1; DATA0 *4";
    assert_eq!(data_rows(microframe), [vec!["3 1 0", "3 2 15"], vec!["3 0 0", "3 1 16", "3 2 31"]]);
    let microframe = "detail 0 1 0 1 16; OUT 0 1; MDATA *16; OUT 0 1; MDATA *15; OUT 0 1; DATA2 *4";
    assert_eq!(data_rows(microframe), [vec![], vec!["3 0 0", "3 1 16", "3 2 31"]]);
    // An empty payload counts as one.
    assert_eq!(data_rows("detail 0 1 0 1 16; OUT 0 1; MDATA *0; OUT 0 1; DATA2 *0"), [vec![], vec!["3 0 0", "3 1 0"]]);
    // In a split it is the payload that the mode adds. The start is a transaction too.
    for kind in ["isochronous", "int"] {
        let split = format!(
            "SPLIT start {kind}; IN 0 1; SPLIT complete {kind}; IN 0 1; MDATA *8; SPLIT complete {kind}; IN 0 1; DATA0 *4"
        );
        assert_eq!(data_rows(&split), [vec!["3 2 0"], vec!["3 1 0", "3 2 8"]], "{kind}");
    }
    // What is Invalid in the mode has no payload there either.
    let invalid = "IN 0 1; DATA2 *8; OUT 0 1; MDATA *8; detail 0 2 1 1 16; IN 0 2; MDATA *8; SPLIT complete bulk; IN 0 3; MDATA *8; SPLIT start isochronous; OUT 0 4; MDATA *8";
    assert_eq!(data_rows(invalid), [[""; 0]; 2]);
}

/// The type is the one known when the transaction began; a descriptor gives it as well as a detail.
#[test]
fn types() {
    assert_eq!(statuses("OUT 0 1; detail 0 1 0 1 16; MDATA *3"), INVALID);
    assert_eq!(statuses("detail 0 1 0 1 16; OUT 0 1; detail 0 1 0 2 16; MDATA *3"), ["Invalid", "Done"]);
    assert_eq!(statuses("SPLIT start isochronous; IN 0 1; IN 0 1; DATA2 *3"), ["Invalid", "Done"], "a split's type");
    assert_eq!(statuses("SPLIT start bulk; OUT 0 1; OUT 0 1; DATA2 *3"), INVALID, "a split's type");
    // Suspended by a keepalive, the transaction keeps it.
    let resumed = data_rows("detail 0 1 0 1 16; OUT 0 1; event 0; detail 0 1 0 2 16; MDATA *3");
    assert_eq!(resumed.map(|rows| rows.len()), [0, 1]);
    let (name, trace) = &cameras::all()[0];
    assert_eq!((name.as_str(), count_details(trace)), ("camera-in", 0), "typed by its descriptor alone");
}

/// How many groups of an ordinary endpoint ended, without the mode and in it.
fn ended(text: &str) -> [usize; 2] {
    let trace = written(text);
    let ends = |listing: String| listing.lines().filter(|line| line.starts_with("group ") && line.contains(" end ")).count();
    [
        ends(listing::<<Plain as Mode>::Machine>(&trace, usize::MAX, Rows::LARGEST, 0)),
        ends(listing::<<High as Mode>::Machine>(&trace, usize::MAX, Rows::LARGEST, 0)),
    ]
}

/// Short is 01's: a payload below the size ends its group, but for an isochronous endpoint. In the mode MDATA of an interrupt split has a payload.
#[test]
fn short() {
    let parts = |kind: u8, name: &str| format!("detail 0 1 1 {kind} 16; SPLIT complete {name}; IN 0 1; MDATA *8");
    assert_eq!(ended(&parts(3, "int")), [0, 1]);
    assert_eq!(ended(&parts(3, "int").replace("*8", "*16")), [0, 0], "a full one");
    assert_eq!(ended(&parts(1, "isochronous")), [0, 0]);
    assert_eq!(ended("SPLIT complete int; IN 0 1; MDATA *8"), [0, 0], "no size is known");
    assert_eq!(
        ended("detail 0 1 0 1 16; OUT 0 1; MDATA *8; OUT 0 1; DATA2 *8"),
        [2, 0],
        "two groups of invalid, which end at once"
    );
}

/// Setup bytes come by DATA0 alone; what a control transfer collects comes by every PID that yields. The note tells that it was read.
#[test]
fn requests() {
    let request = |name: &str| {
        let trace = cameras::all().into_iter().find(|(n, _)| n == "read-by-mdata").expect("a trace of the list").1;
        let text = match name {
            "plain" => listing::<<Plain as Mode>::Machine>(&trace, usize::MAX, Rows::LARGEST, 0),
            _ => listing::<<High as Mode>::Machine>(&trace, usize::MAX, Rows::LARGEST, 0),
        };
        text.lines().filter(|line| line.starts_with("request ")).map(String::from).collect::<Vec<_>>()
    };
    assert_eq!(request("plain"), ["request 0 3 8006000100001200 0 none"]);
    assert_eq!(request("high"), ["request 0 3 8006000100001200 18 max 64"]);
}

/// What becomes of payloads in the mode, by the ledger; the account of the Rust is held to it in `random_calls`.
fn fates(text: &str) -> Vec<Fate> {
    let mut calls = Calls::<<High as Mode>::Traced>::new(Rows::LARGEST, 0, false);
    let (mut ledger, mut clock) = (Ledger::of(true), Clock::default());
    let trace = written(text);
    let mut reader = Reader::new(&trace);
    while let Some(record) = reader.next() {
        let call = Call::Record(record.expect("a record"));
        let world = calls.machine.world(call.packet()).expect("a decoder that has not finished");
        let answer = call.make(&mut calls, &mut clock);
        ledger.follow(&world, &call, answer);
    }
    ledger.fates
}

#[test]
fn each_fate() {
    assert_eq!(fates("detail 0 1 1 1 16; IN 0 1; DATA2 *8"), [Counted(3, 1, 8)]);
    assert_eq!(fates("detail 0 1 0 1 16; OUT 0 1; MDATA *8; OUT 0 1; DATA2 *2"), [Counted(3, 1, 8), Counted(3, 3, 2)]);
    assert_eq!(fates("SPLIT complete int; IN 0 1; MDATA *8"), [Counted(3, 2, 8)]);
    // All valid packets of the four PIDs are data packets; what nothing takes is stray.
    assert_eq!(fates("DATA2 *8; MDATA *3"), [Passed(Stray, 0, 0, 8), Passed(Stray, 0, 1, 3)]);
    assert_eq!(fates("detail 0 1 1 1 16; IN 0 1; MDATA *8"), [Passed(Stray, 0, 1, 8)]);
    assert_eq!(fates("IN 0 1; DATA2 *8; raw 87 00 01"), [Passed(Stray, 0, 1, 8)], "a bad CRC is no data packet");
    assert_eq!(fates("SPLIT start bulk; event 0; MDATA *8"), [Passed(Dropped, 0, 2, 8)]);
    assert_eq!(
        fates("OUT 0 1; DATA0 *8; MDATA *4"),
        [Passed(Replaced, 3, 1, 8), Passed(Stray, 0, 2, 4)],
        "no second payload of a transaction"
    );
    // The status stage of a request without data uses none.
    let status = "SETUP 0 0; DATA0 =00 09 01 00 00 00 00 00; ACK; SPLIT complete int; IN 0 0; MDATA *2";
    assert_eq!(fates(status), [Passed(Setup, 3, 1, 8), Passed(Unused, 3, 5, 2)]);
}

#[test]
fn accounts() {
    let trace = written("detail 0 1 0 1 16; OUT 0 1; MDATA *16; OUT 0 1; MDATA *15; OUT 0 1; DATA2 *4; OUT 0 1; DATA1 *1");
    let expected = "counted 3 1 16 0\ncounted 3 3 15 16\ncounted 3 5 4 31\ncounted 3 7 1 35\n";
    assert_eq!(text::<<High as Mode>::Traced>(&trace, Rows::LARGEST), expected);
    assert_eq!(text::<<Plain as Mode>::Traced>(&trace, Rows::LARGEST), "counted 3 7 1 0\n");
}

/// The bytes that each trace of traces/high counts at its stream's endpoint, without the mode and in it.
#[test]
fn totals() {
    let total = |text: String, endpoint: &str| {
        let notes: Vec<Vec<u64>> = text
            .lines()
            .filter_map(|line| line.strip_prefix("counted "))
            .filter(|line| line.starts_with(endpoint))
            .map(|line| line.split(' ').map(|n| n.parse().expect("a number")).collect())
            .collect();
        notes.last().map_or(0, |note| note[2] + note[3])
    };
    let expected = [
        ("camera-in", "4 ", 39, 55),
        ("camera-out", "3 ", 2, 57),
        ("split-isochronous", "3 ", 4, 20),
        ("split-interrupt", "3 ", 4, 12),
        ("read-by-mdata", "3 ", 0, 18),
        ("not-in-the-mode", "", 0, 0),
    ];
    for ((name, trace), expected) in cameras::all().iter().zip(expected) {
        let plain = total(text::<<Plain as Mode>::Traced>(trace, Rows::LARGEST), expected.1);
        let high = total(text::<<High as Mode>::Traced>(trace, Rows::LARGEST), expected.1);
        assert_eq!((name.as_str(), expected.1, plain, high), expected);
    }
    assert_eq!(cameras::all().len(), expected.len());
}

/// The ledger's claim on random calls from another seed than `oracle selfcheck --high` has, and that it finds the slips and a mode that is dropped, or
/// always there.
#[test]
fn random_calls() {
    assert_eq!(check::<High, <High as Mode>::Traced>(6, 100_000, true).err(), None);
    assert!(check::<High, slips::in_mdata_done::machine::Machine>(6, 100_000, false).is_err());
    assert!(check::<High, slips::out_mdata_lost::machine::Machine>(6, 100_000, false).is_err());
    assert!(check::<High, slips::unknown_done2::machine::Machine>(6, 100_000, false).is_err());
    assert!(check::<High, slips::split_mdata_lost::machine::Machine>(6, 100_000, false).is_err());
    assert!(check::<High, <Plain as Mode>::Traced>(6, 100_000, false).is_err());
    assert!(check::<Plain, <High as Mode>::Traced>(6, 100_000, false).is_err());
}

/// Of so many camera traces, those on which a decoder lists otherwise than the mode has it.
fn differing<M: Mechanism>() -> usize {
    let differs = |seed: &u64| {
        let trace = generate(*seed, 200, CAMERA.0).expect("a kind");
        listing::<M>(&trace, usize::MAX, Rows::LARGEST, 0)
            != listing::<<High as Mode>::Machine>(&trace, usize::MAX, Rows::LARGEST, 0)
    };
    (0..200).filter(differs).count()
}

/// Each slip shows on traces of the kind `camera` too, with no trace that is there for it.
#[test]
fn cameras_show() {
    let found = [
        ("none", differing::<<High as Mode>::Traced>()),
        ("in_mdata_done", differing::<slips::in_mdata_done::machine::Machine>()),
        ("out_mdata_lost", differing::<slips::out_mdata_lost::machine::Machine>()),
        ("unknown_done2", differing::<slips::unknown_done2::machine::Machine>()),
        ("split_mdata_lost", differing::<slips::split_mdata_lost::machine::Machine>()),
        ("no mode", differing::<<Plain as Mode>::Machine>()),
    ];
    assert_eq!(found[0].1, 0);
    assert!(found[1..].iter().all(|(_, traces)| *traces > 20), "{found:?}");
}

/// The kind is none of those that traces/ and the runs are made of; without the mode no random call is of it.
#[test]
fn kinds_apart() {
    assert!(KINDS.iter().chain(&EXTRA).all(|(name, _)| *name != CAMERA.0));
    assert!(kinds(false).iter().all(|(name, _)| *name != CAMERA.0));
    assert!(kinds(true).iter().any(|(name, _)| *name == CAMERA.0));
}
