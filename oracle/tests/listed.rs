//! The listed cases of change request 2: for each a trace on which the Rust's own `decode_request` does differ from the rules, with what
//! either of them makes of it, reckoned by hand; and that outside the cases the two agree.

use oracle::enumerations;
use oracle::listed::{CASES, Case, Case::*};
use oracle::own_and_ruled::{Compared, compare, differs, traces};

fn trace(name: &str) -> Vec<u8> {
    let all = enumerations::all();
    all.into_iter().find(|(n, _)| n == name).unwrap_or_else(|| panic!("no trace {name}")).1
}

/// The details of a place: the Rust's type and max, then those of the rules. A type of 4 is unknown, a max of 0 too.
fn details(place: usize, own: (u8, usize), ruled: (u8, usize)) -> String {
    format!("device 1, place {place}: type and max of the Rust {own:?}, by the rules {ruled:?}")
}

/// An error of the Rust where the rules take the call.
fn error(message: &str) -> String {
    format!("the Rust Err({message:?}), by the rules Ok(())")
}

const UNKNOWN: (u8, usize) = (4, 0);
const BULK_64: (u8, usize) = (2, 64);

/// Each case, a trace that it is the first and only mark of up to the request, and the first difference of a Rust that plays on. Places are
/// the endpoint's number, 16 more for IN.
fn apart() -> Vec<(Case, &'static str, String)> {
    let too_large = error("out of range integral type conversion attempted");
    vec![
        // Written by the host, read by the Rust alone, and then chosen.
        (ReadOut, "read-out", details(2, BULK_64, UNKNOWN)),
        // A descriptor of 20 bytes is one; 18 bytes of type 3 are none.
        (DeviceLength, "device-20", details(0, (0, 0), (0, 64))),
        (DeviceLength, "device-18-wrong", details(0, (0, 64), (0, 0))),
        // The 582nd endpoint ends at byte 4,097. It is number 12 OUT (581 = 38 * 15 + 11, and 38 is even), type 581 mod 4, size 582; before it
        // that endpoint came thirty descriptors earlier.
        (PastBytes, "read-4097", details(12, (1, 582), (3, 552))),
        (ShortLength, "descriptor-blength-0", error("the Rust never ends")),
        // The Rust goes on a byte further and finds the next endpoint.
        (ShortLength, "descriptor-blength-1", details(2, BULK_64, UNKNOWN)),
        // The bytes from 16 on of a read that a reset has cut: two zeros first.
        (ShortLength, "read-reset-ignored", error("the Rust never ends")),
        (ConfigurationBehind, "descriptor-config-behind", details(2, BULK_64, UNKNOWN)),
        // The Rust forgets what stood before the second one, whose value is 2; configuration 1 is chosen.
        (ConfigurationBehind, "descriptor-config-twice", details(2, UNKNOWN, BULK_64)),
        (AlternateTwice, "interface-twice", details(17, UNKNOWN, BULK_64)),
        // Interface 1 comes first, then interface 0.
        (SharedAtConfiguration, "endpoint-shared", details(17, BULK_64, (3, 8))),
        // 1400 hex: 1,024 bytes, two more transactions.
        (SizeBits, "interface-alternate", details(17, (1, 5120), (1, 1024))),
        (ReadAgain, "config-again", details(2, (2, 512), BULK_64)),
        (AboveByte, "config-256", too_large.clone()),
        (AboveByte, "interface-256", too_large),
        // The 296th endpoint of the second configuration, 586th in all: number 11 IN (295 = 19 * 15 + 10, and 19 is odd), type 295 mod 4.
        (PastEntries, "entries-586", details(27, (3, 296), (1, 266))),
        // Interface 1 at alternate setting 1, then interface 0 anew: the Rust sets both, interface 1 last.
        (SharedAtInterface, "interface-shared", details(17, (3, 8), BULK_64)),
        // 87 * 3 = 261, 5 more than 256: a descriptor of 11 bytes, whose list of 5 is taken apart in threes.
        (HidCount, "descriptor-hid-87", error("the Rust panics")),
    ]
}

#[test]
fn the_rust_differs_at_each_case() {
    for (case, name, expected) in apart() {
        let trace = trace(name);
        let Compared { difference, first, .. } = compare(&trace);
        assert_eq!(difference, None, "{name}: up to the case");
        assert_eq!(first, [case], "{name}: its mark");
        let found = differs(&trace).unwrap_or_else(|| panic!("{name}: the Rust does not differ"));
        assert!(found.ends_with(&expected), "{name}: {found}, and not {expected}");
    }
}

#[test]
fn each_case_has_a_trace() {
    for (case, text) in CASES {
        assert!(apart().iter().any(|(c, ..)| *c == case), "no trace for: {text}");
    }
}

/// The rows of the request's table on which both do the same, and the other requests that nothing is taken from.
#[test]
fn the_rust_agrees_elsewhere() {
    let marked: Vec<&str> = apart().iter().map(|(_, name, _)| *name).collect();
    let mut same = Vec::new();
    for (name, trace) in enumerations::all() {
        let compared = compare(&trace);
        assert_eq!(compared.difference, None, "{name}");
        assert_eq!(
            compared.met.is_empty(),
            !marked.contains(&name.as_str()) && name != "entries-587",
            "{name}: {:?}",
            compared.met
        );
        if compared.met.is_empty() {
            assert!(compared.requests > 0);
            assert_eq!(differs(&trace), None, "{name}");
            same.push(name);
        }
    }
    let expected = [
        ["enumerate-8-18", "enumerate-64", "config-255-first", "config-nine-last", "config-cut", "config-two", "config-late"],
        [
            "config-zero",
            "interface-unchosen",
            "readdressed",
            "split-then-descriptor",
            "descriptor-unknown",
            "descriptor-lone-byte",
            "endpoint-6-bytes",
        ],
        [
            "endpoint-before-interface",
            "endpoint-0",
            "endpoint-reserved",
            "device-8",
            "read-interface",
            "read-other-speed",
            "read-class",
        ],
        [
            "read-stalled",
            "read-unacknowledged",
            "read-acknowledged-twice",
            "read-keepalive",
            "read-reset",
            "read-aborted",
            "read-split",
        ],
        ["read-two-devices", "read-4095", "read-4096", "entries-584", "entries-585", "", ""],
    ];
    assert_eq!(same, expected.concat().into_iter().filter(|name| !name.is_empty()).collect::<Vec<_>>());
}

/// Random traces: no difference outside the cases, every case met and with a trace on which the Rust does differ, and most requests compared.
#[test]
fn random_traces() {
    let tally = traces(6000, 1);
    assert_eq!(tally.differences, Vec::<String>::new());
    for (case, text) in CASES {
        assert!(tally.first.contains_key(&case) && tally.parted.contains_key(&case), "not met: {text}");
    }
    // Marks must not swallow the comparison.
    assert!(tally.requests > 4 * tally.traces, "{} requests compared of {} traces", tally.requests, tally.traces);
    assert!(tally.stopped * 3 < tally.traces, "{} of {} traces are stopped", tally.stopped, tally.traces);
}
