//! Change request 13 on the oracle: detail records beside descriptors, and the last line. What is expected is written from the request by hand.

use oracle::calls::{Mechanism, Rows};
use oracle::capture::Met;
use oracle::chapter9::{configuration, device, disk, endpoint, interface};
use oracle::decoder::machine::Machine;
use oracle::enumerations::{joined, read, read_configuration, set_address, set_configuration, set_interface};
use oracle::listing::{BUFFER, listing};
use oracle::trace::answers;
use oracle::traces::{after, written};
use oracle::typed;

/// Type and max of an endpoint of the device at 5; a type of 4 is unknown, a max of 0 too.
fn known(steps: &[&str], address: u8) -> (u8, usize) {
    let place = address as usize % 16 + 16 * (address as usize / 128);
    after(&steps.join("; ")).machine.device(5).expect("a device at 5").told()[place]
}

/// A detail for endpoint 2 out that no descriptor here says.
const OTHER: &str = "detail 5 2 0 3 8";

/// No detail overrides what a descriptor gave, whatever was done since; a descriptor overrides a detail.
#[test]
fn entries() {
    let (one, first) = (read_configuration(5, &disk(1, 64)), set_configuration(5, 1));
    let chosen = joined(&[one.clone(), first.clone()]);
    assert_eq!(known(&[&chosen, OTHER], 0x02), (2, 64));
    assert_eq!(known(&[&chosen, OTHER, OTHER], 0x02), (2, 64));
    assert_eq!(known(&[&one, OTHER], 0x02), (3, 8), "to read gives nothing");
    assert_eq!(known(&[&one, OTHER, &first], 0x02), (2, 64));
    assert_eq!(known(&[&one, OTHER, &first, OTHER], 0x02), (2, 64));
    // After SET_CONFIGURATION 0, or one of a configuration without the endpoint, or a read that lacks it.
    assert_eq!(known(&[&chosen, &set_configuration(5, 0), OTHER], 0x02), (2, 64));
    let other = read_configuration(5, &configuration(2, &[interface(0, 0, 1, 3), endpoint(0x81, 3, 8)]));
    assert_eq!(known(&[&chosen, &other, &set_configuration(5, 2), OTHER], 0x02), (2, 64));
    assert_eq!(known(&[&chosen, &read_configuration(5, &disk(1, 64)[..9]), &first, OTHER], 0x02), (2, 64));
    // Other endpoints are obeyed: another number, the other direction, another device; and the same address on a new row.
    assert_eq!(known(&[&chosen, "detail 5 3 0 3 8"], 0x03), (3, 8));
    assert_eq!(known(&[&chosen, "detail 5 2 1 3 8"], 0x82), (3, 8));
    assert_eq!(known(&[&chosen, "detail 0 2 0 3 8"], 0x02), (2, 64));
    assert_eq!(known(&[&chosen, &set_address(5), OTHER], 0x02), (3, 8));
    // A SET that sets nothing gives nothing; a split's type is no descriptor's.
    assert_eq!(known(&[&first, OTHER], 0x02), (3, 8));
    assert_eq!(known(&["SPLIT start bulk; OUT 5 2", OTHER], 0x02), (3, 8));
}

#[test]
fn interfaces() {
    let parts = [interface(0, 0, 0, 8), interface(0, 1, 1, 8), endpoint(0x02, 2, 64)];
    let chosen = joined(&[read_configuration(5, &configuration(1, &parts)), set_configuration(5, 1)]);
    assert_eq!(known(&[&chosen, OTHER], 0x02), (3, 8), "alternate setting 0 has no endpoint");
    let set = joined(&[chosen.clone(), OTHER.to_string(), set_interface(5, 0, 1)]);
    assert_eq!(known(&[&set], 0x02), (2, 64));
    assert_eq!(known(&[&set, OTHER, &set_interface(5, 0, 0), OTHER], 0x02), (2, 64));
}

/// A device descriptor gives number 0, which is kept as out.
#[test]
fn number_0() {
    let device = read(5, 0x0100, 18, &device(64), 64);
    assert_eq!(known(&["IN 5 0; detail 5 0 1 0 8"], 0), (0, 8));
    assert_eq!(known(&["IN 5 0; NAK; detail 5 0 1 0 8", &device], 0), (0, 64));
    assert_eq!(known(&[&device, "detail 5 0 0 0 8; detail 5 0 1 0 8"], 0), (0, 64));
}

/// A max of 0 is given, too: it stays unknown.
#[test]
fn unknown_max() {
    let none = [interface(0, 0, 1, 8), endpoint(0x02, 2, 0)];
    let chosen = joined(&[read_configuration(5, &configuration(1, &none)), set_configuration(5, 1)]);
    assert_eq!(known(&[&chosen, OTHER], 0x02), (2, 0));
}

/// Details are tested as before, given or not: 5, 6, 2; one that is not obeyed is answered 0.
#[test]
fn tested_as_before() {
    let chosen = joined(&[read_configuration(5, &disk(1, 64)), set_configuration(5, 1)]);
    let of = |text: &str, finish: Option<u64>| {
        let trace = written(&format!("{chosen}; {text}"));
        answers::<Machine>(&trace, Rows::LARGEST, 0, finish).split_off(chosen.split(';').count())
    };
    assert_eq!(of("detail 5 2 0 4 8; detail 5 2 2 3 8; detail 6 2 0 3 8; detail 5 2 0 3 8", None), [5, 5, 6, 0, 0]);
    let records = chosen.split(';').count() as u64;
    assert_eq!(of("detail 5 2 0 3 8", Some(records)), [0, 2, 2]);
}

/// What the comparison counts.
#[test]
fn counted() {
    let (one, first) = (read_configuration(5, &disk(1, 64)), set_configuration(5, 1));
    let text = joined(&[one, OTHER.to_string(), OTHER.to_string(), first.clone(), OTHER.to_string(), first]);
    assert_eq!(after(&text).met(), Met { obeyed: 2, unheard: 1, overridden: 1 });
}

/// The last line of each trace of src/typed.rs: all detail records count, obeyed or not; a refusal stands alone.
#[test]
fn last_lines() {
    let expected = [
        ("detail-over-descriptor", "details 4"),
        ("descriptor-over-detail", "details 1"),
        ("detail-after-set-0", "details 2"),
        ("detail-after-read", "details 1"),
        ("detail-other-configuration", "details 1"),
        ("detail-and-interface", "details 2"),
        ("detail-readdressed", "details 1"),
        ("detail-after-split", "details 1"),
        ("detail-after-device", "details 2"),
        ("details-only", "details 10"),
        ("details-in-packet", "details 2"),
        ("details-refused", "refused 4 at 37"),
        ("details-2339", "details 2339"),
    ];
    let listings: Vec<(String, String)> =
        typed::all().into_iter().map(|(name, trace)| (name, listing::<Machine>(&trace, BUFFER, Rows::PROGRAM, 0))).collect();
    assert_eq!(
        listings.iter().map(|(name, text)| (name.as_str(), text.lines().last().unwrap_or(""))).collect::<Vec<_>>(),
        expected
    );
    for (name, text) in listings {
        let lines = text.lines().filter(|line| line.starts_with("details")).count();
        assert_eq!(
            (lines, text.starts_with("UTL 1\n")),
            if name == "details-refused" { (0, false) } else { (1, true) },
            "{name}"
        );
    }
    let none = listing::<Machine>(&written("IN 0 1; NAK"), BUFFER, Rows::PROGRAM, 0);
    assert!(!none.contains("details"), "no line for no detail");
}
