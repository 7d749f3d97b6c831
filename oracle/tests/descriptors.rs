//! The rules of change request 2 (src/descriptors.rs), one by one. What is expected is reckoned by hand from the request and USB 2.0, chapter 9.

use oracle::calls::{Mechanism, Rows};
use oracle::chapter9::{association, configuration, device, disk, endpoint, interface, unknown};
use oracle::decoder::machine::Machine;
use oracle::descriptors::{Descriptors, Entry, Kind, Shelf, device_max, kind, whole};
use oracle::enumerations::{
    asked, joined, read, read_configuration, sent, set, set_address, set_configuration, set_interface, status_out,
};
use oracle::listing::{BUFFER, listing_by};
use oracle::packets::setup;
use oracle::traces::{after, written};

/// Type and max of an endpoint of the device at 5; a type of 4 is unknown, a max of 0 too.
fn detail(text: &str, address: u8) -> (u8, usize) {
    let place = address as usize % 16 + 16 * (address as usize / 128);
    after(text).machine.device(5).expect("a device at 5").told()[place]
}

fn list(trace: &[u8]) -> String {
    listing_by::<Machine>(Descriptors::Ruled, trace, BUFFER, Rows::PROGRAM, 0)
}

/// How the request lines of a listing end: behind the length.
fn notes(listing: &str) -> Vec<String> {
    let lines = listing.lines().filter(|l| l.starts_with("request "));
    lines.map(|l| l.split(' ').skip(5).collect::<Vec<_>>().join(" ")).collect()
}

fn noted(steps: &[String]) -> Vec<String> {
    notes(&list(&written(&joined(steps))))
}

const UNKNOWN: (u8, usize) = (4, 0);

// ---- R1, R3: what completes, and which bytes count

/// Where bytes count: not when they are seen, and only as far as 4,096.
#[test]
fn bytes_that_count() {
    let mut shelf = Shelf::default();
    shelf.lay(0, &[1, 2, 3]);
    assert_eq!(shelf.payload(0), []);
    // The first was not acknowledged; the next one is written over it and counts.
    shelf.lay(0, &[4, 5]);
    shelf.lay(2, &[6]);
    assert_eq!(shelf.payload(3), [4, 5, 6]);
    shelf.lay(4095, &[7, 8]);
    shelf.lay(4097, &[9]);
    assert_eq!(shelf.payload(4098).len(), 4096);
    assert_eq!(shelf.payload(4098)[4095], 7);
}

/// A control endpoint of another number: its IN tokens go to another endpoint, so that only a request without data completes there, with
/// an OUT. A SET counts, a read has no byte.
#[test]
fn other_control_endpoints() {
    let parts = [interface(0, 0, 2, 255), endpoint(0x01, 0, 8), endpoint(0x82, 2, 64)];
    let chosen = joined(&[read_configuration(5, &configuration(1, &parts)), set_configuration(5, 1)]);
    let on_one = |request: &str| format!("SETUP 5 1; DATA0 ={request}; ACK; OUT 5 1; DATA1 *0; ACK");
    let steps = [chosen, on_one("80 06 00 02 00 00 00 00"), on_one("80 09 00 00 00 00 00 00"), on_one("81 0B 00 00 00 00 00 00")];
    // Configuration 0 is chosen then, of which nothing was read.
    assert_eq!(noted(&steps), ["read 2", "set 2", "none", "set 0", "set 0"]);
    let again = joined(&[joined(&steps), on_one("80 09 01 00 00 00 00 00")]);
    assert_eq!(noted(&[again.clone()])[5], "set 2");
    assert!(oracle::own_and_ruled::differs(&written(&again)).is_none());
}

// ---- R2: kinds

#[test]
fn kinds() {
    let of = |a, b, value, index| kind(&setup(a, b, value, index, 18));
    assert_eq!(of(0x80, 6, 0x0100, 0), Kind::DeviceRead);
    assert_eq!(of(0x80, 6, 0x01FF, 7), Kind::DeviceRead);
    assert_eq!(of(0x80, 6, 0x0203, 0), Kind::ConfigurationRead);
    // OUT, of an interface, class, vendor; strings, qualifier, other speed; SET_DESCRIPTOR.
    for (a, b, value) in [(0x00, 6, 0x0200), (0x81, 6, 0x0200), (0xA0, 6, 0x0200), (0xC0, 6, 0x0100)] {
        assert_eq!(of(a, b, value, 0), Kind::Other);
    }
    for (b, value) in [(6, 0x0300), (6, 0x0600), (6, 0x0700), (6, 0x0002), (7, 0x0200)] {
        assert_eq!(of(0x80, b, value, 0), Kind::Other);
    }
    assert_eq!(of(0x00, 9, 255, 0x1234), Kind::SetConfiguration(255));
    assert_eq!(of(0x9F, 9, 1, 0), Kind::SetConfiguration(1));
    assert_eq!(of(0x01, 11, 2, 3), Kind::SetInterface(3, 2));
    assert_eq!(of(0x00, 11, 255, 255), Kind::SetInterface(255, 255));
    for (a, b, value, index) in [(0x20, 9, 1, 0), (0x40, 11, 0, 0), (0x00, 9, 256, 0), (0x01, 11, 256, 0), (0x01, 11, 0, 256)] {
        assert_eq!(of(a, b, value, index), Kind::Other);
    }
}

// ---- R4: the walk

#[test]
fn whole_descriptors() {
    assert!(whole(&[]).is_empty() && whole(&[2]).is_empty() && whole(&[0, 0]).is_empty() && whole(&[1, 4, 2, 0]).is_empty());
    assert_eq!(whole(&[2, 9, 3, 8, 7]), [&[2, 9][..], &[3, 8, 7]]);
    // Cut, a bLength of 0, a lone byte: each ends it.
    assert_eq!(whole(&[2, 9, 4, 8, 7]), [[2, 9]]);
    assert_eq!(whole(&[2, 9, 0, 2, 9]), [[2, 9]]);
    assert_eq!(whole(&[2, 9, 2]), [[2, 9]]);
}

// ---- R5: device reads

#[test]
fn device_reads() {
    assert_eq!(device_max(&device(64)), Some(64));
    assert_eq!(device_max(&[device(9), vec![1, 2, 3]].concat()), Some(9));
    for length in 0..18 {
        assert_eq!(device_max(&device(64)[..length]), None);
    }
    let with = |place: usize, byte: u8| {
        let mut bytes = device(64);
        bytes[place] = byte;
        device_max(&bytes)
    };
    assert_eq!((with(0, 17), with(0, 19), with(1, 2)), (None, None, None));
    // Number 0 is control from the start; its max is that of the descriptor, and 0 is unknown.
    let known = |max| detail(&read(5, 0x0100, 18, &device(max), 8), 0);
    assert_eq!((known(64), known(0)), ((0, 64), (0, 0)));
    assert_eq!(noted(&[read(5, 0x0100, 18, &device(0), 8)]), ["max 0"]);
}

// ---- R6: configuration reads

/// The disk's 32 bytes: 9 and 9, then an endpoint to 25, another to 32.
#[test]
fn cut_at_every_byte() {
    let whole = disk(1, 64);
    for length in 0..=32 {
        let expected = match length {
            0..9 => "none",
            9..25 => "read 0",
            25..32 => "read 1",
            _ => "read 2",
        };
        let text = read(5, 0x0200, 32, &whole[..length], 8);
        assert_eq!(noted(&[text]), [expected], "{length} bytes");
    }
}

#[test]
fn entries() {
    let parts = [
        association(0, 1),
        endpoint(0x81, 2, 64),
        interface(3, 1, 2, 255),
        unknown(0x24, 2),
        endpoint(0x8F, 0x0D, 0x1400),
        unknown(4, 8),
        endpoint(0x01, 0xFE, 0xFFFF),
        unknown(5, 6),
        endpoint(0x00, 0, 8),
        endpoint(0x90, 2, 8),
        unknown(2, 8),
    ];
    let payload = configuration(7, &parts);
    let entry = |address, attributes, size| Entry { value: 7, interface: 3, alternate: 1, address, attributes, size };
    let found = oracle::descriptors::configuration(&payload).expect("a configuration");
    assert_eq!(found, (7, vec![entry(0x8F, 0x0D, 0x1400), entry(0x01, 0xFE, 0xFFFF)]));
    // Type: bits 1 and 0. Max: bits 10 to 0.
    assert_eq!((found.1[0].kind() as u8, found.1[0].max()), (1, 1024));
    assert_eq!((found.1[1].kind() as u8, found.1[1].max()), (2, 2047));
}

/// The last read of a value stands, each value on its own; a read changes no detail.
#[test]
fn reads_again() {
    let one = read_configuration(5, &disk(1, 64));
    let two = read_configuration(5, &disk(2, 512));
    assert_eq!(detail(&joined(&[one.clone(), two.clone()]), 0x02), UNKNOWN);
    assert_eq!(detail(&joined(&[one.clone(), two.clone(), set_configuration(5, 1)]), 0x02), (2, 64));
    assert_eq!(detail(&joined(&[one.clone(), two.clone(), set_configuration(5, 2)]), 0x81), (2, 512));
    let again = [one, set_configuration(5, 1), read_configuration(5, &disk(1, 512))];
    assert_eq!(detail(&joined(&again), 0x02), (2, 64));
    assert_eq!(detail(&joined(&[joined(&again), set_configuration(5, 1)]), 0x02), (2, 512));
}

// ---- R7, R8: the SETs

#[test]
fn sets() {
    let parts = [
        interface(0, 0, 1, 255),
        endpoint(0x81, 3, 8),
        interface(0, 1, 1, 255),
        endpoint(0x81, 1, 1023),
        interface(1, 0, 1, 255),
        endpoint(0x02, 2, 64),
        interface(1, 1, 1, 255),
        endpoint(0x02, 2, 32),
    ];
    let chosen = joined(&[read_configuration(5, &configuration(1, &parts)), set_configuration(5, 1)]);
    let with = |steps: &[String], address| detail(&joined(&[chosen.clone(), joined(steps)]), address);
    assert_eq!((detail(&chosen, 0x81), detail(&chosen, 0x02)), ((3, 8), (2, 64)));
    // One interface changes, the other does not.
    let alternate = [set_interface(5, 0, 1)];
    assert_eq!((with(&alternate, 0x81), with(&alternate, 0x02)), ((1, 1023), (2, 64)));
    // SET_CONFIGURATION sets all at alternate 0 again; value 0 is one that was not read, and details stay.
    assert_eq!(with(&[set_interface(5, 0, 1), set_configuration(5, 1)], 0x81), (3, 8));
    assert_eq!(with(&[set_configuration(5, 0)], 0x81), (3, 8));
    // With configuration 0 chosen SET_INTERFACE finds nothing.
    assert_eq!(with(&[set_configuration(5, 0), set_interface(5, 0, 1)], 0x81), (3, 8));
    // Both directions of one number are two endpoints, and of one endpoint the later descriptor wins.
    let twice = [interface(0, 0, 3, 255), endpoint(0x81, 2, 64), endpoint(0x01, 3, 16), endpoint(0x81, 2, 512)];
    let chosen = joined(&[read_configuration(5, &configuration(1, &twice)), set_configuration(5, 1)]);
    assert_eq!((detail(&chosen, 0x81), detail(&chosen, 0x01)), ((2, 512), (3, 16)));
    // A max of 0 is unknown, the type is known.
    let none = [interface(0, 0, 1, 255), endpoint(0x81, 2, 0)];
    assert_eq!(detail(&joined(&[read_configuration(5, &configuration(1, &none)), set_configuration(5, 1)]), 0x81), (2, 0));
}

// ---- R9: devices and where else details come from

#[test]
fn devices() {
    let chosen = joined(&[read_configuration(5, &disk(1, 64)), set_configuration(5, 1)]);
    let then = |text: &str| detail(&format!("{chosen}; {text}"), 0x02);
    // A new row starts with nothing, and nothing comes over.
    assert_eq!(then(&set_address(5)), UNKNOWN);
    assert_eq!(then(&joined(&[set_address(5), set_configuration(5, 1)])), UNKNOWN);
    // Another address is another device.
    assert_eq!(then(&joined(&[read_configuration(6, &disk(1, 8)), set_configuration(6, 1)])), (2, 64));
    // A split's type does not replace a descriptor's. (Of details tests/typed.rs tells.)
    assert_eq!(then("SPLIT start int; OUT 5 2"), (2, 64));
    // A split's type gives way to a descriptor.
    assert_eq!(detail(&format!("SPLIT start int; OUT 5 2; DATA0 *8; {chosen}"), 0x02), (2, 64));
    // What a descriptor gave is known as such.
    let given = |text: &str| after(text).machine.device(5).expect("a device").details.borrow()[2].given;
    assert!(given(&chosen) && !given("detail 0 2 0 3 8; OUT 5 2; SPLIT start int; OUT 5 2"));
}

/// A short packet ends its group where the max came from a descriptor, with no detail call.
#[test]
fn traffic_goes_by_descriptors() {
    let chosen = joined(&[read_configuration(5, &disk(1, 64)), set_configuration(5, 1)]);
    let ends = |lead: &str| {
        let rows = list(&written(&format!("{lead}; OUT 5 2; DATA0 *64; ACK; OUT 5 2; DATA1 *63; ACK")));
        let number =
            rows.lines().find(|l| l.ends_with(" 2 out")).expect("the endpoint").split(' ').nth(1).expect("its row").to_string();
        rows.lines().filter(|l| l.starts_with("group ") && l.split(' ').nth(2) == Some(&number) && l.contains(" end ")).count()
    };
    assert_eq!((ends("IN 5 3; NAK"), ends(&chosen)), (0, 1));
}

// ---- R10: the row and its line

#[test]
fn lines() {
    let text = joined(&[
        read(0, 0x0100, 18, &device(64), 64),
        read_configuration(0, &disk(1, 64)),
        set_configuration(0, 1),
        set(0, setup(0x21, 9, 0, 0, 0)),
    ]);
    let rows = list(&written(&text));
    let requests: Vec<&str> = rows.lines().filter(|l| l.starts_with("request")).collect();
    assert_eq!(
        requests,
        [
            "request 0 3 8006000100001200 18 max 64",
            "request 1 3 8006000200002000 32 read 2",
            "request 2 3 0009010000000000 0 set 2",
            "request 3 3 2109000000000000 0 none",
        ]
    );
    let calls = after(&text);
    let words = calls.log_words(11);
    // 4 * 64 + 1, 4 * 2 + 2, 4 * 2 + 3, 0.
    assert_eq!(words.chunks(4).map(|row| row[3]).collect::<Vec<_>>(), [257, 10, 11, 0]);
    // Where descriptors are not read, a row has three words and its line no note.
    let off = listing_by::<Machine>(Descriptors::Off, &written(&text), BUFFER, Rows::PROGRAM, 0);
    assert!(off.ends_with("request 3 3 2109000000000000 0\n"));
}

/// A payload whose request is no read is not kept: what a read that follows counts is its own.
#[test]
fn aborted_reads() {
    let one = disk(1, 64);
    let begun = joined(&[asked(5, setup(0x80, 6, 0x0200, 0, 32)), sent(5, &one[..16], 8)]);
    assert_eq!(noted(&[begun.clone(), begun.clone(), status_out(5)]), ["read 0"]);
    // A string of 4 bytes between: nothing of it is read.
    let string = read(5, 0x0300, 4, &[4, 3, 9, 4], 8);
    assert_eq!(noted(&[begun, string, read_configuration(5, &one)]), ["none", "read 2"]);
}
