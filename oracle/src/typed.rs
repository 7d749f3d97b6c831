//! The traces of change request 13 by name: detail records beside descriptors, and the last line of the listing. They stand apart from the
//! sequences of src/traces.rs, of which the runs of crates/runs are made.

use crate::chapter9::{configuration, device, disk, endpoint, interface};
use crate::enumerations::{joined, read, read_configuration, set_address, set_configuration, set_interface};
use crate::listing::BUFFER;
use crate::trace::{HEADER, Writer};
use crate::traces::written;

/// Endpoint 2 out of the device at 5: a full packet and a short one, each with its ACK. Bulk with a size of 64: the short one ends the group. Isochronous:
/// neither ends it, and each ACK fits nowhere. Bulk with a size of 8: nothing is short.
const OUTWARDS: &str = "OUT 5 2; DATA0 *64; ACK; OUT 5 2; DATA1 *10; ACK";

/// A detail for that endpoint: isochronous, or bulk with a size of 8.
const ISOCHRONOUS: &str = "detail 5 2 0 1 64";
const EIGHT: &str = "detail 5 2 0 2 8";

/// A packet to address 5, so that a device stands there.
const STANDS: &str = "IN 5 3; NAK";

fn sequences() -> Vec<(&'static str, String)> {
    let steps = |steps: &[&str]| joined(&steps.iter().map(|step| step.to_string()).collect::<Vec<_>>());
    let (one, first) = (read_configuration(5, &disk(1, 64)), set_configuration(5, 1));
    let other = read_configuration(5, &configuration(2, &[interface(0, 0, 1, 3), endpoint(0x81, 3, 8)]));
    let alternates = [interface(0, 0, 0, 8), interface(0, 1, 1, 8), endpoint(0x02, 2, 64)];
    let alternates = read_configuration(5, &configuration(1, &alternates));
    // The same with the numbers and directions of endpoints that no descriptor gives.
    let others = "detail 5 3 0 2 8; OUT 5 3; DATA0 *8; ACK; OUT 5 3; DATA1 *4; ACK; detail 5 2 1 1 64; IN 5 2; DATA0 *64; IN 5 2; DATA0 *10";
    vec![
        ("detail-over-descriptor", steps(&[&one, &first, ISOCHRONOUS, OUTWARDS, EIGHT, OUTWARDS, others])),
        ("descriptor-over-detail", steps(&[STANDS, ISOCHRONOUS, OUTWARDS, &one, &first, OUTWARDS])),
        ("detail-after-set-0", steps(&[&one, &first, &set_configuration(5, 0), ISOCHRONOUS, OUTWARDS, EIGHT, OUTWARDS])),
        // To read a configuration gives nothing, to choose it does.
        ("detail-after-read", steps(&[&one, ISOCHRONOUS, OUTWARDS, &first, OUTWARDS])),
        // What configuration 1 gave stays given when one without that endpoint is chosen.
        ("detail-other-configuration", steps(&[&one, &other, &first, &set_configuration(5, 2), ISOCHRONOUS, OUTWARDS])),
        // SET_INTERFACE gives, too: the alternate setting that SET_CONFIGURATION takes has no endpoint.
        (
            "detail-and-interface",
            steps(&[&alternates, &first, ISOCHRONOUS, OUTWARDS, &set_interface(5, 0, 1), ISOCHRONOUS, OUTWARDS]),
        ),
        // A new device row has nothing given.
        ("detail-readdressed", steps(&[&set_address(5), &one, &first, &set_address(5), ISOCHRONOUS, OUTWARDS])),
        // A split's type is no descriptor's.
        ("detail-after-split", steps(&["SPLIT start int; OUT 5 2; DATA0 *8", EIGHT, OUTWARDS])),
        // Number 0, given by a device descriptor; no row tells its size.
        (
            "detail-after-device",
            steps(&[&read(5, 0x0100, 18, &device(64), 64), "detail 5 0 0 0 8; detail 5 0 1 0 16; IN 5 0; NAK"]),
        ),
        // The last line: ten of them and nothing else; bytes in a packet that look like one; a run that is refused.
        ("details-only", (0..10).map(|i| format!("detail 0 {} {} 2 64", i % 5 + 1, i % 2)).collect::<Vec<_>>().join("; ")),
        (
            "details-in-packet",
            "raw 02 00 01 00 02 40 00; detail 0 1 0 2 64; raw 00 02 00 01 00 02 40 00; detail 0 1 1 2 64".to_string(),
        ),
        ("details-refused", "detail 0 1 0 2 64; IN 0 1; NAK; detail 0 1 1 2 64; event 8".to_string()),
    ]
}

/// As many details as the program's buffer holds.
fn most() -> (String, Vec<u8>) {
    let mut trace = Writer::default();
    (0..(BUFFER - HEADER) / 7).for_each(|i| trace.detail(0, i as u8 % 15 + 1, 0, 2, 64));
    (format!("details-{}", trace.records), trace.bytes)
}

/// All of them, by name.
pub fn all() -> Vec<(String, Vec<u8>)> {
    let named = sequences().into_iter().map(|(name, text)| (name.to_string(), written(&text)));
    named.chain([most()]).collect()
}
