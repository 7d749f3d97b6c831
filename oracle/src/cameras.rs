//! The traces of change request 6 by name, those of traces/high: each is listed in the mode and without it.

use crate::chapter9::{configuration, device, endpoint, interface};
use crate::enumerations::{hex, joined, read_configuration, set_configuration, set_interface};
use crate::traces::written;

fn sequences() -> Vec<(&'static str, String)> {
    let steps = |steps: &[&str]| joined(&steps.iter().map(|step| step.to_string()).collect::<Vec<_>>());
    // A camera: three transactions of 16 bytes in a microframe, in alternate setting 1.
    let camera = [interface(0, 0, 0, 14), interface(0, 1, 1, 14), endpoint(0x81, 5, 0x1010)];
    let chosen = steps(&[&read_configuration(5, &configuration(1, &camera)), &set_configuration(5, 1), &set_interface(5, 0, 1)]);
    let parts = |part: &[u8]| format!("SPLIT complete int; IN 5 0; MDATA {}", hex(part));
    let device = joined(&device(64).chunks(8).map(parts).collect::<Vec<_>>());
    let picture = "SOF 1; IN 5 1; DATA2 *16; IN 5 1; DATA1 *16; IN 5 1; DATA0 *4; SOF 2; IN 5 1; DATA1 *16; IN 5 1; DATA0 *3; SOF 3; IN 5 1; DATA0 *0";
    vec![
        // IN: 55 bytes, of which 16 are DATA2.
        ("camera-in", steps(&[&chosen, picture])),
        // OUT: MDATA says that more follow in the microframe; a DATA2 alone is Done too.
        (
            "camera-out",
            "detail 0 1 0 1 16; SOF 1; OUT 0 1; MDATA *16; OUT 0 1; MDATA *16; OUT 0 1; DATA2 *6; SOF 2; OUT 0 1; MDATA *16; OUT 0 1; DATA1 *2; SOF 3; OUT 0 1; DATA2 *1"
                .to_string(),
        ),
        // A full-speed camera behind a hub: its packet comes in three parts.
        (
            "split-isochronous",
            "SPLIT start isochronous; IN 0 1; SPLIT complete isochronous; IN 0 1; MDATA *8; SPLIT complete isochronous; IN 0 1; MDATA *8; SPLIT complete isochronous; IN 0 1; DATA0 *4"
                .to_string(),
        ),
        // The same by interrupt, with a size of 16: each part is short and ends its group (docs/DIFFERENCES.md).
        (
            "split-interrupt",
            "detail 0 1 1 3 16; SPLIT start int; IN 0 1; SPLIT complete int; IN 0 1; MDATA *8; SPLIT complete int; IN 0 1; DATA0 *4"
                .to_string(),
        ),
        // A device descriptor that comes as MDATA of interrupt splits to number 0: no hub does so, but these bytes count in the mode, and so they are laid
        // by and read.
        (
            "read-by-mdata",
            steps(&["SETUP 5 0; DATA0 =80 06 00 01 00 00 12 00; ACK", &device, "OUT 5 0; DATA1 *0; ACK"]),
        ),
        // What stays Invalid: IN then MDATA; a type that is not known, or another one; a type that is known only since the token.
        (
            "not-in-the-mode",
            "detail 0 1 1 1 16; IN 0 1; MDATA *16; IN 0 2; DATA2 *16; OUT 0 2; MDATA *16; detail 0 3 0 2 16; OUT 0 3; DATA2 *16; OUT 0 4; detail 0 4 0 1 16; MDATA *16; SPLIT start isochronous; OUT 0 5; MDATA *16"
                .to_string(),
        ),
    ]
}

/// All of them, by name.
pub fn all() -> Vec<(String, Vec<u8>)> {
    sequences().into_iter().map(|(name, text)| (name.to_string(), written(&text))).collect()
}
