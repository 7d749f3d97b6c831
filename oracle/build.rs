//! Makes the oracle's copies of the Rust under docs/src: changes/NAME.txt says which lines are kept and what gives way to what.
//! A change whose old lines do not stand there exactly once stops the build, so the files of changes/ are the whole difference.

use std::fs;
use std::path::{Path, PathBuf};

#[path = "build/counted.rs"]
mod counted;

fn main() {
    let out = PathBuf::from(std::env::var("OUT_DIR").expect("cargo sets OUT_DIR"));
    let changes = Path::new("changes");
    let source = Path::new("../docs/src");
    println!("cargo:rerun-if-changed=changes");
    println!("cargo:rerun-if-changed=build.rs");
    println!("cargo:rerun-if-changed=build");
    println!("cargo:rerun-if-changed=../docs/src/src");
    for name in ["usb", "event", "capture", "own_usb", "own_capture", "decoder"] {
        let text = made(&fs::read_to_string(changes.join(name).with_extension("txt")).expect(name), source);
        fs::write(out.join(name).with_extension("rs"), &text).expect("OUT_DIR can be written");
        if name == "decoder" {
            mutants(&text, "mutants", false, &out);
            mutants(&text, "slips", false, &out);
            decoders(&text, "", 0, &COUNTED_WRONG, &out);
            let high = changed(text, &fs::read_to_string(changes.join("high.txt")).expect("high"));
            fs::write(out.join("high.rs"), &high).expect("OUT_DIR can be written");
            mutants(&high, "high_slips", true, &out);
            decoders(&high, "high_", HIGH_COUNTERS, &HIGH_WRONG, &out);
        }
    }
}

/// Where the counters of the decoder in the mode of change request 6 begin: behind those of the other.
const HIGH_COUNTERS: usize = 512;

/// What else is made from a decoder that is right: the one that counts its cases, with their table, and the one with an account of what it
/// counts; and those with such a slip and an account.
fn decoders(text: &str, prefix: &str, first: usize, slips: &[&str], out: &Path) {
    traced(text, prefix, slips, out);
    let (text, cases) = counted::counted(text, first);
    fs::write(out.join(format!("{prefix}counted.rs")), text).expect("OUT_DIR can be written");
    fs::write(out.join(format!("{prefix}cases.rs")), counted::table(&cases)).expect("OUT_DIR can be written");
}

/// The lines that `take` names, with inner comments made plain (they may not stand in an included file), then changed.
fn made(script: &str, source: &Path) -> String {
    let mut lines: Vec<String> = Vec::new();
    let mut kept: Vec<String> = Vec::new();
    for line in script.lines() {
        if let Some(name) = line.strip_prefix("source ") {
            let text = fs::read_to_string(source.join(name)).expect(name);
            lines = text.lines().map(String::from).collect();
        } else if let Some(range) = line.strip_prefix("take ") {
            let (from, to) = range.split_once('-').expect("take FROM-TO");
            let (from, to): (usize, usize) = (from.parse().expect("a line"), to.parse().expect("a line"));
            kept.extend_from_slice(&lines[from - 1..to]);
        }
    }
    for line in &mut kept {
        if line.starts_with("//!") {
            line.remove(2);
        }
    }
    changed(kept.join("\n") + "\n", script)
}

/// Each block of `-` lines, which must stand in the text exactly once, gives way to the `+` lines after it.
fn changed(mut text: String, script: &str) -> String {
    let (mut old, mut new) = (String::new(), String::new());
    for line in script.lines().chain([""]) {
        if let Some(rest) = line.strip_prefix('-') {
            old += &format!("{}\n", rest.strip_prefix(' ').unwrap_or(rest));
        } else if let Some(rest) = line.strip_prefix('+') {
            new += &format!("{}\n", rest.strip_prefix(' ').unwrap_or(rest));
        } else if !old.is_empty() {
            assert_eq!(text.matches(&old).count(), 1, "to be changed, and not there once:\n{old}");
            text = text.replace(&old, &new);
            old.clear();
            new.clear();
        }
    }
    text
}

/// The slips that the ledger must find (src/once.rs), without the mode and in it.
const COUNTED_WRONG: [&str; 2] = ["payload_seen", "wait_kept"];
const HIGH_WRONG: [&str; 4] = ["in_mdata_done", "out_mdata_lost", "unknown_done2", "split_mdata_lost"];

/// The decoder, and those with such a slip, with an account of what they count (changes/traced.txt).
fn traced(decoder: &str, prefix: &str, slips: &[&str], out: &Path) {
    let script = fs::read_to_string("changes/traced.txt").expect("traced");
    fs::write(out.join(format!("{prefix}traced.rs")), changed(decoder.to_string(), &script)).expect("OUT_DIR can be written");
    for slip in slips {
        let text = fs::read_to_string(out.join(format!("mutant_{slip}.rs"))).expect(slip);
        fs::write(out.join(format!("traced_{slip}.rs")), changed(text, &script)).expect("OUT_DIR can be written");
    }
}

/// A decoder with one deliberate fault for each part of the file that starts with `mutant NAME`, and a list of what `check` finds in each. `high`
/// says whether they are in the mode.
fn mutants(decoder: &str, name: &str, high: bool, out: &Path) {
    let script = fs::read_to_string(Path::new("changes").join(name).with_extension("txt")).expect(name);
    let mut names = Vec::new();
    for part in script.split("\nmutant ").skip(1) {
        let (name, body) = part.split_once('\n').expect("mutant NAME");
        fs::write(out.join(format!("mutant_{name}.rs")), changed(decoder.to_string(), body)).expect("OUT_DIR can be written");
        names.push(name);
    }
    let modules: String = names.iter().map(|n| format!("crate::decoder_module!({n}, \"/mutant_{n}.rs\", {high});\n")).collect();
    let list: String =
        names.iter().map(|n| format!("    found.push((\"{n}\", check::<{n}::machine::Machine>(seed, calls)));\n")).collect();
    let all = format!(
        "{modules}\n/// What `check` finds in each decoder with a fault.\npub fn each(seed: u64, calls: u64) -> Vec<(&'static str, Result<u64, String>)> {{\n    \
         let mut found = Vec::new();\n{list}    found\n}}\n"
    );
    fs::write(out.join(name).with_extension("rs"), all).expect("OUT_DIR can be written");
}
