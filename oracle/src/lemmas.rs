//! Runs of the Rust as lemmas of the crate `runs`: the calls, and the words that they leave in each of the twelve logs.

use std::fmt::Write;

use crate::calls::{Calls, Mechanism, Rows};
use crate::cameras;
use crate::generate::{CAMERA, KINDS, generate};
use crate::listing::listing;
use crate::mode::{High, Mode, Plain};
use crate::trace::{Clock, Reader, Record, call};
use crate::traces::{SEQUENCES, written};

/// Sequences in which a keepalive shows where a row is written: a T row at the token, a group row at the SETUP.
const PLACES: &[(&str, &str)] = &[
    (
        "linked-at-token",
        "SETUP 0 0; DATA0 =80 06 00 01 00 00 12 00; ACK; IN 0 0; event 0; DATA1 *8; ACK; OUT 0 0; event 0; DATA1 *0; ACK",
    ),
    (
        "setup-in-transfer",
        "SETUP 0 0; DATA0 =80 06 00 01 00 00 12 00; ACK; IN 0 0; DATA1 *8; ACK; SETUP 0 0; event 0; DATA0 =80 06 00 01 00 00 12 00; ACK",
    ),
];

/// A longer packet is left out of a run: its CRC would be computed bit by bit.
const LONGEST: usize = 80;

const HEADER: &str = "\
-- Runs of the Rust of docs/src, and the words that it left in each log: written by `oracle lemmas SEED RUNS CALLS` (oracle/), not by hand.
use mathlib.Core.Path.{refl}
use mathlib.Core.List.{List, [], ◌∷◌}
use Rattle.crc.specs.Crc.{step, bits, bytes, crc5_of, crc16_of}
use Rattle.usb.specs.Bits.{after}
use Rattle.usb.specs.Packet.{format_of, format_ok, format_reason, reason_of, checked_of}
use Rattle.transaction.specs.Status.{transaction_status}
use Rattle.transaction.specs.Payload.{extract_payload}
use Rattle.details.specs.Details.{details_of, with_type, with_detail, fresh}
use Rattle.descriptors.specs.Kind.{is_read, is_set_configuration, is_set_interface, kind_by, kind_of}
use Rattle.descriptors.specs.Laid.{laid}
use Rattle.descriptors.specs.Whole.{is_whole, whole_in, whole}
use Rattle.descriptors.specs.Entries.{is_of, first_of, max_of, value_of}
use Rattle.descriptors.specs.Store.{chunks}
use Rattle.descriptors.specs.Chosen.{applied, count_set}
use Rattle.descriptors.specs.Complete.{note_of, with_max, device_after, count_after, shelf_after, row_after}
use Rattle.group.specs.Control.{setup_group, control_group}
use Rattle.group.specs.Data.{begin_group, repeat_group, other_group}
use Rattle.group.specs.Group.{group_status}
use Rattle.rules.specs.Groups.{group_update, group_early_start, group_early_append}
use Rattle.rules.specs.Transactions.{transaction_update}
use Rattle.rules.specs.Events.{event_update}
use Rattle.rules.specs.Decoder.{handle_raw_packet, handle_event, handle_detail, finish}
use Rattle.rules.proofs.Runs.{packet, event, detail, finishing, Leaves}
";

const PROOF: &str = "unfolding step bits bytes crc5_of crc16_of after format_of format_ok format_reason reason_of checked_of transaction_status \
                     extract_payload details_of with_type with_detail fresh is_read is_set_configuration is_set_interface kind_by kind_of laid is_whole whole_in \
                     whole is_of first_of max_of value_of chunks applied count_set note_of with_max device_after count_after shelf_after row_after setup_group control_group begin_group \
                     repeat_group other_group group_status group_update group_early_start group_early_append transaction_update event_update handle_raw_packet \
                     handle_event handle_detail finish";

fn list(items: impl Iterator<Item = String>) -> String {
    let mut text: String = items.map(|item| format!("{item} ∷ ")).collect();
    text.push_str("[]");
    text
}

fn numbers(words: &[u64]) -> String {
    format!("({})", list(words.iter().map(u64::to_string)))
}

fn written_call(record: &Record, time: u64) -> String {
    match record {
        Record::Packet { bytes, .. } => format!("packet ({}) {time}", list(bytes.iter().map(|b| format!("0x{b:02X}")))),
        Record::Event { kind, code, .. } => format!("event {kind} {code} {time}"),
        Record::Detail { address, number, direction, kind, max } => format!("detail {address} {number} {direction} {kind} {max}"),
    }
}

/// A trace and its finish as one lemma in a mode: refused calls are no step, and a long packet is left out.
fn lemma<D: Mode>(name: &str, trace: &[u8]) -> String {
    let mut calls = Calls::<D::Machine>::new(Rows::LARGEST, 0, false);
    let mut reader = Reader::new(trace);
    let mut clock = Clock::default();
    let mut steps = Vec::new();
    while let Some(Ok(record)) = reader.next() {
        if matches!(record, Record::Packet { bytes, .. } if bytes.len() > LONGEST) {
            continue;
        }
        let answer = call(&mut calls, &mut clock, &record);
        if answer == 0 || answer == 8 {
            let time = calls.machine.capture().packet_times.stream.rows.last().copied().unwrap_or(0);
            steps.push(written_call(&record, time));
        }
    }
    assert_eq!(calls.finish(), 0, "a run of ours is refused at its end");
    steps.push("finishing".to_string());
    let leaves = if D::HIGH { HIGH_LEAVES } else { LEAVES };
    let mut out = format!("\nrun-{name} :\n    {leaves} ({})\n    (", list(steps.into_iter()));
    for log in calls.words() {
        write!(out, "{} ∷ ", numbers(&log)).ok();
    }
    writeln!(out, "[])\n{PROOF}\nrun-{name} = refl").ok();
    out
}

/// The sequences of `traces` and those above, and so many runs of so many records, each kind in turn.
pub fn lemmas(seed: u64, runs: u64, records: u64) -> String {
    let mut out = HEADER.to_string();
    for (name, text) in SEQUENCES.iter().chain(PLACES) {
        out += &lemma::<Plain>(name, &written(text));
    }
    for i in 0..runs {
        let kind = KINDS[(i % KINDS.len() as u64) as usize].0;
        out += &lemma::<Plain>(&format!("{kind}-{}", seed + i), &generate(seed + i, records, kind).expect("a kind of the list"));
    }
    out
}

/// What the crate `rules` says of a run, and in the mode of change request 6; and what the header has otherwise there.
const LEAVES: &str = "Leaves";
const HIGH_LEAVES: &str = "LeavesIn true";
const HIGH_USES: [(&str, &str); 4] = [
    ("of docs/src,", "of docs/src in the mode of change request 6 (oracle/changes/high.txt),"),
    ("`oracle lemmas SEED", "`oracle lemmas --high SEED"),
    ("finishing, Leaves}", "finishing, LeavesIn}"),
    ("use mathlib.Core.List.{List, [], ◌∷◌}\n", "use mathlib.Core.List.{List, [], ◌∷◌}\nuse mathlib.Core.Bool.{true}\n"),
];

/// A run is computed with a shelf that has no bytes, so a trace that reads a descriptor to its end is left out.
const READS: [&str; 2] = ["camera-in", "read-by-mdata"];

/// The same in the mode: the traces of traces/high, and so many runs of so many records, of those from the seed on on which the mode shows.
pub fn high(seed: u64, runs: u64, records: u64) -> String {
    let mut out = HIGH_USES.iter().fold(HEADER.to_string(), |text, (old, new)| text.replace(old, new));
    for (name, trace) in cameras::all().into_iter().filter(|(name, _)| !READS.contains(&name.as_str())) {
        out += &lemma::<High>(&name, &trace);
    }
    let shows = |trace: &[u8]| {
        let (large, all) = (Rows::LARGEST, usize::MAX);
        let in_mode = listing::<<High as Mode>::Machine>(trace, all, large, 0);
        in_mode != listing::<<Plain as Mode>::Machine>(trace, all, large, 0)
    };
    let random = (seed..).map(|seed| (seed, generate(seed, records, CAMERA.0).expect("a kind")));
    for (seed, trace) in random.filter(|(_, trace)| shows(trace)).take(runs as usize) {
        out += &lemma::<High>(&format!("{}-{seed}", CAMERA.0), &trace);
    }
    out
}
