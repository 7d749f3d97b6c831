//! The listing of document 01, byte for byte.

use std::fmt::Write;

use crate::calls::{Calls, Mechanism, Rows};
use crate::capture::CaptureWriter;
use crate::descriptors::{Descriptors, note_text};
use crate::storage::Mark;
use crate::trace::{Refused, count_details, run_by};
use crate::usb::Direction;

/// The size of the program's input buffer (docs/SIZES.md).
pub const BUFFER: usize = 16384;

/// What the program prints for a trace: its rows, or the one line of a refusal, or `too long`.
pub fn listing<M: Mechanism>(trace: &[u8], buffer: usize, room: Rows, total: u64) -> String {
    listing_by::<M>(Descriptors::DEFAULT, trace, buffer, room, total)
}

/// The same with a mode of reading descriptors.
pub fn listing_by<M: Mechanism>(descriptors: Descriptors, trace: &[u8], buffer: usize, room: Rows, total: u64) -> String {
    if trace.len() > buffer {
        return "too long\n".to_string();
    }
    match run_by::<M>(descriptors, trace, room, total) {
        Ok(calls) => rows(&calls) + &last_line(count_details(trace)),
        Err(Refused { answer, at }) => format!("refused {answer} at {at}\n"),
    }
}

/// How many detail records the trace has, obeyed or not; nothing where it has none (change request 13).
pub fn last_line(details: u64) -> String {
    if details == 0 { String::new() } else { format!("details {details}\n") }
}

/// The details that each device has at the end, where a type or a max is known: device, number, direction, type (4 for none), max (0 for none).
pub fn details<M: Mechanism>(trace: &[u8], room: Rows) -> String {
    let calls = match run_by::<M>(Descriptors::DEFAULT, trace, room, 0) {
        Ok(calls) => calls,
        Err(Refused { answer, at }) => return format!("refused {answer} at {at}\n"),
    };
    let mut out = String::new();
    for (device, data) in calls.machine.capture().shared.device_data.load().values().enumerate() {
        for (place, (kind, max)) in data.told().iter().enumerate().filter(|(_, told)| **told != (4, 0)) {
            let direction = if place / 16 == 1 { "in" } else { "out" };
            writeln!(out, "detail {device} {} {direction} {kind} {max}", place % 16).ok();
        }
    }
    out
}

/// All rows, kind by kind.
pub fn rows<M: Mechanism>(calls: &Calls<M>) -> String {
    let c = calls.machine.capture();
    let mut out = "UTL 1\n".to_string();
    let line = &mut out;
    for (i, device) in c.devices.rows.iter().enumerate() {
        writeln!(line, "device {i} {}", device.address.0).ok();
    }
    for (i, e) in c.endpoints.rows.iter().enumerate() {
        let device = e.device_id().value;
        match (e.number().0, e.direction()) {
            (0x10, _) => writeln!(line, "endpoint {i} {device} event"),
            (0x11, _) => writeln!(line, "endpoint {i} {device} invalid"),
            (0x12, _) => writeln!(line, "endpoint {i} {device} framing"),
            (number, Direction::In) => writeln!(line, "endpoint {i} {device} {number} in"),
            (number, Direction::Out) => writeln!(line, "endpoint {i} {device} {number} out"),
        }
        .ok();
    }
    for (i, (start, time)) in c.packet_index.stream.rows.iter().zip(&c.packet_times.stream.rows).enumerate() {
        writeln!(line, "packet {i} {start} {time}").ok();
    }
    for (i, (packet, code)) in c.event_index.stream.rows.iter().zip(&c.event_codes.rows).enumerate() {
        writeln!(line, "event {i} {packet} {code}").ok();
    }
    for (i, packet) in c.transaction_index.stream.rows.iter().enumerate() {
        writeln!(line, "transaction {i} {packet} {}", calls.reason(*packet)).ok();
    }
    for (i, (g, stamp)) in c.group_index.rows.iter().zip(calls.stamps()).enumerate() {
        let (endpoint, group) = (g.endpoint_id().value, g.group_id().value);
        let end = if g.is_start() { "start" } else { "end" };
        writeln!(line, "group {i} {endpoint} {group} {end} {} {}", stamp.packet, stamp.time).ok();
    }
    states(c, line);
    for (i, group) in c.item_index.stream.rows.iter().enumerate() {
        writeln!(line, "item {i} {group}").ok();
    }
    for mark in &c.counters.journal.borrow().marks {
        match mark {
            Mark::T(x, transaction) => writeln!(line, "link T {x} {transaction}"),
            Mark::G(x, transaction) => writeln!(line, "link G {x} {transaction}"),
            Mark::D(x, transaction, total) => writeln!(line, "link D {x} {transaction} {total}"),
            Mark::E(x, item) => writeln!(line, "link E {x} {item}"),
            Mark::Packet | Mark::Group(..) | Mark::Item(_) => Ok(()),
        }
        .ok();
    }
    let noted = c.shared.requests.descriptors == Descriptors::Ruled;
    for (i, r) in c.shared.requests.rows.borrow().iter().enumerate() {
        let hex: String = r.setup.iter().map(|b| format!("{b:02x}")).collect();
        let note = if noted { format!(" {}", note_text(r.note)) } else { String::new() };
        writeln!(line, "request {i} {} {hex} {}{note}", r.endpoint, r.length).ok();
    }
    out
}

/// A letter for each endpoint: Idle, Starting, Ongoing, Ending.
fn states(c: &CaptureWriter, line: &mut String) {
    let starts = &c.endpoint_state_index.stream.rows;
    for (i, start) in starts.iter().enumerate() {
        let end = starts.get(i + 1).copied().unwrap_or(c.endpoint_states.len());
        let letters: String =
            c.endpoint_states.rows[*start as usize..end as usize].iter().map(|s| b"ISOE"[*s as usize] as char).collect();
        writeln!(line, "state {i} {letters}").ok();
    }
}
