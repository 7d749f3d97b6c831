//! Random calls on the Rust decoder, with document 01's well-formed list, demand 3, the reasons of transaction rows, the stamps of group
//! rows and the details of change request 13 tested after each, and the last line of listings; and the same on decoders and last lines with a
//! deliberate fault, each of which must be found.

use std::collections::BTreeSet;
use std::panic::{AssertUnwindSafe, catch_unwind};
use std::sync::Arc;

use crate::calls::{
    Calls, EndpointView, GROUPS, LOGS, Mechanism, PACKETS, REQUESTS, Rows, Stamp, TRANSACTIONS, TransactionView, View,
};
use crate::capture::{Detail, DeviceData, Met, Request};
use crate::descriptors::{Entry, Kind, kind};
use crate::generate::{Random, generate, kinds};
use crate::listing::{last_line, listing, rows};
use crate::mode::{High, Mode};
use crate::once;
use crate::storage::Mark;
use crate::trace::{Clock, HEADER, Reader, Record, call, count_details, run};
use crate::usb::{Direction, EndpointAddr, EndpointNum, EndpointType, reason_of};

include!(concat!(env!("OUT_DIR"), "/mutants.rs"));

/// Runs so many calls, trace after trace: how many were run, or the first fault.
pub fn check<M: Mechanism>(seed: u64, calls: u64) -> Result<u64, String> {
    check_by(seed, calls, M::HIGH, check_trace::<M>)
}

/// The same with a check of one trace, which tells how many calls it ran.
fn check_by(seed: u64, calls: u64, high: bool, one: impl Fn(&[u8], Rows) -> Result<u64, String>) -> Result<u64, String> {
    let kinds = kinds(high);
    let mut random = Random::new(seed);
    let mut done = 0;
    while done < calls {
        let (kind, seed) = (random.pick(&kinds).0, random.next());
        let records = random.below(400) + 1;
        let room = if random.chance(30) { small(&mut random) } else { Rows::LARGEST };
        let trace = generate(seed, records, kind).expect("a kind of the list");
        let run = catch_unwind(AssertUnwindSafe(|| one(&trace, room)));
        match run {
            Ok(Ok(count)) => done += count,
            Ok(Err(fault)) => return Err(format!("{fault} (trace {kind} {seed} of {records} records, after {done} calls)")),
            Err(_) => return Err(format!("a panic (trace {kind} {seed} of {records} records, after {done} calls)")),
        }
    }
    Ok(done)
}

/// Room that runs out, in one log or another.
pub(crate) fn small(random: &mut Random) -> Rows {
    let mut room = Rows::PROGRAM;
    let log = random.below(12) as usize;
    room.0[log] = room.0[log] / 8 + random.below(room.0[log] / 4);
    room
}

fn check_trace<M: Mechanism>(trace: &[u8], room: Rows) -> Result<u64, String> {
    let mut calls = Calls::<M>::new(room, 0, true);
    if calls.fresh != 0 {
        return Ok(1);
    }
    let mut history = History::default();
    let mut given = Given::default();
    let mut reader = Reader::new(trace);
    let mut clock = Clock::default();
    let mut count = 0;
    well_formed(&calls, &room)?;
    while let Some(record) = reader.next() {
        let record = record.map_err(|r| format!("a trace of ours is refused with {}", r.answer))?;
        let before = (calls.rows(), calls.machine.view(), known(&calls));
        let answer = call(&mut calls, &mut clock, &record);
        count += 1;
        match answer {
            0 | 8 => {
                let ends_groups = matches!(record, Record::Event { kind, .. } if kind != 0);
                history.follow(&calls, ends_groups)?;
                let reason = if let Record::Packet { bytes, .. } = record { reason_of(bytes) } else { 0 };
                reasons_carried(&calls, &before.0, reason)?;
                given.follow(&calls, &record, &before.0, before.2)?;
            }
            1 | 2 => return Err(format!("answer {answer} to a call on a record that calls left")),
            _ if before != (calls.rows(), calls.machine.view(), known(&calls)) => {
                return Err(format!("answer {answer} changed something"));
            }
            _ => {}
        }
        well_formed(&calls, &room).map_err(|fault| format!("{fault}, after record {count}, answer {answer}"))?;
    }
    let before = calls.rows();
    if calls.finish() == 0 {
        if calls.finish() != 2 {
            return Err("a second finish is not answered 2".to_string());
        }
        finish_told(&calls, &before)?;
        history.follow(&calls, false)?;
    }
    last_line_told(trace, &listing::<M>(trace, usize::MAX, room, 0))?;
    Ok(count + 1)
}

/// Change request 1: the transaction rows of a call name the packet row that it appends, so they carry the reason of its own packet.
fn reasons_carried<M: Mechanism>(calls: &Calls<M>, before: &Rows, reason: u8) -> Result<(), String> {
    let rows = &calls.machine.capture().transaction_index.stream.rows[before.0[TRANSACTIONS] as usize..];
    let carried = |packet: &u64| (*packet, calls.reason(*packet)) == (before.0[PACKETS], reason as u64);
    hold(rows.iter().all(carried), || format!("a transaction row of a packet of reason {reason} names or carries another"))
}

/// Finish writes no transaction row, and group rows only behind a packet: "the last packet" of change request 9 is no event then.
fn finish_told<M: Mechanism>(calls: &Calls<M>, before: &Rows) -> Result<(), String> {
    let (rows, events) = (calls.rows(), &calls.machine.capture().event_index.stream.rows);
    hold(rows.0[TRANSACTIONS] == before.0[TRANSACTIONS], || "finish writes a transaction row".to_string())?;
    let behind_packet = rows.0[PACKETS] > 0 && events.last() != Some(&(rows.0[PACKETS] - 1));
    hold(behind_packet || rows.0[GROUPS] == before.0[GROUPS], || {
        "finish writes a group row behind an event or nothing".to_string()
    })
}

// ---- change request 13

/// Type and size of the 32 entries of each device.
type Known = Vec<[(Option<EndpointType>, Option<usize>); 32]>;

fn devices<M: Mechanism>(calls: &Calls<M>) -> Vec<Arc<DeviceData>> {
    calls.machine.capture().shared.device_data.load().values().cloned().collect()
}

fn known<M: Mechanism>(calls: &Calls<M>) -> Known {
    devices(calls).iter().map(|device| device.details.borrow().map(|entry| (entry.kind, entry.max))).collect()
}

/// The entries that descriptors gave, by the device's row and the place, reckoned from the requests that completed. No rule looks at it.
#[derive(Default)]
struct Given(BTreeSet<(usize, usize)>);

impl Given {
    /// An accepted call: a detail sets its entry, unless it was given, and no other; a request that completes sets what it gives, whatever was there.
    fn follow<M: Mechanism>(&mut self, calls: &Calls<M>, record: &Record, before: &Rows, mut was: Known) -> Result<(), String> {
        if let Record::Detail { address, number, direction, kind, max } = *record {
            let device = calls.machine.device(address).ok_or("a detail is accepted for an address with no device")?;
            let row = devices(calls).iter().position(|d| Arc::ptr_eq(d, &device)).expect("a device that has a row");
            let place = Detail::place(EndpointAddr::from_parts(EndpointNum(number), Direction::from(direction)));
            if !self.0.contains(&(row, place)) {
                was[row][place] = (Some(EndpointType::from(kind)), Some(max as usize).filter(|max| *max != 0));
            }
            return hold(known(calls) == was, || format!("a detail for place {place} of device {row} does something else"));
        }
        let requests = calls.machine.capture().shared.requests.rows.borrow()[before.0[REQUESTS] as usize..].to_vec();
        requests.iter().try_for_each(|request| self.request(calls, request))
    }

    fn request<M: Mechanism>(&mut self, calls: &Calls<M>, request: &Request) -> Result<(), String> {
        let row = calls.machine.capture().endpoints.rows[request.endpoint as usize].device_id().value as usize;
        let (entries, chosen) = devices(calls)[row].read();
        let sets = |e: &&Entry| match kind(&request.setup) {
            Kind::SetConfiguration(value) => (e.value, e.alternate) == (value, 0),
            Kind::SetInterface(interface, alternate) => {
                (Some(e.value), e.interface, e.alternate) == (chosen, interface, alternate)
            }
            _ => false,
        };
        let now = &known(calls)[row];
        if request.note % 4 == 1 {
            self.0.insert((row, 0));
            hold(now[0].1.unwrap_or(0) as u64 == request.note / 4, || {
                format!("device {row}: a size that its descriptor has not")
            })?;
        }
        // Of two for one endpoint the later counts.
        let mut told = BTreeSet::new();
        for e in entries.iter().filter(sets).rev() {
            let place = Detail::place(e.place());
            self.0.insert((row, place));
            let as_given = now[place] == (Some(e.kind()), Some(e.max() as usize).filter(|max| *max != 0));
            hold(!told.insert(place) || as_given, || format!("place {place} of device {row} is not as its descriptor gives it"))?;
        }
        Ok(())
    }
}

/// The detail records of a trace that is whole, by its bytes alone.
fn details_of(trace: &[u8]) -> u64 {
    let (mut at, mut count) = (HEADER, 0);
    while at < trace.len() {
        count += (trace[at] == 2) as u64;
        at += 7 + if trace[at] == 0 { trace[at + 5] as usize + 256 * trace[at + 6] as usize } else { 0 };
    }
    count
}

/// A listing ends with one line of details, if its trace has any, and has no other; the line of a refusal stands alone.
fn last_line_told(trace: &[u8], listing: &str) -> Result<(), String> {
    let found: Vec<(usize, &str)> = listing.lines().enumerate().filter(|(_, line)| line.starts_with("details")).collect();
    let expected = match (listing.starts_with("refused "), details_of(trace)) {
        (true, _) => hold(listing.lines().count() == 1, || "a refusal with other lines".to_string()).map(|()| Vec::new())?,
        (false, 0) => Vec::new(),
        (false, count) => vec![(listing.lines().count() - 1, format!("details {count}"))],
    };
    let same = found.iter().map(|(i, line)| (*i, line.to_string())).eq(expected.iter().cloned());
    hold(same, || format!("lines of details {found:?}, and not {expected:?}"))
}

type LastLine = fn(&[u8], &Met) -> String;

/// Wrong last lines.
const LAST_LINES: [(&str, LastLine); 5] = [
    ("details_line_packets", |trace, _| last_line(tagged(trace, 0))),
    ("details_line_records", |trace, _| last_line((0..3).map(|tag| tagged(trace, tag)).sum())),
    ("details_line_obeyed", |_, met| last_line(met.obeyed)),
    ("details_line_for_0", |trace, _| format!("details {}\n", count_details(trace))),
    ("details_line_missing", |_, _| String::new()),
];

fn tagged(trace: &[u8], tag: u8) -> u64 {
    let mut reader = Reader::new(trace);
    let mut count = 0;
    while let Some(Ok(record)) = reader.next() {
        let own = match record {
            Record::Packet { .. } => 0,
            Record::Event { .. } => 1,
            Record::Detail { .. } => 2,
        };
        count += (own == tag) as u64;
    }
    count
}

/// The rows of a trace with a last line of this kind.
fn check_last_line(last: LastLine, trace: &[u8], room: Rows) -> Result<u64, String> {
    if let Ok(calls) = run::<crate::decoder::machine::Machine>(trace, room, 0) {
        last_line_told(trace, &(rows(&calls) + &last(trace, &calls.met())))?;
    }
    Ok(1)
}

// ---- well formed, by 01's list

fn well_formed<M: Mechanism>(calls: &Calls<M>, room: &Rows) -> Result<(), String> {
    let (rows, Some(view)) = (calls.rows(), calls.machine.view()) else { return Ok(()) };
    for (i, name) in LOGS.iter().enumerate() {
        let most = match *name {
            "devices" => room.0[i].min(64),
            "endpoints" => room.0[i].min(128),
            _ => room.0[i],
        };
        hold(rows.0[i] <= most, || format!("{} rows do not fit {name}", rows.0[i]))?;
    }
    let capture = calls.machine.capture();
    let (bytes, devices, endpoints) = (rows.0[0], rows.0[1], rows.0[2]);
    hold(devices >= 1 && capture.devices.rows[0].address.0 == 0, || "the first device does not stand".to_string())?;
    for (i, number) in [0x10, 0x11, 0x12].into_iter().enumerate() {
        let e = capture.endpoints.rows[i];
        hold(e.number().0 == number && e.device_id().value == 0, || format!("special endpoint {i} does not stand"))?;
    }
    hold(view.endpoints.len() as u64 == endpoints, || "endpoints and their rows differ".to_string())?;
    for (x, e) in view.endpoints.iter().enumerate() {
        let writer = &capture.endpoint_writers[crate::capture::EndpointId::from(x as u64)];
        let (t, g, closed) = (writer.transaction_ids.count, writer.group_index.count, writer.end_index.count);
        hold(e.device < devices, || format!("endpoint {x} names no device"))?;
        hold(e.payload <= bytes && e.pending.is_none_or(|(n, _)| n <= bytes), || {
            format!("a payload of endpoint {x} is too long")
        })?;
        hold(e.pending.is_none_or(|(_, id)| id < t), || format!("the waiting payload of endpoint {x} names no T row"))?;
        count_rule(x, e, g, closed)?;
    }
    hold(view.last_item_endpoint.is_none_or(|x| x < endpoints), || "the last item's endpoint does not exist".to_string())?;
    hold(view.keepalive_item.is_none_or(|i| i < rows.0[9]), || "the keepalive item does not exist".to_string())?;
    for t in [&view.current, &view.suspended].into_iter().flatten() {
        transaction_formed(t, &view, calls, &rows)?;
    }
    Ok(())
}

/// Demand 3's count rule, and that at most one group stands open or waiting, the last one.
fn count_rule(x: usize, e: &EndpointView, groups: u64, closed: u64) -> Result<(), String> {
    let standing: Vec<u64> = [e.early, e.active.map(|(g, _)| g), e.ended].into_iter().flatten().collect();
    if x == 0 {
        return hold(standing.is_empty() && closed == 0, || "the event endpoint has a group open, ended or closed".to_string());
    }
    match standing.as_slice() {
        [] => hold(groups == closed, || format!("endpoint {x} has {groups} groups, {closed} closed, and none that stands")),
        [g] => hold(groups == closed + 1 && *g == closed, || {
            format!("endpoint {x} has {groups} groups, {closed} closed, and {g} that stands")
        }),
        _ => Err(format!("endpoint {x} has groups {standing:?} standing at once")),
    }
}

fn transaction_formed<M: Mechanism>(t: &TransactionView, view: &View, calls: &Calls<M>, rows: &Rows) -> Result<(), String> {
    hold(t.id < rows.0[5], || "a transaction names no row".to_string())?;
    hold(t.payload.is_none_or(|n| n <= rows.0[0]), || "a transaction's payload is too long".to_string())?;
    hold(t.endpoint.is_none() == t.lacks_token, || {
        "a transaction with no endpoint that is no split without its token, or the other way".to_string()
    })?;
    let Some(x) = t.endpoint else { return Ok(()) };
    let e = view.endpoints.get(x as usize).ok_or("a transaction names no endpoint")?;
    let writer = &calls.machine.capture().endpoint_writers[crate::capture::EndpointId::from(x)];
    hold(t.link.is_none_or(|id| id < writer.transaction_ids.count), || "a transaction names no T row".to_string())?;
    let in_or_out = e.active.is_some_and(|(_, first)| first == 0x69 || first == 0xE1);
    let idle = e.early.is_none() && e.active.is_none();
    hold(t.link.is_some() || in_or_out || idle, || format!("a transaction on endpoint {x} lacks its T link"))
}

pub(crate) fn hold(fact: bool, fault: impl FnOnce() -> String) -> Result<(), String> {
    if fact { Ok(()) } else { Err(fault()) }
}

// ---- demand 3, from the order of the rows

/// What an endpoint's rows have shown: groups started, closing rows, the group that is open and the one that waits.
#[derive(Clone, Default)]
struct Track {
    started: u64,
    closed: u64,
    open: Option<u64>,
    waiting: Option<u64>,
}

#[derive(Default)]
struct History {
    seen: usize,
    tracks: Vec<Track>,
    /// The item that has just come, and the endpoints that it still has to close.
    item: u64,
    to_close: Vec<u64>,
    /// The packet rows and the group rows so far.
    packets: u64,
    groups: usize,
}

impl History {
    /// Follows the rows of one accepted call. An event other than a keepalive ends every active group when its packet row comes.
    fn follow<M: Mechanism>(&mut self, calls: &Calls<M>, ends_groups: bool) -> Result<(), String> {
        let endpoints = calls.machine.capture().endpoints.rows.len();
        self.tracks.resize(endpoints, Track::default());
        let view = calls.machine.view();
        let marks = calls.machine.journal().marks[self.seen..].to_vec();
        self.seen += marks.len();
        self.stamped(calls, &marks)?;
        for mark in marks {
            if let (false, Mark::E(..)) = (self.to_close.is_empty(), mark) {
            } else if let Some(x) = self.to_close.first() {
                return Err(format!("item {} does not close endpoint {x}", self.item));
            }
            self.mark(mark)?;
            if let (Mark::Packet, true, Some(view)) = (mark, ends_groups, &view) {
                self.end_active(view)?;
            }
        }
        hold(self.to_close.is_empty(), || format!("item {} leaves an endpoint waiting", self.item))?;
        for (x, track) in self.tracks.iter().enumerate().skip(1) {
            track.agrees(x, view.as_ref())?;
        }
        Ok(())
    }

    /// Change request 9, from the trail and the packet log: the group rows of a call have the number and the time of its packet row; where it has
    /// none, of the last one before.
    fn stamped<M: Mechanism>(&mut self, calls: &Calls<M>, marks: &[Mark]) -> Result<(), String> {
        let (first, groups) = (self.packets, self.groups);
        self.packets += marks.iter().filter(|mark| matches!(mark, Mark::Packet)).count() as u64;
        self.groups += marks.iter().filter(|mark| matches!(mark, Mark::Group(..))).count();
        let packet = first.min(self.packets.saturating_sub(1));
        let time = calls.machine.capture().packet_times.stream.rows.get(packet as usize).copied().unwrap_or(0);
        let stamp = Stamp { packet, time };
        let stamped = calls.stamps().len() == self.groups && calls.stamps()[groups..].iter().all(|s| *s == stamp);
        hold(stamped, || format!("a group row of the call of packet {packet} has another number or time"))
    }

    fn mark(&mut self, mark: Mark) -> Result<(), String> {
        match mark {
            Mark::G(x, _) if x != 0 => {
                let track = &mut self.tracks[x as usize];
                // Nothing but a second early start begins a group while one is open: it ends the first.
                if let Some(group) = track.open.take() {
                    track.ends(x, group)?;
                }
                track.open = Some(track.started);
                track.started += 1;
            }
            Mark::Group(x, group, start) if x != 0 => {
                let track = &mut self.tracks[x as usize];
                hold(track.open == Some(group), || {
                    format!("a group row of endpoint {x} names group {group}, which is not open")
                })?;
                if !start {
                    track.open = None;
                    track.ends(x, group)?;
                }
            }
            Mark::Item(item) => {
                self.item = item;
                self.to_close = (0..self.tracks.len() as u64).filter(|x| self.tracks[*x as usize].waiting.is_some()).collect();
            }
            Mark::E(x, item) => {
                hold(self.to_close.first() == Some(&x), || format!("item {item} closes endpoint {x} out of turn"))?;
                hold(item == self.item, || format!("a closing row of endpoint {x} names item {item} and not {}", self.item))?;
                self.to_close.remove(0);
                let track = &mut self.tracks[x as usize];
                hold(track.waiting == Some(track.closed), || {
                    format!("closing row {} of endpoint {x} is of another group", track.closed)
                })?;
                track.waiting = None;
                track.closed += 1;
            }
            _ => {}
        }
        Ok(())
    }

    fn end_active(&mut self, view: &View) -> Result<(), String> {
        for (x, track) in self.tracks.iter_mut().enumerate() {
            if let Some(group) = track.open
                && view.endpoints[x].early != Some(group)
            {
                track.open = None;
                track.ends(x as u64, group)?;
            }
        }
        Ok(())
    }
}

impl Track {
    fn ends(&mut self, x: u64, group: u64) -> Result<(), String> {
        let before = self.waiting.replace(group);
        hold(before.is_none(), || format!("group {group} of endpoint {x} ends while another waits"))
    }

    /// Demand 3: as many groups as closing rows, or one more, which is open or waits and not both; and the decoder says the same.
    fn agrees(&self, x: usize, view: Option<&View>) -> Result<(), String> {
        let standing = self.open.is_some() as u64 + self.waiting.is_some() as u64;
        hold(standing <= 1 && self.started == self.closed + standing, || {
            format!("endpoint {x}: demand 3's count rule is broken")
        })?;
        let Some(e) = view.map(|v| &v.endpoints[x]) else { return Ok(()) };
        let open = e.early.or(e.active.map(|(g, _)| g));
        hold(open == self.open && e.ended == self.waiting, || {
            format!("endpoint {x}: its rows and its state tell of different groups")
        })
    }
}

fn no_fault<M: Mechanism>(seed: u64, calls: u64) -> bool {
    match check::<M>(seed, calls) {
        Ok(done) => println!("{done} calls: no fault"),
        Err(fault) => {
            println!("fault: {fault}");
            return false;
        }
    }
    true
}

/// The same in the mode of change request 6. Its slips are of what is counted: the ledger must find each.
pub fn report_high(calls: u64) -> bool {
    let seed = 1;
    let good = no_fault::<<High as Mode>::Machine>(seed, calls);
    std::panic::set_hook(Box::new(|_| {}));
    let counted = once::report_high(seed, calls);
    let _ = std::panic::take_hook();
    good && counted
}

/// The command: the true decoder must show no fault, each faulty one must be found.
pub fn report(calls: u64) -> bool {
    let seed = 1;
    let mut good = no_fault::<crate::decoder::machine::Machine>(seed, calls);
    // A faulty decoder may fail the Rust's own assert; that is found too, and its message is not wanted.
    std::panic::set_hook(Box::new(|_| {}));
    let lines = LAST_LINES
        .map(|(name, last)| (name, check_by(seed, calls.min(1000), false, |trace, room| check_last_line(last, trace, room))));
    for (name, found) in each(seed, calls).into_iter().chain(lines) {
        match found {
            Err(fault) => println!("mutant {name}: found: {fault}"),
            Ok(done) => {
                println!("mutant {name}: NOT found in {done} calls");
                good = false;
            }
        }
    }
    let counted = once::report(seed, calls);
    let _ = std::panic::take_hook();
    good && counted
}
