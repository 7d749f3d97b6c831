//! The calls of document 01 over the Rust decoder: fresh, packet, event, detail and finish, each with its answer.
//! The Rust knows no room: a call is run, its counts are looked at, and a call that is refused is undone. Nor does it know what change
//! requests 1 and 9 add to its rows: that stands here.

use std::cell::Ref;
use std::sync::Arc;

use crate::capture::{CaptureWriter, DeviceData, Endpoint, GroupIndexEntry, Met, Request};
use crate::crates::Error;
use crate::descriptors::{Descriptors, PART};
use crate::event::{EventType, LineState};
use crate::storage::{Journal, Mark};
use crate::usb::{Direction, EndpointAddr, EndpointNum, EndpointType, reason_of};

/// An endpoint of the decoder, as far as document 01 speaks of it.
#[derive(PartialEq, Debug)]
pub struct EndpointView {
    pub device: u64,
    pub early: Option<u64>,
    /// The group's number and the PID that it began with.
    pub active: Option<(u64, u8)>,
    pub ended: Option<u64>,
    pub payload: u64,
    pub pending: Option<(u64, u64)>,
    pub total: u64,
}

/// A current or suspended transaction.
#[derive(PartialEq, Debug)]
pub struct TransactionView {
    pub lacks_token: bool,
    pub id: u64,
    pub endpoint: Option<u64>,
    pub link: Option<u64>,
    pub payload: Option<u64>,
}

#[derive(PartialEq, Debug)]
pub struct View {
    pub endpoints: Vec<EndpointView>,
    pub current: Option<TransactionView>,
    pub suspended: Option<TransactionView>,
    pub last_item_endpoint: Option<u64>,
    pub keepalive_item: Option<u64>,
}

/// Where a decoder stands: what the status of the next packet goes by, and the event state.
#[derive(Copy, Clone, PartialEq, Eq, PartialOrd, Ord, Debug)]
pub struct Place {
    /// The transaction that the next packet finds, and whether it is resumed.
    pub transaction: Option<Style>,
    pub resumed: bool,
    /// The suspended transaction has no endpoint: the next packet drops it (answer 8) and has no status.
    pub dropped: bool,
    pub event: u8,
}

/// A transaction as `transaction_status` sees it. PIDs and types are numbers; a type of 4 is unknown.
#[derive(Copy, Clone, PartialEq, Eq, PartialOrd, Ord, Debug)]
pub struct Style {
    /// Start or complete, and the type, of a split.
    pub split: Option<(u8, u8)>,
    /// What it began with; of a split its token, 0 where it has none.
    pub first: u8,
    pub last: u8,
    pub kind: u8,
}

/// What the calls need of a decoder; each decoder made from the source has it (src/machine.rs).
pub trait Mechanism: Sized {
    /// Whether it is in the mode of change request 6.
    const HIGH: bool;
    type Saved;
    fn fresh(trail: bool, descriptors: Descriptors) -> Self;
    fn packet(&mut self, packet: &[u8], time: u64) -> Result<(), Error>;
    fn event(&mut self, event: EventType, code: u8, time: u64) -> Result<(), Error>;
    fn finish(&mut self) -> Result<(), Error>;
    /// The device that now stands for an address.
    fn device(&self, address: u8) -> Option<Arc<DeviceData>>;
    fn capture(&self) -> &CaptureWriter;
    fn journal(&self) -> Ref<'_, Journal>;
    fn save(&self) -> Self::Saved;
    fn restore(&mut self, saved: Self::Saved);
    /// Nothing once the decoder has finished.
    fn view(&self) -> Option<View>;
    fn place(&self) -> Place;
    fn total(&self, endpoint: u64) -> u64;
    /// A trial of answer 9: the totals of the endpoints from a number on.
    fn start_totals(&mut self, from: u64, total: u64);
}

/// Rows of each log, or room for them. Packet and state bytes are bytes.
#[derive(Copy, Clone, PartialEq, Debug)]
pub struct Rows(pub [u64; 12]);

pub const LOGS: [&str; 12] = [
    "bytes",
    "devices",
    "endpoints",
    "packets",
    "events",
    "transactions",
    "groups",
    "state-bytes",
    "states",
    "items",
    "links",
    "requests",
];

/// The words of a row of each log, as the default mode has them: with what change requests add to the Rust's.
pub const WIDTHS: [usize; 12] = [1, 1, 3, 2, 2, 2, 5, 1, 1, 1, 4, Descriptors::DEFAULT.request_words()];

// The logs by number.
pub const BYTES: usize = 0;
pub const DEVICES: usize = 1;
pub const ENDPOINTS: usize = 2;
pub const PACKETS: usize = 3;
pub const EVENTS: usize = 4;
pub const TRANSACTIONS: usize = 5;
pub const GROUPS: usize = 6;
pub const STATE_BYTES: usize = 7;
pub const STATES: usize = 8;
pub const ITEMS: usize = 9;
pub const LINKS: usize = 10;
pub const REQUESTS: usize = 11;

impl Rows {
    /// 01, "Sizes": the most that may be lent.
    pub const LARGEST: Rows = {
        let mut rows = [1 << 24; 12];
        rows[BYTES] = 1 << 30;
        rows[STATE_BYTES] = 1 << 30;
        Rows(rows)
    };

    /// The program's logs, 64 KiB together (docs/SIZES.md); the requests have 256 words of them.
    pub const PROGRAM: Rows = Rows([8192, 64, 128, 512, 128, 384, 192, 6144, 192, 192, 576, 256 / WIDTHS[REQUESTS] as u64]);

    /// The most that one call can add: an item can close every endpoint, and a call has at most three items and five group rows.
    const STEP: Rows = Rows([4096, 2, 4, 2, 2, 4, 8, 8 * 128, 8, 8, 3 * 128 + 16, 2]);

    fn within(&self, room: &Rows) -> bool {
        self.0.iter().zip(room.0).all(|(n, r)| *n <= r)
    }

    fn plus(&self, more: &Rows) -> Rows {
        Rows(std::array::from_fn(|i| self.0[i] + more.0[i]))
    }

    /// Room past 64 devices and 128 endpoints is not used.
    pub fn used(&self) -> Rows {
        let mut rows = *self;
        rows.0[DEVICES] = rows.0[DEVICES].min(64);
        rows.0[ENDPOINTS] = rows.0[ENDPOINTS].min(128);
        rows
    }
}

/// The rows of each log.
pub fn count(capture: &CaptureWriter) -> Rows {
    Rows([
        capture.packet_data.len(),
        capture.devices.len(),
        capture.endpoints.len(),
        capture.packet_index.stream.len(),
        capture.event_index.stream.len(),
        capture.transaction_index.stream.len(),
        capture.group_index.len(),
        capture.endpoint_states.len(),
        capture.endpoint_state_index.stream.len(),
        capture.item_index.stream.len(),
        capture.counters.journal.borrow().links as u64,
        capture.shared.requests.rows.borrow().len() as u64,
    ])
}

/// The words of one log as the Rust has them: a transaction row is its packet, a group row its endpoint, its number there and whether it starts.
pub fn rust_words(c: &CaptureWriter, log: usize) -> Vec<u64> {
    rust_words_from(c, log, 0)
}

/// Those of its rows from one on, where no trail is kept.
fn rust_words_from(c: &CaptureWriter, log: usize, from: usize) -> Vec<u64> {
    let link = |mark: &Mark| match *mark {
        Mark::T(x, transaction) => Some([0, x, transaction, 0]),
        Mark::G(x, transaction) => Some([1, x, transaction, 0]),
        Mark::D(x, transaction, total) => Some([2, x, transaction, total]),
        Mark::E(x, item) => Some([3, x, item, 0]),
        Mark::Packet | Mark::Group(..) | Mark::Item(_) => None,
    };
    let zip = |a: &[u64], b: &[u64]| a.iter().zip(b).flat_map(|(a, b)| [*a, *b]).collect();
    match log {
        BYTES => c.packet_data.rows[from..].iter().map(|b| *b as u64).collect(),
        DEVICES => c.devices.rows[from..].iter().map(|d| d.address.0 as u64).collect(),
        ENDPOINTS => {
            let row = |e: &Endpoint| [e.device_id().value, e.number().0 as u64, e.direction() as u64];
            c.endpoints.rows[from..].iter().flat_map(row).collect()
        }
        PACKETS => zip(&c.packet_index.stream.rows[from..], &c.packet_times.stream.rows[from..]),
        EVENTS => {
            let codes: Vec<u64> = c.event_codes.rows[from..].iter().map(|code| *code as u64).collect();
            zip(&c.event_index.stream.rows[from..], &codes)
        }
        TRANSACTIONS => c.transaction_index.stream.rows[from..].to_vec(),
        GROUPS => {
            let row = |g: &GroupIndexEntry| [g.endpoint_id().value, g.group_id().value, g.is_start() as u64];
            c.group_index.rows[from..].iter().flat_map(row).collect()
        }
        STATE_BYTES => c.endpoint_states.rows[from..].iter().map(|s| *s as u64).collect(),
        STATES => c.endpoint_state_index.stream.rows[from..].to_vec(),
        ITEMS => c.item_index.stream.rows[from..].to_vec(),
        LINKS => c.counters.journal.borrow().marks[from..].iter().filter_map(link).flatten().collect(),
        _ => {
            let row = |r: &Request| [r.endpoint, u64::from_le_bytes(r.setup), r.length, r.note];
            let width = c.shared.requests.descriptors.request_words();
            c.shared.requests.rows.borrow()[from..].iter().flat_map(|r| row(r).into_iter().take(width)).collect()
        }
    }
}

/// The only error that the Rust gives (docs/src/src/decoder.rs, `endpoint_id`): answer 8.
const NO_ENDPOINT: &str = "Transaction state has no endpoint ID";

/// No answer of document 01: the Rust's own `decode_request` erred, in the mode `Own`.
pub const ERRED: u8 = 255;

/// A decoder with the answers of document 01, over room for each log.
pub struct Calls<M: Mechanism> {
    pub machine: M,
    room: Rows,
    /// The logs that are lent now are too long, or shorter than their rows.
    unfit: bool,
    /// The answer to making it, and whether it has finished.
    pub fresh: u8,
    finished: bool,
    /// A trial of answer 9: the total that each ordinary endpoint starts with.
    total: u64,
    /// With totals every call is run on a copy.
    careful: bool,
    /// The packet rows by our own count, the time of the last one, what change request 9 adds to each group row, and how many there were before
    /// finish.
    packets: u64,
    time: u64,
    stamps: Vec<Stamp>,
    unfinished: usize,
}

/// The packet number and the time of the call that wrote a group row (change request 9).
#[derive(Copy, Clone, PartialEq, Default, Debug)]
pub struct Stamp {
    pub packet: u64,
    pub time: u64,
}

impl<M: Mechanism> Calls<M> {
    pub fn new(room: Rows, total: u64, trail: bool) -> Self {
        Calls::reading(Descriptors::DEFAULT, room, total, trail)
    }

    /// The same with a mode of reading descriptors.
    pub fn reading(descriptors: Descriptors, room: Rows, total: u64, trail: bool) -> Self {
        let machine = M::fresh(trail, descriptors);
        let fresh = if !room.within(&Rows::LARGEST) {
            1
        } else if !count(machine.capture()).within(&room.used()) {
            7
        } else {
            0
        };
        let (room, careful) = (room.used(), total > 0);
        Calls {
            machine,
            room,
            unfit: false,
            fresh,
            finished: false,
            total,
            careful,
            packets: 0,
            time: 0,
            stamps: Vec::new(),
            unfinished: 0,
        }
    }

    pub fn finished(&self) -> bool {
        self.finished
    }

    pub fn rows(&self) -> Rows {
        count(self.machine.capture())
    }

    /// The words of each log, in the order of `LOGS`.
    pub fn words(&self) -> [Vec<u64>; 12] {
        std::array::from_fn(|log| self.log_words(log))
    }

    /// The words of one log: the Rust's, and what change requests add to its rows.
    pub fn log_words(&self, log: usize) -> Vec<u64> {
        self.log_words_from(log, 0)
    }

    /// Those of its rows from one on, where no trail is kept.
    pub fn log_words_from(&self, log: usize, from: usize) -> Vec<u64> {
        let rust = rust_words_from(self.machine.capture(), log, from);
        match log {
            TRANSACTIONS => rust.into_iter().flat_map(|packet| [packet, self.reason(packet)]).collect(),
            GROUPS => rust.chunks(3).zip(&self.stamps[from..]).flat_map(|(row, s)| [row, &[s.packet, s.time]].concat()).collect(),
            _ => rust,
        }
    }

    /// What change request 9 adds to each group row.
    pub fn stamps(&self) -> &[Stamp] {
        &self.stamps
    }

    /// How many group rows there were before finish.
    pub fn unfinished(&self) -> usize {
        self.unfinished
    }

    /// The reason of the packet of a row, 0 for an event's: what a transaction row that names it carries (change request 1).
    pub fn reason(&self, packet: u64) -> u64 {
        let c = self.machine.capture();
        if c.event_index.stream.rows.binary_search(&packet).is_ok() {
            return 0;
        }
        let (starts, at) = (&c.packet_index.stream.rows, packet as usize);
        let end = starts.get(at + 1).map_or(c.packet_data.rows.len(), |start| *start as usize);
        reason_of(&c.packet_data.rows[starts[at] as usize..end]) as u64
    }

    /// What the calls write to a lent shelf, of which each device has a part; other bytes stay.
    pub fn write_shelf(&self, shelf: &mut [u8]) {
        let devices = self.machine.capture().shared.device_data.load();
        for (part, device) in shelf.chunks_mut(PART).zip(devices.values()) {
            device.write_shelf(part);
        }
    }

    /// How detail records and descriptors met, over all devices.
    pub fn met(&self) -> Met {
        let devices = self.machine.capture().shared.device_data.load();
        devices.values().map(|device| device.met.get()).fold(Met::default(), |sum, met| Met {
            obeyed: sum.obeyed + met.obeyed,
            unheard: sum.unheard + met.unheard,
            overridden: sum.overridden + met.overridden,
        })
    }

    /// The logs have other room from here on.
    pub fn lend(&mut self, room: Rows) {
        self.unfit = !room.within(&Rows::LARGEST) || !self.rows().within(&room.used());
        self.room = room.used();
    }

    /// A trial of answer 9: the totals of the endpoints from a number on. From then on every call is run on a copy.
    pub fn start_totals(&mut self, from: u64, total: u64) {
        self.machine.start_totals(from, total);
        self.careful = true;
    }

    /// The rows that a call would leave, were there room; the decoder is as it was.
    pub fn wanted(&mut self, call: impl FnOnce(&mut M) -> Result<(), Error>) -> Rows {
        let saved = self.machine.save();
        let _ = call(&mut self.machine);
        let rows = self.rows();
        self.machine.restore(saved);
        rows
    }

    /// Answers 1 and 2, which every call tests first.
    fn refused(&self) -> Option<u8> {
        match (self.fresh, self.finished) {
            _ if self.unfit => Some(1),
            (0, false) => None,
            (0, true) => Some(2),
            _ => Some(1),
        }
    }

    /// Whether every call is answered 1 on the logs that are lent now.
    pub fn is_ill(&self) -> bool {
        self.refused() == Some(1)
    }

    pub fn packet(&mut self, packet: &[u8], time: u64) -> u8 {
        if let Some(answer) = self.refused() {
            return answer;
        }
        if packet.len() > 4096 {
            return 3;
        }
        self.run(Some(time), |m| m.packet(packet, time))
    }

    pub fn event(&mut self, kind: u8, code: u8, time: u64) -> u8 {
        if let Some(answer) = self.refused() {
            return answer;
        }
        let Some(event) = event_type(kind) else { return 4 };
        self.run(Some(time), |m| m.event(event, code, time))
    }

    /// A detail record of a trace: changes nothing where a descriptor has given the endpoint's details (change request 13), and answers 0 then too.
    pub fn detail(&mut self, address: u8, number: u8, direction: u8, kind: u8, max: u16) -> u8 {
        if let Some(answer) = self.refused() {
            return answer;
        }
        if number > 15 || kind > 3 || direction > 1 || (number == 0 && kind != 0) {
            return 5;
        }
        let Some(device) = self.machine.device(address) else { return 6 };
        let address = EndpointAddr::from_parts(EndpointNum(number), Direction::from(direction));
        device.set_detail(address, EndpointType::from(kind), max);
        0
    }

    pub fn finish(&mut self) -> u8 {
        if let Some(answer) = self.refused() {
            return answer;
        }
        let answer = self.run(None, |m| m.finish());
        self.finished = answer == 0;
        answer
    }

    /// A call that passed its own tests, with its time: 7, 9, 8 or 0.
    fn run(&mut self, time: Option<u64>, call: impl FnOnce(&mut M) -> Result<(), Error>) -> u8 {
        let roomy = !self.careful && self.rows().plus(&Rows::STEP).within(&self.room);
        let saved = if roomy { None } else { Some(self.machine.save()) };
        let before = (self.rows().0[ENDPOINTS], self.machine.journal().marks.len());
        let result = call(&mut self.machine);
        let answer = match result {
            _ if !self.rows().within(&self.room) => 7,
            Ok(()) if self.overflowed(before.1) => 9,
            Ok(()) => 0,
            Err(Error(message)) if message == NO_ENDPOINT => 8,
            Err(_) if self.machine.capture().shared.requests.descriptors == Descriptors::Own => ERRED,
            Err(Error(message)) => panic!("an error that document 01 does not know: {message}"),
        };
        match saved {
            Some(saved) if answer == 7 || answer == 9 => self.machine.restore(saved),
            None if answer == 7 || answer == 9 => panic!("a call added more rows than it can"),
            _ => {
                if self.total > 0 && self.machine.view().is_some() {
                    self.machine.start_totals(before.0.max(3), self.total);
                }
                self.stamp(time);
            }
        }
        answer
    }

    /// The group rows that a call left get the number of the packet row that it appended, which is that of the packet rows before it, and its
    /// time. Finish appends none: its rows get those of the last packet row, 0 and 0 where there is none.
    fn stamp(&mut self, time: Option<u64>) {
        let stamp = match time {
            Some(time) => Stamp { packet: self.packets, time },
            None if self.packets == 0 => Stamp::default(),
            None => Stamp { packet: self.packets - 1, time: self.time },
        };
        self.stamps.resize(self.rows().0[GROUPS] as usize, stamp);
        if let Some(time) = time {
            self.packets += 1;
            self.time = time;
            self.unfinished = self.stamps.len();
        }
    }

    /// Whether a D row since a place of the journal made its endpoint's total wrap.
    fn overflowed(&self, from: usize) -> bool {
        let journal = self.machine.journal();
        journal.marks[from..].iter().any(|m| matches!(m, Mark::D(x, _, before) if self.machine.total(*x) < *before))
    }
}

/// 01, "Rules of a group": the kinds of event; any other event stands for kind 7.
pub fn event_type(kind: u8) -> Option<EventType> {
    use EventType::*;
    Some(match kind {
        0 => LsKeepalive,
        1 => BusReset,
        2 => LineStateChange(LineState::SE0),
        3 => LineStateChange(LineState::ChirpJ),
        4 => LineStateChange(LineState::ChirpK),
        5 => DeviceChirpValid,
        6 => HostChirpValid,
        7 => Suspend,
        _ => return None,
    })
}
