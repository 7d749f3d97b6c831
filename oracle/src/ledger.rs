//! What becomes of every payload (change request 8): the Rust's own account of the payloads that it counts, and a ledger by rule that tells it
//! of all data packets, counted or not. The ledger's sentences are written from the design and not from decoder.rs; the status of a packet and the
//! effect of a transaction's end are asked of the Rust's `transaction_status` and `group_status`, of the decoder without a fault.

use std::collections::BTreeMap;
use std::ops::Deref;

use crate::calls::{Calls, Mechanism, Place, Rows, Style};
use crate::decoder::machine::{State, group_status_words};
use crate::mode::{status_behind, yields};
use crate::trace::{Clock, Record, Refused, call, run};
use crate::usb::{PID, validate_packet};

// ---- the Rust's own account

/// A payload with the number of its packet, as a traced decoder carries it (changes/traced.txt).
#[derive(Clone)]
pub struct Payload {
    pub packet: u64,
    pub bytes: Vec<u8>,
}

impl Deref for Payload {
    type Target = Vec<u8>;

    fn deref(&self) -> &Vec<u8> {
        &self.bytes
    }
}

/// For `group_status` on a state by itself, which has no packets.
impl From<Vec<u8>> for Payload {
    fn from(bytes: Vec<u8>) -> Payload {
        Payload { packet: 0, bytes }
    }
}

/// A payload that was counted, as the Rust noted it: endpoint row, packet row, length, the endpoint's total before.
pub type Note = [u64; 4];

/// The account, in the order in which the payloads were counted.
pub fn account<M: Told>(machine: &M) -> Vec<Note> {
    machine.journal().counted.clone()
}

/// The account of a trace, a line for each payload: `counted ENDPOINT PACKET LENGTH TOTAL`. A refused trace has its refusal, as in the listing.
pub fn text<M: Told>(trace: &[u8], room: Rows) -> String {
    match run::<M>(trace, room, 0) {
        Ok(calls) => {
            let line = |[x, packet, length, total]: Note| format!("counted {x} {packet} {length} {total}\n");
            account(&calls.machine).into_iter().map(line).collect()
        }
        Err(Refused { answer, at }) => format!("refused {answer} at {at}\n"),
    }
}

// ---- what the ledger is told

/// A payload: the row of its packet, and its length.
pub type Data = (u64, u64);

/// A decoder before a call, as far as the sentences speak of it.
pub struct World {
    /// The packet rows, so the number of the next one.
    pub packets: u64,
    pub place: Place,
    /// Of the current or suspended transaction: its endpoint, and the payload that it holds.
    pub endpoint: Option<u64>,
    pub held: Option<Data>,
    pub entries: Vec<Entry>,
    /// The endpoint row that the call's packet goes to by itself: none for a SPLIT, and none where the row is still to be added.
    pub goes_to: Option<u64>,
}

impl World {
    /// An endpoint row with its entry.
    fn on(&self, endpoint: Option<u64>) -> Option<(u64, Entry)> {
        endpoint.map(|x| (x, self.entries[x as usize].clone()))
    }
}

/// An endpoint: what `group_status` goes by, in the words of `State`, and the payload that waits.
#[derive(Clone)]
pub struct Entry {
    /// Words 0 to 7: the phase of its last group, that group's first and last PID, last_success, the setup data, the length of the payload.
    pub words: [u64; 8],
    /// Words 19 and 20: its type and max packet size.
    pub details: [u64; 2],
    pub waiting: Option<Data>,
}

/// The phases of an endpoint's last group, as word 0 has them.
pub const NONE: u64 = 0;
pub const EARLY: u64 = 1;
pub const ACTIVE: u64 = 2;
pub const ENDED: u64 = 3;

/// The type of an endpoint that is not known, as word 19 has it.
pub const UNKNOWN: u64 = 4;

/// A decoder that can be told of; those that are traced (src/told.rs).
pub trait Told: Mechanism {
    /// Nothing once the decoder has finished.
    fn world(&self, packet: Option<&[u8]>) -> Option<World>;
}

// ---- the ledger

/// Why a payload was not counted.
#[derive(Copy, Clone, PartialEq, Debug)]
pub enum Why {
    /// The 8 bytes of a SETUP's DATA0.
    Setup,
    /// A data packet that no transaction takes.
    Stray,
    /// A packet that fits nowhere overwrote the transaction which held it.
    Replaced,
    /// The transaction ended without success.
    Failed,
    /// It ended with success, and its group has no use for the payload.
    Unused,
    /// It waited, and what it waited for did not use it.
    Waited,
    /// The transaction that held it was dropped: by a second keepalive.
    Forgotten,
    /// The packet was answered 8.
    Dropped,
}

pub const WHYS: [Why; 8] =
    [Why::Setup, Why::Stray, Why::Replaced, Why::Failed, Why::Unused, Why::Waited, Why::Forgotten, Why::Dropped];

/// What became of a payload, with its endpoint row (0: none), its packet row and its length.
#[derive(Copy, Clone, PartialEq, Debug)]
pub enum Fate {
    Counted(u64, u64, u64),
    Passed(Why, u64, u64, u64),
}

#[derive(Clone, Default)]
pub struct Ledger {
    /// Whether the decoder is in the mode of change request 6: it says which packets are data packets, and their status.
    pub high: bool,
    /// The payload of the current or suspended transaction.
    pub held: Option<Data>,
    /// That of each endpoint which waits for a split to complete.
    pub waiting: BTreeMap<u64, Data>,
    /// The oldest first.
    pub fates: Vec<Fate>,
}

/// A call of a run: that of a record, or finish.
pub enum Call<'a> {
    Record(Record<'a>),
    Finish,
}

impl<'a> Call<'a> {
    pub fn make<M: Mechanism>(&self, calls: &mut Calls<M>, clock: &mut Clock) -> u8 {
        match self {
            Call::Record(record) => call(calls, clock, record),
            Call::Finish => calls.finish(),
        }
    }

    /// Its packet, where it is a packet's.
    pub fn packet(&self) -> Option<&'a [u8]> {
        if let Call::Record(Record::Packet { bytes, .. }) = *self { Some(bytes) } else { None }
    }
}

impl Ledger {
    /// An empty one, in the mode or not.
    pub fn of(high: bool) -> Ledger {
        Ledger { high, ..Ledger::default() }
    }

    /// The length of a data packet's payload: a valid packet whose PID yields one. None for any other packet.
    fn payload_length(&self, packet: &[u8]) -> Option<u64> {
        validate_packet(packet).is_ok_and(|pid| yields(self.high, pid)).then(|| packet.len() as u64 - 3)
    }

    /// A call with its answer, on the world before it: seven sentences, numbered as in the design.
    /// 1: a refused call leaves the ledger, and so does a detail.
    pub fn follow(&mut self, world: &World, call: &Call, answer: u8) {
        use Record::*;
        match (answer, call) {
            (8, Call::Record(Packet { bytes, .. })) => self.dropped(world, bytes),
            (0, Call::Record(Packet { bytes, .. })) => self.packet(world, bytes),
            (0, Call::Record(Event { kind: 0, .. })) => self.keepalive(world),
            (0, Call::Record(Event { .. }) | Call::Finish) => self.broken_off(world),
            _ => {}
        }
    }

    /// 2: the suspended transaction is dropped, and the packet is logged and nothing else.
    fn dropped(&mut self, world: &World, packet: &[u8]) {
        self.held_passes(Why::Forgotten, world.endpoint);
        self.own_passes(Why::Dropped, None, world, packet);
    }

    /// 3: where the status is Invalid, what the old transaction holds passes, and the packet itself too; the transaction that it starts ends without
    /// success, and holds nothing. 4: with any other status a transaction takes its data packet: setup data pass, another payload is held.
    /// 5: New ends the old transaction without success; Done, Retry and Fail end it as the rules say; Continue and Ambiguous do not.
    fn packet(&mut self, world: &World, packet: &[u8]) {
        let found = world.place.transaction;
        let (pid, status) = status_behind(self.high, found, packet);
        let Some(style) = found.filter(|_| status != "Invalid") else {
            // The other way here is a token that finds no transaction.
            if status == "Invalid" {
                self.held_passes(Why::Replaced, world.endpoint);
                self.own_passes(Why::Stray, None, world, packet);
                let style = Style { split: None, first: pid, last: pid, kind: UNKNOWN as u8 };
                self.ends(started(world, pid), &style, false, false);
            }
            return;
        };
        if takes_setup(&style) && pid == PID::DATA0 as u8 {
            self.own_passes(Why::Setup, world.endpoint, world, packet);
        } else if let Some(length) = self.payload_length(packet) {
            let before = self.held.replace((world.packets, length));
            assert!(before.is_none(), "a transaction gets a second payload");
        }
        match status {
            "New" => self.ends(world.on(world.endpoint), &style, false, false),
            "Done" | "Retry" | "Fail" => {
                let complete = style.split.is_none_or(|(sc, _)| sc == 1 && status != "Retry");
                let (on, style) = appended(world, style, pid);
                self.ends(on, &style, status != "Fail", complete);
            }
            _ => {}
        }
    }

    /// 7: a second keepalive forgets the suspended transaction; the first one suspends the current one, with what it holds.
    fn keepalive(&mut self, world: &World) {
        if world.place.resumed {
            self.held_passes(Why::Forgotten, world.endpoint);
        }
    }

    /// 7: any other event and finish end the current transaction. A suspended one stays.
    fn broken_off(&mut self, world: &World) {
        if let Some(style) = world.place.transaction.filter(|_| !world.place.resumed) {
            self.ends(world.on(world.endpoint), &style, false, false);
        }
    }

    /// 6: a transaction ends on an endpoint, which is as it then is. It uses the payload that it holds, or else the one that waits there; one that
    /// waits and is not used passes. What it uses is counted, or waits, or passes. Where there is no endpoint, what it holds is forgotten.
    fn ends(&mut self, on: Option<(u64, Entry)>, style: &Style, success: bool, complete: bool) {
        let Some((x, entry)) = on else { return self.held_passes(Why::Forgotten, None) };
        let (held, waiting) = (self.held.take(), self.waiting.remove(&x));
        let Some(used) = held.or(waiting) else { return };
        if let (Some(_), Some(waited)) = (held, waiting) {
            self.passes(Why::Waited, Some(x), waited);
        }
        match effect(&entry, style, held, waiting, success, complete) {
            Effect::IndexData => self.fates.push(Fate::Counted(x, used.0, used.1)),
            Effect::PendingData => {
                self.waiting.insert(x, used);
            }
            Effect::Other if held.is_none() => self.passes(Why::Waited, Some(x), used),
            Effect::Other if success => self.passes(Why::Unused, Some(x), used),
            Effect::Other => self.passes(Why::Failed, Some(x), used),
        }
    }

    fn passes(&mut self, why: Why, endpoint: Option<u64>, (packet, length): Data) {
        self.fates.push(Fate::Passed(why, endpoint.unwrap_or(0), packet, length));
    }

    fn held_passes(&mut self, why: Why, endpoint: Option<u64>) {
        if let Some(held) = self.held.take() {
            self.passes(why, endpoint, held);
        }
    }

    /// The call's own packet passes, where it is a data packet.
    fn own_passes(&mut self, why: Why, endpoint: Option<u64>, world: &World, packet: &[u8]) {
        if let Some(length) = self.payload_length(packet) {
            self.passes(why, endpoint, (world.packets, length));
        }
    }

    /// The payloads of which it is open what becomes of them.
    pub fn open(&self) -> impl Iterator<Item = Data> + '_ {
        self.held.into_iter().chain(self.waiting.values().copied())
    }

    /// The payloads not counted so far: those, and all that passed.
    pub fn uncounted(&self) -> impl Iterator<Item = Data> + '_ {
        let passed = self.fates.iter().filter_map(|fate| match *fate {
            Fate::Passed(_, _, packet, length) => Some((packet, length)),
            Fate::Counted(..) => None,
        });
        self.open().chain(passed)
    }

    /// The payloads counted, each with its endpoint.
    pub fn counted(&self) -> impl Iterator<Item = (u64, Data)> + '_ {
        self.fates.iter().filter_map(|fate| match *fate {
            Fate::Counted(x, packet, length) => Some((x, (packet, length))),
            Fate::Passed(..) => None,
        })
    }
}

/// A transaction whose DATA0 is setup data: a SETUP, plain or in a control start-split.
fn takes_setup(style: &Style) -> bool {
    style.first == PID::SETUP as u8 && matches!(style.split, None | Some((0, 0)))
}

enum Effect {
    IndexData,
    PendingData,
    Other,
}

/// The endpoint of a transaction that its last packet ends, and its style. A split whose token is that packet has both from it, and the endpoint
/// has the split's type where it had none.
fn appended(world: &World, style: Style, pid: u8) -> (Option<(u64, Entry)>, Style) {
    match style {
        Style { split: Some((_, kind)), first: 0, .. } => {
            let mut on = world.on(world.goes_to);
            if let Some((_, Entry { details: [known @ UNKNOWN, _], .. })) = &mut on {
                *known = kind as u64;
            }
            (on, Style { first: pid, ..style })
        }
        _ => (world.on(world.endpoint), style),
    }
}

/// The endpoint on which an Invalid packet starts a transaction, with the group that it starts early: a SETUP always, IN, OUT, SOF and Malformed
/// where no group is active.
fn started(world: &World, pid: u8) -> Option<(u64, Entry)> {
    let mut on = world.on(world.goes_to);
    if let Some((_, entry)) = &mut on {
        let early = [PID::IN, PID::OUT, PID::SOF, PID::Malformed].iter().any(|p| *p as u8 == pid) && entry.words[0] != ACTIVE;
        if early || pid == PID::SETUP as u8 {
            entry.words[0] = EARLY;
        }
    }
    on
}

/// What `group_status` does with a payload where a transaction ends.
fn effect(entry: &Entry, style: &Style, held: Option<Data>, waiting: Option<Data>, success: bool, complete: bool) -> Effect {
    let mut s: State = [0; 23];
    s[..8].copy_from_slice(&entry.words);
    if let Some((_, length)) = waiting {
        (s[8], s[9]) = (1, length);
    }
    (s[11], s[14]) = (1, style.first as u64);
    if let Some((sc, kind)) = style.split {
        (s[11], s[12], s[13]) = (2, sc as u64, kind as u64);
    }
    if let Some((_, length)) = held {
        (s[17], s[18]) = (1, length);
    }
    s[19..21].copy_from_slice(&entry.details);
    (s[21], s[22]) = (success as u64, complete as u64);
    match group_status_words(&s)[1] {
        3 => Effect::PendingData,
        4 => Effect::IndexData,
        _ => Effect::Other,
    }
}
