//! No byte counted twice (change request 8), over random calls on the traced decoder, refused ones among them: after each call the Rust's own
//! account, its D rows and totals, and its packet log are held to the ledger. The same on decoders with a slip in what they count, which must be
//! found.

use std::panic::{AssertUnwindSafe, catch_unwind};

use crate::calls::{Calls, PACKETS, Rows};
use crate::cameras;
use crate::capture::CaptureWriter;
use crate::generate::steered::every_pair;
use crate::generate::{Random, generate, kinds};
use crate::ledger::{Call, Fate, Ledger, Note, Told, WHYS, Why, World, account};
use crate::mode::{High, Mode, Plain, status_behind};
use crate::selfcheck::{hold, small};
use crate::storage::Mark;
use crate::trace::{Clock, Reader, Record};
use crate::traces::{SEQUENCES, written};
use crate::usb::{PID, reason_of};

/// Decoders with a slip in what they count (changes/slips.txt), traced.
pub mod slips {
    crate::traced_module!(payload_seen, "/traced_payload_seen.rs");
    crate::traced_module!(wait_kept, "/traced_wait_kept.rs");

    // In the mode of change request 6 (changes/high_slips.txt).
    crate::traced_module!(in_mdata_done, "/traced_in_mdata_done.rs", true);
    crate::traced_module!(out_mdata_lost, "/traced_out_mdata_lost.rs", true);
    crate::traced_module!(unknown_done2, "/traced_unknown_done2.rs", true);
    crate::traced_module!(split_mdata_lost, "/traced_split_mdata_lost.rs", true);
}

/// What was met.
#[derive(Default)]
pub struct Met {
    pub calls: u64,
    /// By answer.
    pub answers: [u64; 10],
    /// Payloads that were counted, their bytes, those of them that had waited, and those that a Retry counted.
    pub counted: u64,
    pub bytes: u64,
    pub waited: u64,
    pub retried: u64,
    /// Payloads that passed, in the order of `WHYS`.
    pub passed: [u64; WHYS.len()],
    /// Payloads that were open at the end of a run: held, and waiting.
    pub open: [u64; 2],
    /// Payloads of DATA2 and MDATA: those that were counted, in the order of `HIGH_COUNTED`, and those that passed, in that of `WHYS`.
    pub high_counted: [u64; HIGH_COUNTED.len()],
    pub high_passed: [u64; WHYS.len()],
}

/// What counts in the mode of change request 6 and not without it.
pub const HIGH_COUNTED: [&str; 5] =
    ["DATA2 behind IN", "DATA2 behind OUT", "MDATA behind OUT", "MDATA of an isochronous split", "MDATA of an interrupt split"];

/// The place of a counted packet in `HIGH_COUNTED`, by the transaction that it came to.
fn high_place(pid: u8, world: &World) -> Option<usize> {
    const DATA2: u8 = PID::DATA2 as u8;
    const MDATA: u8 = PID::MDATA as u8;
    let style = world.place.transaction?;
    match (pid, style.split, style.first == PID::IN as u8) {
        (DATA2, None, true) => Some(0),
        (DATA2, None, false) => Some(1),
        (MDATA, None, false) => Some(2),
        (MDATA, Some((_, 1)), _) => Some(3),
        (MDATA, Some((_, 3)), _) => Some(4),
        _ => None,
    }
}

/// Plays the sequences of traces/ and those in which each packet comes to each transaction, then so many calls at random: what was met, or the
/// first fault. Beside the decoder that is right there is the one without an account, and what it holds is looked at too; one with a slip must be
/// found by what it counts. What is right goes by the mode.
pub fn check<D: Mode, M: Told>(seed: u64, calls: u64, right: bool) -> Result<Met, String> {
    let mut met = Met::default();
    for (name, text) in SEQUENCES {
        tried::<D, M>(&written(text), Rows::LARGEST, right, &mut met, name)?;
    }
    for (name, trace) in cameras::all().iter().filter(|_| D::HIGH) {
        tried::<D, M>(trace, Rows::LARGEST, right, &mut met, name)?;
    }
    for (i, trace) in every_pair().iter().enumerate() {
        tried::<D, M>(trace, Rows::LARGEST, right, &mut met, &format!("pair {i}"))?;
    }
    let kinds: Vec<&str> = kinds(D::HIGH).iter().map(|(kind, _)| *kind).collect();
    let (mut random, before) = (Random::new(seed), met.calls);
    while met.calls < before + calls {
        let (kind, seed, records) = (random.pick(&kinds), random.next(), random.below(400) + 1);
        let room = if random.chance(30) { small(&mut random) } else { Rows::LARGEST };
        let trace = generate(seed, records, kind).expect("a kind of the list");
        tried::<D, M>(&trace, room, right, &mut met, &format!("{kind} {seed} of {records} records"))?;
    }
    Ok(met)
}

fn tried<D: Mode, M: Told>(trace: &[u8], room: Rows, right: bool, met: &mut Met, name: &str) -> Result<(), String> {
    let done = met.calls;
    let run = catch_unwind(AssertUnwindSafe(|| check_trace::<D, M>(trace, room, right, met)));
    run.unwrap_or_else(|_| Err("a panic".to_string())).map_err(|fault| format!("{fault} (trace {name}, after {done} calls)"))
}

fn check_trace<D: Mode, M: Told>(trace: &[u8], room: Rows, right: bool, met: &mut Met) -> Result<(), String> {
    let mut run = Run::<D, M>::new(room, right);
    if run.calls.fresh != 0 {
        return Ok(());
    }
    run.claim()?;
    let mut reader = Reader::new(trace);
    let mut number = 0;
    while let Some(record) = reader.next() {
        let record = record.map_err(|r| format!("a trace of ours is refused with {}", r.answer))?;
        run.step(&Call::Record(record), met).map_err(|fault| format!("{fault}, by record {number}"))?;
        number += 1;
    }
    if run.step(&Call::Finish, met)? == 0 {
        run.behind_finish(met)?;
    }
    run.ended(met)
}

/// A run of calls, and what was seen of it.
struct Run<D: Mode, M: Told> {
    calls: Calls<M>,
    /// The decoder without an account, beside one that is right.
    plain: Option<Calls<D::Machine>>,
    /// The time of each.
    clocks: [Clock; 2],
    ledger: Ledger,
    /// After the call before: the fates, and the Rust's account.
    fates: Vec<Fate>,
    account: Vec<Note>,
    /// Of each packet row the length of its payload, where it is a data packet: read from the logs.
    data: Vec<Option<u64>>,
}

impl<D: Mode, M: Told> Run<D, M> {
    fn new(room: Rows, right: bool) -> Self {
        Run {
            calls: Calls::new(room, 0, false),
            plain: right.then(|| Calls::new(room, 0, false)),
            clocks: [Clock::default(); 2],
            ledger: Ledger::of(D::HIGH),
            fates: Vec::new(),
            account: Vec::new(),
            data: Vec::new(),
        }
    }

    /// One call by both decoders, and everything that is claimed after it.
    fn step(&mut self, call: &Call, met: &mut Met) -> Result<u8, String> {
        let world = self.calls.machine.world(call.packet());
        let answer = call.make(&mut self.calls, &mut self.clocks[0]);
        met.calls += 1;
        met.answers[answer as usize] += 1;
        if let Some(plain) = &mut self.plain {
            let plain = call.make(plain, &mut self.clocks[1]);
            hold(plain == answer, || format!("answer {answer}, and without an account {plain}"))?;
        }
        hold(answer != 9, || "a call answers 9".to_string())?;
        if let Some(world) = &world {
            self.ledger.follow(world, call, answer);
        }
        self.earned(call, world.as_ref(), answer, met)?;
        self.stays()?;
        self.claim().map_err(|fault| format!("{fault}, answer {answer}"))?;
        Ok(answer)
    }

    /// A payload is counted only by a packet that is answered 0 and whose status is Done or Retry.
    fn earned(&self, call: &Call, world: Option<&World>, answer: u8, met: &mut Met) -> Result<(), String> {
        let notes = account(&self.calls.machine);
        let Some(new) = notes.get(self.account.len()..).filter(|new| !new.is_empty()) else { return Ok(()) };
        let (Some(packet), Some(world)) = (call.packet(), world) else {
            return Err(format!("{new:?} is counted by a call that is no packet's"));
        };
        let status = status_behind(D::HIGH, world.place.transaction, packet).1;
        hold(answer == 0 && matches!(status, "Done" | "Retry"), || {
            format!("{new:?} is counted by a packet whose status is {status}, answer {answer}")
        })?;
        met.retried += if status == "Retry" { new.len() as u64 } else { 0 };
        let waited = |note: &&Note| world.entries.iter().any(|e| e.waiting == Some((note[1], note[2])));
        met.waited += new.iter().filter(waited).count() as u64;
        // DATA2 and MDATA never wait: the packet that counts is their own.
        let own = new.iter().any(|note| note[1] == world.packets);
        if let Some(place) = packet.first().filter(|_| own).and_then(|pid| high_place(*pid, world)) {
            met.high_counted[place] += 1;
        }
        Ok(())
    }

    /// What was written of a payload stays, in the ledger and in the Rust's account.
    fn stays(&mut self) -> Result<(), String> {
        let notes = account(&self.calls.machine);
        hold(self.ledger.fates.starts_with(&self.fates), || "a fate changed".to_string())?;
        hold(notes.starts_with(&self.account), || "a payload that was counted is no longer".to_string())?;
        self.fates.extend_from_slice(&self.ledger.fates[self.fates.len()..]);
        self.account = notes;
        Ok(())
    }

    /// The lines of the claim.
    fn claim(&mut self) -> Result<(), String> {
        for row in self.data.len()..self.calls.rows().0[PACKETS] as usize {
            self.data.push(logged_length(D::HIGH, packet_bytes(self.calls.machine.capture(), row)));
        }
        self.twice()?;
        let totals = self.rows()?;
        self.places()?;
        self.sums(totals)?;
        if self.plain.is_some() { self.ties() } else { Ok(()) }
    }

    /// No packet is counted twice: by the Rust's account alone.
    fn twice(&self) -> Result<(), String> {
        let mut counted = vec![false; self.data.len()];
        for [x, packet, length, _] in &self.account {
            let place = counted.get_mut(*packet as usize).ok_or(format!("packet {packet} is counted and not logged"))?;
            hold(!*place, || format!("packet {packet}, of {length} bytes, is counted a second time, at endpoint {x}"))?;
            *place = true;
        }
        Ok(())
    }

    /// The Rust's account is what the ledger has as Counted, and its D rows are the running sums of these lengths, from zero at each endpoint; its totals
    /// are the full sums. Gives all totals together.
    fn rows(&self) -> Result<u64, String> {
        let mut sums = vec![0; self.calls.machine.capture().endpoints.rows.len()];
        let (mut notes, mut rows) = (Vec::new(), Vec::new());
        for (x, (packet, length)) in self.ledger.counted() {
            let sum = &mut sums[x as usize];
            notes.push([x, packet, length, *sum]);
            rows.push((x, *sum));
            *sum += length;
        }
        hold(notes == self.account, || {
            let first = (0..).find(|i| notes.get(*i) != self.account.get(*i)).expect("a difference");
            format!("payload {first} of the account is {:?}, by the ledger {:?}", self.account.get(first), notes.get(first))
        })?;
        let journal = self.calls.machine.journal();
        let written =
            journal.marks.iter().filter_map(|mark| if let Mark::D(x, _, total) = *mark { Some((x, total)) } else { None });
        hold(written.eq(rows), || "the D rows are not the running sums of what was counted".to_string())?;
        // A finished decoder has no totals to look at; it counted nothing since.
        if let Some(view) = self.calls.machine.view() {
            hold(view.endpoints.iter().map(|e| e.total).eq(sums.iter().copied()), || "a total is not the full sum".to_string())?;
        }
        Ok(sums.iter().sum())
    }

    /// Each data packet of the packet log stands in one place of the ledger, with the length of its payload, and no other packet in any.
    fn places(&self) -> Result<(), String> {
        let mut places = vec![None; self.data.len()];
        for (packet, length) in self.ledger.counted().map(|(_, data)| data).chain(self.ledger.uncounted()) {
            let place = places.get_mut(packet as usize).ok_or(format!("packet {packet} is not logged"))?;
            hold(place.is_none(), || format!("packet {packet} stands in two places of the ledger"))?;
            *place = Some(length);
        }
        hold(places == self.data, || {
            let row = (0..places.len()).find(|i| places[*i] != self.data[*i]).expect("a difference");
            format!("packet {row} is in the ledger with {:?} bytes, in the log with {:?}", places[row], self.data[row])
        })
    }

    /// The totals and the payload bytes not counted so far are the payload bytes of all data packets in the packet log.
    fn sums(&self, totals: u64) -> Result<(), String> {
        let uncounted: u64 = self.ledger.uncounted().map(|(_, length)| length).sum();
        let logged: u64 = self.data.iter().flatten().sum();
        hold(totals + uncounted == logged, || format!("{totals} bytes counted, {uncounted} not, and {logged} in the packet log"))
    }

    /// What is held and what waits by the ledger is what the decoder holds, packet and length.
    fn ties(&self) -> Result<(), String> {
        let Some(world) = self.calls.machine.world(None) else { return Ok(()) };
        let (held, by_ledger) = (world.held, self.ledger.held);
        hold(held == by_ledger, || format!("the transaction holds {held:?}, by the ledger {by_ledger:?}"))?;
        let waiting = world.entries.iter().enumerate().filter_map(|(x, e)| e.waiting.map(|data| (x as u64, data)));
        let by_ledger = self.ledger.waiting.iter().map(|(x, data)| (*x, *data));
        hold(waiting.eq(by_ledger), || "another payload waits than by the ledger".to_string())
    }

    /// Calls behind finish are refused, and change nothing.
    fn behind_finish(&mut self, met: &mut Met) -> Result<(), String> {
        let records = [
            Record::Packet { ticks: 0, bytes: &[0x4B, 0x00, 0x00] },
            Record::Event { ticks: 0, kind: 1, code: 0 },
            Record::Detail { address: 0, number: 1, direction: 0, kind: 2, max: 8 },
        ];
        for call in records.map(Call::Record).into_iter().chain([Call::Finish]) {
            let answer = self.step(&call, met)?;
            hold(answer == 2, || format!("a call behind finish is answered {answer}"))?;
        }
        Ok(())
    }

    /// The end of a run: what was met; and that the account changed no row.
    fn ended(self, met: &mut Met) -> Result<(), String> {
        for fate in &self.ledger.fates {
            match *fate {
                Fate::Counted(_, _, length) => {
                    met.counted += 1;
                    met.bytes += length;
                }
                Fate::Passed(why, _, packet, _) => {
                    met.passed[why as usize] += 1;
                    let pid = packet_bytes(self.calls.machine.capture(), packet as usize)[0];
                    met.high_passed[why as usize] += (pid == PID::DATA2 as u8 || pid == PID::MDATA as u8) as u64;
                }
            }
        }
        met.open[0] += self.ledger.held.is_some() as u64;
        met.open[1] += self.ledger.waiting.len() as u64;
        let same = self.plain.is_none_or(|plain| plain.words() == self.calls.words());
        hold(same, || "the account changes a row".to_string())
    }
}

/// The bytes of a packet row, by the logs: up to the start of the next row, those of the last one up to the end.
fn packet_bytes(capture: &CaptureWriter, row: usize) -> &[u8] {
    let starts = &capture.packet_index.stream.rows;
    let end = starts.get(row + 1).map_or(capture.packet_data.rows.len(), |start| *start as usize);
    &capture.packet_data.rows[starts[row] as usize..end]
}

/// The length of the payload of a packet in the log, where it is a data packet. Told in another way than the ledger tells it of a call's packet.
fn logged_length(high: bool, bytes: &[u8]) -> Option<u64> {
    // DATA0 and DATA1; DATA2 and MDATA.
    let pids: &[u8] = if high { &[0xC3, 0x4B, 0x87, 0x0F] } else { &[0xC3, 0x4B] };
    match bytes {
        [pid, payload @ .., _, _] if pids.contains(pid) && reason_of(bytes) == 0 => Some(payload.len() as u64),
        _ => None,
    }
}

/// The second half of `oracle selfcheck`: no fault in the right decoder, with each fate met; each slip found.
pub fn report(seed: u64, calls: u64) -> bool {
    let slips: [(&str, Checked); 2] = [
        ("payload_seen", check::<Plain, slips::payload_seen::machine::Machine>),
        ("wait_kept", check::<Plain, slips::wait_kept::machine::Machine>),
    ];
    report_by::<Plain>(seed, calls, &slips)
}

/// That of `oracle selfcheck --high`. A decoder that is right without the mode is wrong in it, too.
pub fn report_high(seed: u64, calls: u64) -> bool {
    let slips: [(&str, Checked); 5] = [
        ("in_mdata_done", check::<High, slips::in_mdata_done::machine::Machine>),
        ("out_mdata_lost", check::<High, slips::out_mdata_lost::machine::Machine>),
        ("unknown_done2", check::<High, slips::unknown_done2::machine::Machine>),
        ("split_mdata_lost", check::<High, slips::split_mdata_lost::machine::Machine>),
        ("mode_dropped", check::<High, <Plain as Mode>::Traced>),
    ];
    report_by::<High>(seed, calls, &slips)
}

type Checked = fn(u64, u64, bool) -> Result<Met, String>;

fn report_by<D: Mode>(seed: u64, calls: u64, slips: &[(&str, Checked)]) -> bool {
    let mut good = match check::<D, D::Traced>(seed, calls, true) {
        Ok(met) => met.told() && (!D::HIGH || met.high_told()),
        Err(fault) => {
            println!("fault: {fault}");
            false
        }
    };
    for (name, found) in slips.iter().map(|(name, check)| (name, check(seed, calls, false))) {
        match found {
            Err(fault) => println!("slip {name}: found: {fault}"),
            Ok(met) => {
                println!("slip {name}: NOT found in {} calls", met.calls);
                good = false;
            }
        }
    }
    good
}

impl Met {
    /// Says what was met, and whether each fate was.
    fn told(&self) -> bool {
        println!("{} calls: no byte counted twice", self.calls);
        let answers = self.answers.iter().enumerate().filter(|(_, n)| **n > 0).map(|(answer, n)| format!(" {answer} {n}"));
        println!("answers:{}", answers.collect::<String>());
        let (counted, bytes, waited, retried) = (self.counted, self.bytes, self.waited, self.retried);
        println!("payloads: Counted {counted} ({bytes} bytes; {waited} had waited; {retried} by a Retry)");
        let passed = WHYS.iter().zip(self.passed).map(|(why, n)| format!(" {why:?} {n}"));
        println!("passed:{}", passed.collect::<String>());
        println!("open at the end: held {}, waiting {}", self.open[0], self.open[1]);
        let met = counted > 0 && waited > 0 && retried > 0 && self.passed.iter().all(|n| *n > 0);
        if !met {
            println!("fault: a fate was not met");
        }
        met
    }

    /// The same of DATA2 and MDATA. What is not counted of them is stray, dropped, or unused: a transaction takes none without ending.
    fn high_told(&self) -> bool {
        let counted = HIGH_COUNTED.iter().zip(self.high_counted).map(|(name, n)| format!("{name} {n}"));
        println!("counted in the mode alone: {}", counted.collect::<Vec<_>>().join(", "));
        let passed = WHYS.iter().zip(self.high_passed).map(|(why, n)| format!(" {why:?} {n}"));
        println!("DATA2 and MDATA that passed:{}", passed.collect::<String>());
        let met = |why: &Why| matches!(why, Why::Stray | Why::Dropped | Why::Unused);
        let as_said = WHYS.iter().zip(self.high_passed).all(|(why, n)| met(why) == (n > 0));
        let met = self.high_counted.iter().all(|n| *n > 0) && as_said;
        if !met {
            println!("fault: a cell of the mode was not met, or another than there can be");
        }
        met
    }
}
