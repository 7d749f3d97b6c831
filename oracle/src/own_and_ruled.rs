//! The Rust's own `decode_request` beside the rules of change request 2: both decoders play a trace, call by call, and must agree in every
//! row, every detail and their state up to the first request that is a listed case (src/listed.rs). There the Rust is stopped: from then
//! on the two may differ, and on some of the cases it never ends.

use std::collections::BTreeMap;

use crate::calls::{LOGS, Mechanism, REQUESTS, event_type, rust_words};
use crate::damage::DAMAGES;
use crate::decoder::machine::Machine;
use crate::descriptors::Descriptors;
use crate::enumerations;
use crate::generate::{DESCRIBED, EXTRA, KINDS, Random, generate};
use crate::listed::{CASES, Case};
use crate::trace::{Clock, Reader, Record, header};

/// The calls of a trace, without those that a decoder would refuse, and without details: the Rust has no such call.
fn calls(trace: &[u8]) -> Vec<Record<'_>> {
    let mut records = Vec::new();
    if header(trace).is_err() {
        return records;
    }
    let mut reader = Reader::new(trace);
    while let Some(Ok(record)) = reader.next() {
        match record {
            Record::Packet { bytes, .. } if bytes.len() <= 4096 => records.push(record),
            Record::Event { kind, .. } if kind < 8 => records.push(record),
            _ => {}
        }
    }
    records
}

/// A call on a decoder itself, whose errors are told.
fn step(machine: &mut Machine, clock: &mut Clock, record: &Record) -> Result<(), String> {
    let done = match *record {
        Record::Packet { ticks, bytes } => machine.packet(bytes, clock.time(ticks)),
        Record::Event { ticks, kind, code } => machine.event(event_type(kind).expect("a kind of event"), code, clock.time(ticks)),
        Record::Detail { .. } => Ok(()),
    };
    done.map_err(|error| error.0)
}

fn requests(machine: &Machine) -> usize {
    machine.capture().shared.requests.rows.borrow().len()
}

/// The marks of a trace that is played by the rules alone, each with the number of its call.
fn marks(records: &[Record]) -> Vec<(usize, Case)> {
    let mut machine = Machine::fresh(false, Descriptors::Ruled);
    let mut clock = Clock::default();
    let mut found: Vec<(usize, Case)> = Vec::new();
    for (i, record) in records.iter().enumerate() {
        // Answer 8 is an error of the Rust, and the calls go on.
        step(&mut machine, &mut clock, record).ok();
        let marks = machine.capture().shared.requests.marks.borrow();
        found.extend(marks[found.len()..].iter().map(|(_, case)| (i, *case)));
    }
    found
}

/// How the details of the devices differ.
fn other_details(own: &Machine, ruled: &Machine) -> Option<String> {
    let (own, ruled) = (own.capture().shared.device_data.load(), ruled.capture().shared.device_data.load());
    let pairs = own.values().zip(ruled.values()).enumerate();
    pairs.map(|(i, (own, ruled))| (i, own.told(), ruled.told())).find(|(_, own, ruled)| own != ruled).map(|(i, own, ruled)| {
        let place = own.iter().zip(&ruled).position(|(a, b)| a != b).expect("a place that differs");
        let (own, ruled) = (own[place], ruled[place]);
        format!("device {i}, place {place}: type and max of the Rust {own:?}, by the rules {ruled:?}")
    })
}

/// How rows, details or states differ. The note of a request row is the rules' alone.
fn other_state(own: &Machine, ruled: &Machine) -> Option<String> {
    let words = |machine: &Machine, log: usize| {
        let words = rust_words(machine.capture(), log);
        let width = machine.capture().shared.requests.descriptors.request_words();
        if log < REQUESTS { words } else { words.chunks(width).flat_map(|row| row[..3].to_vec()).collect() }
    };
    if let Some(log) = (0..LOGS.len()).find(|log| words(own, *log) != words(ruled, *log)) {
        return Some(format!("the rows of {} differ", LOGS[log]));
    }
    if own.view() != ruled.view() {
        return Some("the states differ".to_string());
    }
    other_details(own, ruled)
}

/// Plays calls by both, and tells of the first difference, if there is one, and of the requests that were compared.
fn both(records: &[Record]) -> (Option<String>, u64) {
    let (mut own, mut ruled) = (Machine::fresh(false, Descriptors::Own), Machine::fresh(false, Descriptors::Ruled));
    let mut clocks = [Clock::default(); 2];
    for (i, record) in records.iter().enumerate() {
        let before = requests(&ruled);
        let answers = (step(&mut own, &mut clocks[0], record), step(&mut ruled, &mut clocks[1], record));
        if answers.0 != answers.1 {
            return (Some(format!("call {i}: the Rust {:?}, by the rules {:?}", answers.0, answers.1)), before as u64);
        }
        if requests(&ruled) != before
            && let Some(text) = other_details(&own, &ruled)
        {
            return (Some(format!("call {i}: {text}")), before as u64);
        }
    }
    (other_state(&own, &ruled), requests(&ruled) as u64)
}

/// What became of a trace.
pub struct Compared {
    /// The calls before the first mark and the requests among them, and how the two differ there.
    pub calls: u64,
    pub requests: u64,
    pub difference: Option<String>,
    /// The marks of the whole trace, and those of the request at which the Rust was stopped.
    pub met: Vec<Case>,
    pub first: Vec<Case>,
    /// Whether the Rust does differ where it is not stopped there, before the next request that is marked.
    pub parted: bool,
}

/// A trace up to its first listed case.
pub fn compare(trace: &[u8]) -> Compared {
    let records = calls(trace);
    let marks = marks(&records);
    let met = marks.iter().map(|(_, case)| *case).collect();
    let Some((stop, _)) = marks.first().copied() else {
        let (difference, requests) = both(&records);
        return Compared { calls: records.len() as u64, requests, difference, met, first: Vec::new(), parted: false };
    };
    let (difference, requests) = both(&records[..stop]);
    let first: Vec<Case> = marks.iter().filter(|(call, _)| *call == stop).map(|(_, case)| *case).collect();
    let next = marks.get(first.len()).map_or(records.len(), |(call, _)| *call);
    Compared { calls: stop as u64, requests, difference, met, first, parted: both(&records[..next]).0.is_some() }
}

/// How the two differ on a whole trace, listed cases and all.
pub fn differs(trace: &[u8]) -> Option<String> {
    both(&calls(trace)).0
}

/// What was compared.
#[derive(Default)]
pub struct Tally {
    pub traces: u64,
    pub stopped: u64,
    pub calls: u64,
    pub requests: u64,
    pub differences: Vec<String>,
    /// How often each case was met, in how many traces it was the first, and in how many of those the Rust does differ.
    pub met: BTreeMap<Case, u64>,
    pub first: BTreeMap<Case, u64>,
    pub parted: BTreeMap<Case, u64>,
}

impl Tally {
    fn add(&mut self, what: String, trace: &[u8]) {
        let compared = compare(trace);
        self.traces += 1;
        self.calls += compared.calls;
        self.requests += compared.requests;
        self.stopped += !compared.first.is_empty() as u64;
        self.differences.extend(compared.difference.map(|text| format!("{what}: {text}")));
        let parted = if compared.parted { compared.first.clone() } else { Vec::new() };
        for (count, cases) in [(&mut self.met, compared.met), (&mut self.first, compared.first), (&mut self.parted, parted)] {
            for case in cases {
                *count.entry(case).or_default() += 1;
            }
        }
    }
}

/// The traces of src/enumerations.rs, then so many at random: most of the kinds that read descriptors, one in eight damaged.
pub fn traces(count: u64, seed: u64) -> Tally {
    let mut tally = Tally::default();
    for (name, trace) in enumerations::all() {
        tally.add(name, &trace);
    }
    for i in 0..count {
        let mut random = Random::of(seed, i);
        let kind = if random.chance(75) { random.pick(&DESCRIBED) } else { random.pick(&[&KINDS[..], &EXTRA].concat()) }.0;
        let records = random.pick(&[50, 100, 200, 400]);
        let mut trace = generate(random.next(), records, kind).expect("a kind of the list");
        if random.chance(12) {
            random.pick(&DAMAGES).1(&mut trace, &mut random);
        }
        tally.add(format!("trace {i} of seed {seed} ({kind})"), &trace);
    }
    tally
}

/// The command.
pub fn report(count: u64, seed: u64) -> bool {
    let tally = traces(count, seed);
    let Tally { traces, calls, requests, stopped, .. } = tally;
    println!("{traces} traces, {stopped} with a listed case; before it {calls} calls and {requests} requests were compared");
    println!("{:>4} {:>9} {:>9} {:>9}  listed case", "", "met", "first", "differs");
    for (i, (case, text)) in CASES.iter().enumerate() {
        let of = |counts: &BTreeMap<Case, u64>| counts.get(case).copied().unwrap_or(0);
        println!("{:>4} {:>9} {:>9} {:>9}  {text}", i + 1, of(&tally.met), of(&tally.first), of(&tally.parted));
    }
    for text in tally.differences.iter().take(20) {
        println!("differs: {text}");
    }
    println!("{} differences outside the listed cases", tally.differences.len());
    tally.differences.is_empty()
}
