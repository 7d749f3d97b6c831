//! The UTL trace of document 01: records read one at a time and written, and a whole trace run through the calls.

use crate::calls::{Calls, Mechanism, Rows};
use crate::descriptors::Descriptors;

/// A record of a trace.
#[derive(Clone, PartialEq, Debug)]
pub enum Record<'a> {
    Packet { ticks: u32, bytes: &'a [u8] },
    Event { ticks: u32, kind: u8, code: u8 },
    Detail { address: u8, number: u8, direction: u8, kind: u8, max: u16 },
}

/// A refusal and the offset that it is printed with.
#[derive(Copy, Clone, PartialEq, Debug)]
pub struct Refused {
    pub answer: u8,
    pub at: usize,
}

pub const HEADER: usize = 5;

/// 10 for the mark, 11 for the version.
pub fn header(trace: &[u8]) -> Result<(), Refused> {
    if trace.get(..3) != Some(b"UTL") {
        return Err(Refused { answer: 10, at: 0 });
    }
    if trace.get(3..HEADER) != Some(&[1, 0]) {
        return Err(Refused { answer: 11, at: 3 });
    }
    Ok(())
}

/// Reads the records of a trace, keeping its place.
pub struct Reader<'a> {
    trace: &'a [u8],
    pub at: usize,
}

impl<'a> Reader<'a> {
    /// Behind the header.
    pub fn new(trace: &'a [u8]) -> Self {
        Reader { trace, at: HEADER }
    }

    /// Records without header.
    pub fn records(records: &'a [u8]) -> Self {
        Reader { trace: records, at: 0 }
    }

    /// The next record, none at the end; 12 for a tag that is unknown, tested before 13 for a record cut short.
    pub fn next(&mut self) -> Option<Result<Record<'a>, Refused>> {
        let rest = &self.trace[self.at..];
        let size = match rest.first()? {
            0 => match rest.get(5..7) {
                Some(length) => 7 + u16::from_le_bytes([length[0], length[1]]) as usize,
                None => 7,
            },
            1 | 2 => 7,
            _ => return Some(Err(Refused { answer: 12, at: self.at })),
        };
        let Some(record) = rest.get(..size) else { return Some(Err(Refused { answer: 13, at: self.at })) };
        self.at += size;
        let ticks = u32::from_le_bytes([record[1], record[2], record[3], record[4]]);
        Some(Ok(match record[0] {
            0 => Record::Packet { ticks, bytes: &record[7..] },
            1 => Record::Event { ticks, kind: record[5], code: record[6] },
            _ => Record::Detail {
                address: record[1],
                number: record[2],
                direction: record[3],
                kind: record[4],
                max: u16::from_le_bytes([record[5], record[6]]),
            },
        }))
    }
}

/// The detail records of a trace, up to the first record that can't be read: what its listing's last line tells (change request 13).
pub fn count_details(trace: &[u8]) -> u64 {
    if header(trace).is_err() {
        return 0;
    }
    let mut reader = Reader::new(trace);
    let mut count = 0;
    while let Some(Ok(record)) = reader.next() {
        count += matches!(record, Record::Detail { .. }) as u64;
    }
    count
}

/// The time of each record that has ticks: the first is its ticks, each later one adds the difference modulo 2^32, modulo 2^64.
#[derive(Copy, Clone, PartialEq, Default, Debug)]
pub struct Clock {
    last: Option<(u32, u64)>,
}

impl Clock {
    /// A clock that has started: the last counter and its time.
    pub fn at(last: u32, time: u64) -> Clock {
        Clock { last: Some((last, time)) }
    }

    /// The last counter and its time, 0 and 0 before the first.
    pub fn state(&self) -> (u32, u64) {
        self.last.unwrap_or_default()
    }

    pub fn time(&mut self, ticks: u32) -> u64 {
        let time = match self.last {
            None => ticks as u64,
            Some((last, time)) => time.wrapping_add(ticks.wrapping_sub(last) as u64),
        };
        self.last = Some((ticks, time));
        time
    }
}

pub fn call<M: Mechanism>(calls: &mut Calls<M>, clock: &mut Clock, record: &Record) -> u8 {
    match *record {
        Record::Packet { ticks, bytes } => calls.packet(bytes, clock.time(ticks)),
        Record::Event { ticks, kind, code } => calls.event(kind, code, clock.time(ticks)),
        Record::Detail { address, number, direction, kind, max } => calls.detail(address, number, direction, kind, max),
    }
}

/// What a trace left: the calls, and the refusal that ended it. A wrong header is refused before there is a decoder.
pub struct Played<M: Mechanism> {
    pub calls: Option<Calls<M>>,
    pub refused: Option<Refused>,
}

/// A whole trace and its finish, up to the first refusal; 8 is none. `see` is shown the decoder before each record, and the answers:
/// that of fresh, of each record and of finish.
pub fn play<M: Mechanism>(trace: &[u8], room: Rows, total: u64, see: &mut impl Watch<M>) -> Played<M> {
    play_by(Descriptors::DEFAULT, trace, room, total, see)
}

/// The same with a mode of reading descriptors.
pub fn play_by<M: Mechanism>(
    descriptors: Descriptors,
    trace: &[u8],
    room: Rows,
    total: u64,
    see: &mut impl Watch<M>,
) -> Played<M> {
    if let Err(refused) = header(trace) {
        return Played { calls: None, refused: Some(refused) };
    }
    let mut calls = Calls::reading(descriptors, room, total, false);
    see.answer(calls.fresh);
    if calls.fresh != 0 {
        return Played { refused: Some(Refused { answer: calls.fresh, at: 0 }), calls: Some(calls) };
    }
    let refused = records(trace, &mut calls, see);
    Played { calls: Some(calls), refused }
}

/// Who looks on while a trace is played.
pub trait Watch<M> {
    fn before(&mut self, machine: &M, record: &Record);
    fn answer(&mut self, answer: u8);
}

/// Nobody.
impl<M> Watch<M> for () {
    fn before(&mut self, _: &M, _: &Record) {}
    fn answer(&mut self, _: u8) {}
}

fn records<M: Mechanism>(trace: &[u8], calls: &mut Calls<M>, see: &mut impl Watch<M>) -> Option<Refused> {
    let mut reader = Reader::new(trace);
    let mut clock = Clock::default();
    loop {
        let at = reader.at;
        let record = match reader.next() {
            None => break,
            Some(Err(refused)) => return Some(refused),
            Some(Ok(record)) => record,
        };
        see.before(&calls.machine, &record);
        let answer = call(calls, &mut clock, &record);
        see.answer(answer);
        if answer != 0 && answer != 8 {
            return Some(Refused { answer, at });
        }
    }
    let answer = calls.finish();
    see.answer(answer);
    (answer != 0).then_some(Refused { answer, at: trace.len() })
}

/// The same where only a whole trace is wanted.
pub fn run<M: Mechanism>(trace: &[u8], room: Rows, total: u64) -> Result<Calls<M>, Refused> {
    run_by(Descriptors::DEFAULT, trace, room, total)
}

/// The same with a mode of reading descriptors.
pub fn run_by<M: Mechanism>(descriptors: Descriptors, trace: &[u8], room: Rows, total: u64) -> Result<Calls<M>, Refused> {
    let played = play_by::<M>(descriptors, trace, room, total, &mut ());
    match (played.refused, played.calls) {
        (None, Some(calls)) => Ok(calls),
        (Some(refused), _) => Err(refused),
        (None, None) => unreachable!("a trace with no decoder is refused"),
    }
}

/// The answers of a trace, one for each record and one for finish. A refused call changes nothing, and the trace goes on;
/// `finish_at` calls finish before that record as well.
pub fn answers<M: Mechanism>(trace: &[u8], room: Rows, total: u64, finish_at: Option<u64>) -> Vec<u8> {
    answers_by::<M>(Descriptors::DEFAULT, trace, room, total, finish_at)
}

/// The same with a mode of reading descriptors.
pub fn answers_by<M: Mechanism>(
    descriptors: Descriptors,
    trace: &[u8],
    room: Rows,
    total: u64,
    finish_at: Option<u64>,
) -> Vec<u8> {
    if let Err(refused) = header(trace) {
        return vec![refused.answer];
    }
    let mut calls = Calls::<M>::reading(descriptors, room, total, false);
    let mut reader = Reader::new(trace);
    let mut clock = Clock::default();
    let mut answers = Vec::new();
    let mut number = 0;
    while let Some(record) = reader.next() {
        if finish_at == Some(number) {
            answers.push(calls.finish());
        }
        number += 1;
        match record {
            Ok(record) => answers.push(call(&mut calls, &mut clock, &record)),
            Err(refused) => {
                answers.push(refused.answer);
                return answers;
            }
        }
    }
    answers.push(calls.finish());
    answers
}

/// A trace being written.
#[derive(Clone)]
pub struct Writer {
    pub bytes: Vec<u8>,
    pub records: u64,
}

impl Default for Writer {
    fn default() -> Self {
        Writer { bytes: b"UTL\x01\x00".to_vec(), records: 0 }
    }
}

impl Writer {
    pub fn packet(&mut self, ticks: u32, bytes: &[u8]) {
        self.bytes.push(0);
        self.bytes.extend_from_slice(&ticks.to_le_bytes());
        self.bytes.extend_from_slice(&(bytes.len() as u16).to_le_bytes());
        self.bytes.extend_from_slice(bytes);
        self.records += 1;
    }

    pub fn event(&mut self, ticks: u32, kind: u8, code: u8) {
        self.bytes.push(1);
        self.bytes.extend_from_slice(&ticks.to_le_bytes());
        self.bytes.extend_from_slice(&[kind, code]);
        self.records += 1;
    }

    pub fn detail(&mut self, address: u8, number: u8, direction: u8, kind: u8, max: u16) {
        self.bytes.extend_from_slice(&[2, address, number, direction, kind]);
        self.bytes.extend_from_slice(&max.to_le_bytes());
        self.records += 1;
    }
}
