//! The classic pcap file of USB packets, link type 288 (change request 4): read and written by the request's own sentences, and what its packets become as calls.
//! Nothing here is shared with the port.

use std::fmt::Write;

use crate::calls::{Calls, Mechanism, Rows};
use crate::generate::{KINDS, generate};
use crate::listing;
use crate::trace::{self, Refused};
use crate::usb::reason_of;

/// The byte order of every number, and whether fractions are nanoseconds; otherwise they are microseconds.
#[derive(Copy, Clone, PartialEq, Debug)]
pub struct Format {
    pub big: bool,
    pub nano: bool,
}

/// What an export writes.
pub const WRITTEN: Format = Format { big: false, nano: true };

pub const FORMATS: [Format; 4] =
    [WRITTEN, Format { big: false, nano: false }, Format { big: true, nano: true }, Format { big: true, nano: false }];

pub const HEAD: usize = 24;
const RECORD: usize = 16;
pub const SECOND: u64 = 1_000_000_000;

/// A number of 32 bits in a byte order.
fn number(big: bool, bytes: &[u8]) -> u32 {
    let bytes = [bytes[0], bytes[1], bytes[2], bytes[3]];
    if big { u32::from_be_bytes(bytes) } else { u32::from_le_bytes(bytes) }
}

impl Format {
    pub fn four(self, n: u32) -> [u8; 4] {
        if self.big { n.to_be_bytes() } else { n.to_le_bytes() }
    }

    fn two(self, n: u16) -> [u8; 2] {
        if self.big { n.to_be_bytes() } else { n.to_le_bytes() }
    }

    fn mark(self) -> u32 {
        if self.nano { 0xA1B2_3C4D } else { 0xA1B2_C3D4 }
    }

    /// The nanoseconds in one unit of a fraction.
    fn unit(self) -> u64 {
        if self.nano { 1 } else { 1000 }
    }
}

/// What records are read by: the byte order, and the nanoseconds in one unit of a fraction. A head gives one of the four formats; whoever calls may say any unit.
#[derive(Copy, Clone, PartialEq, Debug)]
pub struct Units {
    pub big: bool,
    pub unit: u32,
}

impl From<Format> for Units {
    fn from(format: Format) -> Units {
        Units { big: format.big, unit: format.unit() as u32 }
    }
}

/// A record: its time in nanoseconds, and the packet.
#[derive(Clone, PartialEq, Debug)]
pub struct Packet<'a> {
    pub time: u64,
    pub bytes: &'a [u8],
}

/// 14 at 0: too short, or no mark in either byte order. 15 at 20: another link type.
pub fn head(file: &[u8]) -> Result<Format, Refused> {
    let marked = |f: &Format| file.len() >= HEAD && number(f.big, file) == f.mark();
    let format = FORMATS.into_iter().find(marked).ok_or(Refused { answer: 14, at: 0 })?;
    if number(format.big, &file[20..]) != 288 {
        return Err(Refused { answer: 15, at: 20 });
    }
    Ok(format)
}

/// Reads the records of a file, keeping its place.
pub struct Reader<'a> {
    file: &'a [u8],
    units: Units,
    pub at: usize,
}

impl<'a> Reader<'a> {
    /// Records from a place on.
    pub fn at(file: &'a [u8], units: impl Into<Units>, at: usize) -> Self {
        Reader { file, units: units.into(), at }
    }

    /// The next record, none at the end; 16 where it is cut short or was not captured whole, tested before 17 for a fraction of a second or more.
    pub fn next(&mut self) -> Option<Result<Packet<'a>, Refused>> {
        let rest = self.file.get(self.at..).filter(|rest| !rest.is_empty())?;
        let refused = |answer| Some(Err(Refused { answer, at: self.at }));
        if rest.len() < RECORD {
            return refused(16);
        }
        let [seconds, fraction, captured, original] = [0, 4, 8, 12].map(|place| number(self.units.big, &rest[place..]));
        let end = RECORD + captured as usize;
        if captured != original || rest.len() < end {
            return refused(16);
        }
        let part = fraction as u64 * self.units.unit as u64;
        if part >= SECOND {
            return refused(17);
        }
        self.at += end;
        Some(Ok(Packet { time: seconds as u64 * SECOND + part, bytes: &rest[RECORD..end] }))
    }
}

/// A file in any of the four formats; of a time in microseconds the rest is dropped. 18 where the seconds of a time do not fit.
pub fn write(format: Format, packets: &[Packet]) -> Result<Vec<u8>, u8> {
    let mut file = Vec::new();
    file.extend(format.four(format.mark()));
    file.extend(format.two(2));
    file.extend(format.two(4));
    for n in [0, 0, 4096, 288] {
        file.extend(format.four(n));
    }
    for packet in packets {
        let seconds = u32::try_from(packet.time / SECOND).map_err(|_| 18)?;
        let fraction = (packet.time % SECOND / format.unit()) as u32;
        let length = packet.bytes.len() as u32;
        for n in [seconds, fraction, length, length] {
            file.extend(format.four(n));
        }
        file.extend(packet.bytes);
    }
    Ok(file)
}

/// A file as an export leaves it: its packets, and the events left behind.
pub struct Exported {
    pub file: Vec<u8>,
    pub packets: usize,
    pub events: usize,
}

impl Exported {
    fn of(packets: &[Packet], events: usize) -> Result<Exported, u8> {
        Ok(Exported { file: write(WRITTEN, packets)?, packets: packets.len(), events })
    }
}

/// The export of a decoder's packets, finished or not: 1 where every call is answered 1, 18 as `write` has it.
pub fn export<M: Mechanism>(calls: &Calls<M>) -> Result<Exported, u8> {
    if calls.is_ill() {
        return Err(1);
    }
    let (packets, events) = packets(calls);
    Exported::of(&packets, events)
}

/// The export of rows that anybody may have written: of packets (start and time) and events (packet and code), over the packets' bytes. A row's bytes are those up
/// to the next row's start, the last one's up to the end; a start past the end counts as the end, and where the next one stands before it there are none. A row is an
/// event's where the next event row that was not taken yet names it.
pub fn export_rows(bytes: &[u8], packets: &[u64], events: &[u64]) -> Result<Exported, u8> {
    let start = |k: usize| packets.get(2 * k).map_or(bytes.len(), |start| (*start).min(bytes.len() as u64) as usize);
    let mut left = events.chunks_exact(2).map(|event| event[0]).peekable();
    let mut written = Vec::new();
    let mut taken = 0;
    for (k, row) in packets.chunks_exact(2).enumerate() {
        if left.next_if_eq(&(k as u64)).is_some() {
            taken += 1;
        } else {
            written.push(Packet { time: row[1], bytes: &bytes[start(k)..start(k + 1).max(start(k))] });
        }
    }
    Exported::of(&written, taken)
}

/// The packets of the log that are no event's, in order; and how many events there are.
pub fn packets<M: Mechanism>(calls: &Calls<M>) -> (Vec<Packet<'_>>, usize) {
    let c = calls.machine.capture();
    let (starts, events) = (&c.packet_index.stream.rows, &c.event_index.stream.rows);
    let bytes = &c.packet_data.rows;
    let end = |k: usize| starts.get(k + 1).map_or(bytes.len(), |start| *start as usize);
    let packets = starts.iter().zip(&c.packet_times.stream.rows).enumerate();
    let plain = packets.filter(|(k, _)| !events.contains(&(*k as u64)));
    (plain.map(|(k, (start, time))| Packet { time: *time, bytes: &bytes[*start as usize..end(k)] }).collect(), events.len())
}

/// What an import leaves: the answer and its place, the records taken, and the 8s among them.
#[derive(Copy, Clone, PartialEq, Debug)]
pub struct Imported {
    pub answer: u8,
    pub at: usize,
    pub taken: u64,
    pub eights: u64,
}

/// The records from a place on as packet calls, up to the first answer other than 0 or 8.
pub fn import_from<M: Mechanism>(units: impl Into<Units>, file: &[u8], at: usize, calls: &mut Calls<M>) -> Imported {
    let mut reader = Reader::at(file, units, at);
    let (mut taken, mut eights) = (0, 0);
    loop {
        let at = reader.at;
        let answer = match reader.next() {
            None => return Imported { answer: 0, at, taken, eights },
            Some(Err(refused)) => return Imported { answer: refused.answer, at: refused.at, taken, eights },
            Some(Ok(packet)) => calls.packet(packet.bytes, packet.time),
        };
        if answer != 0 && answer != 8 {
            return Imported { answer, at, taken, eights };
        }
        taken += 1;
        eights += (answer == 8) as u64;
    }
}

/// A whole file.
pub fn import<M: Mechanism>(file: &[u8], calls: &mut Calls<M>) -> Imported {
    match head(file) {
        Ok(format) => import_from(format, file, HEAD, calls),
        Err(Refused { answer, at }) => Imported { answer, at, taken: 0, eights: 0 },
    }
}

/// The listing of a file: a fresh decoder, its packets, finish.
pub fn listing<M: Mechanism>(file: &[u8], room: Rows) -> String {
    let refused = |answer, at| format!("refused {answer} at {at}\n");
    // As of a trace: what is no file is said before there is a decoder.
    if let Err(Refused { answer, at }) = head(file) {
        return refused(answer, at);
    }
    let mut calls = Calls::<M>::new(room, 0, false);
    if calls.fresh != 0 {
        return refused(calls.fresh, 0);
    }
    let imported = import(file, &mut calls);
    if imported.answer != 0 {
        return refused(imported.answer, imported.at);
    }
    match calls.finish() {
        0 => listing::rows(&calls),
        answer => refused(answer, file.len()),
    }
}

/// The file of a trace, and how many events it leaves behind; or what refuses it.
pub fn of_trace<M: Mechanism>(trace: &[u8], format: Format) -> Result<(Vec<u8>, usize), Refused> {
    let calls = trace::run::<M>(trace, Rows::LARGEST, 0)?;
    let (packets, events) = packets(&calls);
    let file = write(format, &packets).map_err(|answer| Refused { answer, at: trace.len() })?;
    Ok((file, events))
}

/// Time, length and reason (0 for a valid packet) of each packet of a file, a line for each: what other readers of the file are held to.
pub fn times(file: &[u8]) -> String {
    let mut out = String::new();
    let format = match head(file) {
        Ok(format) => format,
        Err(Refused { answer, at }) => return format!("refused {answer} at {at}\n"),
    };
    let mut reader = Reader::at(file, format, HEAD);
    while let Some(next) = reader.next() {
        match next {
            Ok(packet) => writeln!(out, "{} {} {}", packet.time, packet.bytes.len(), reason_of(packet.bytes)).ok(),
            Err(Refused { answer, at }) => writeln!(out, "refused {answer} at {at}").ok(),
        };
    }
    out
}

/// N random traces of each kind, written in all four formats and imported on a fresh decoder: the same packets, and times as exact as the format has them; and the
/// events counted. Says how many packets were compared, or what differs.
pub fn there_and_back<M: Mechanism>(n: u64, seed: u64) -> Result<usize, String> {
    let mut count = 0;
    for (kind, seed) in KINDS.iter().flat_map(|(kind, _)| (seed..seed + n).map(move |seed| (kind, seed))) {
        let trace = generate(seed, 200, kind).ok_or(format!("no kind {kind}"))?;
        let Ok(calls) = trace::run::<M>(&trace, Rows::LARGEST, 0) else { continue };
        let (given, events) = packets(&calls);
        if given.len() + events != calls.machine.capture().packet_index.stream.rows.len() {
            return Err(format!("{kind} {seed}: {events} events left behind"));
        }
        for format in FORMATS {
            let file = write(format, &given).map_err(|answer| format!("{kind} {seed}: {answer}"))?;
            let mut again = Calls::<M>::new(Rows::LARGEST, 0, false);
            let imported = import(&file, &mut again);
            let (back, _) = packets(&again);
            let rounded = |p: &Packet| p.time / format.unit() * format.unit();
            let same =
                back.len() == given.len() && back.iter().zip(&given).all(|(b, g)| b.bytes == g.bytes && b.time == rounded(g));
            if (imported.answer, imported.at, imported.taken) != (0, file.len(), given.len() as u64) || !same {
                return Err(format!("{kind} {seed}: {format:?}: {imported:?}"));
            }
            count += given.len();
        }
    }
    Ok(count)
}
