//! Pcap files (change request 4) through the entries of the library, in step with the Rust and with the oracle's own reader and writer (src/pcap.rs). The packets of a
//! sequence of calls are exported; the file is imported again, in all four formats, in pieces, on small logs and damaged. Every file is compared byte for byte,
//! every import as a single call is (src/singles.rs): its answer, what it tells, every row, and that what is refused leaves all as it was.

use std::iter::from_fn;

use crate::calls::{BYTES, Calls, ENDPOINTS, EVENTS, PACKETS, WIDTHS};
use crate::compare::TOLD;
use crate::generate::{Random, generate};
use crate::lent::{Log, Logs};
use crate::mode::Mode;
use crate::packets::{handshake, sof, split};
use crate::pcap::{self, Exported, FORMATS, Format, HEAD, Packet, Reader, SECOND, Units, WRITTEN, write};
use crate::singles::{self, Call, Entries, MOST, Run, Told, With};
use crate::trace::{self, Record};
use crate::usb::PID::ACK;

/// Answers by number, those of documents 01 and 02.
pub type Answers = [u64; 21];

/// What was compared, and what came of it.
#[derive(Default)]
pub struct Tally<D: Mode> {
    /// Single calls, the imports among them.
    pub calls: singles::Tally<D>,
    pub counts: Counts,
    pub sequences: u64,
    pub differences: u64,
}

/// What single calls do not count.
#[derive(Default)]
pub struct Counts {
    pub heads: Answers,
    pub sizes: Answers,
    pub exports: Answers,
    /// Files that the port wrote, with their bytes and packets and the events left behind.
    pub files: u64,
    pub bytes: u64,
    pub packets: u64,
    pub events: u64,
    /// Packets that were imported.
    pub taken: u64,
    /// For each log the files that were refused with 7, since it was too small.
    pub short: [u64; 12],
    pub cases: [u64; CASES.len()],
}

/// What has to be met, besides the answers.
#[derive(Copy, Clone)]
enum Case {
    Unfinished,
    Finished,
    LastSecond,
    LateEvent,
    NoRoom,
    Ill,
    Well,
    MadeUp,
    Back,
    Same,
    Divided,
    WentOn,
    NoRecord,
    Before,
    Eight,
    Longest,
    OddFormat,
    OddFraction,
}

pub const CASES: [&str; 18] = [
    "a decoder that is not finished exported",
    "a finished one",
    "a time of the last second that fits",
    "an event's time past it, left behind",
    "18 with no room at all",
    "an export of a damaged record refused",
    "one accepted",
    "rows that no call wrote exported",
    "there and back",
    "the file of what came back is the same",
    "a record that the end of a piece divided",
    "7, and more room from its place on",
    "a file without records on a record that answers 1",
    "16 or 17 before the 1 or 2 of the call",
    "an 8",
    "a packet of 4,096 bytes taken",
    "a format that no head gives",
    "17 in such a format",
];

/// So many sequences. Before them a small file is damaged at every byte. A sequence ends at its first difference.
pub fn files<D: Mode>(port: &mut dyn Entries, count: u64, seed: u64) -> Tally<D> {
    let mut tally = Tally::default();
    let mut run = Run::<D>::new();
    for number in 0..=count {
        let mut random = Random::of(seed, number);
        let kind = random.pick(&run.kinds).0;
        run.start(number, &mut random);
        // So near to 2^64 that the payloads of one file pass it.
        run.total = if run.total > 0 { u64::MAX - random.below(64) } else { 0 };
        let mut with = With { run: &mut run, port, tally: &mut tally.calls, told: Told::default() };
        let mut trip = Trip { with: &mut with, counts: &mut tally.counts };
        let done = if number == 0 { trip.every_byte(&mut random) } else { trip.sequence(kind, &mut random) };
        tally.sequences += 1;
        if let Err(text) = done {
            tally.differences += 1;
            println!("differs: sequence {number} of seed {seed} ({kind}): {text}");
            run = Run::new();
        }
        if tally.differences == TOLD {
            break;
        }
    }
    tally
}

/// The file of the rows that stand in logs, by their counts.
pub fn exported(logs: &Logs, counts: &[u64; 12]) -> Result<Exported, u8> {
    let read = |log: usize| logs.log(log).read(0, counts[log] as usize * WIDTHS[log]);
    let bytes: Vec<u8> = read(BYTES).into_iter().map(|byte| byte as u8).collect();
    pcap::export_rows(&bytes, &read(PACKETS), &read(EVENTS))
}

/// The last time that a file can hold.
const LAST: u64 = (1 << 32) * SECOND - 1;

/// The times of a sequence: which of its calls come later than a file can hold.
struct Times {
    now: u64,
    forward: bool,
    late_packets: bool,
    late_events: bool,
}

impl Times {
    fn new(random: &mut Random) -> Times {
        let [forward, late_packets, late_events] = [40, 20, 40].map(|percent| random.chance(percent));
        Times { now: random.below(LAST / 2), forward, late_packets, late_events }
    }

    fn late(random: &mut Random) -> u64 {
        random.pick(&[LAST + 1, LAST + 1, LAST + SECOND, u64::MAX])
    }

    fn within(&mut self, random: &mut Random) -> u64 {
        self.now += random.below(1 << 20);
        let any = random.below(LAST + 1);
        if self.forward { self.now } else { random.pick(&[any, any, any, 0, SECOND - 1, SECOND, LAST - SECOND + 1, LAST]) }
    }

    fn packet(&mut self, random: &mut Random) -> u64 {
        if self.late_packets && random.below(64) == 0 { Times::late(random) } else { self.within(random) }
    }

    fn event(&mut self, random: &mut Random) -> u64 {
        if self.late_events && random.chance(50) { Times::late(random) } else { self.within(random) }
    }
}

/// A sequence under way, and what is counted of it.
struct Trip<'a, 'b, D: Mode> {
    with: &'a mut With<'b, D>,
    counts: &'a mut Counts,
}

// ---- export

impl<D: Mode> Trip<'_, '_, D> {
    fn meet(&mut self, case: Case, met: bool) {
        self.counts.cases[case as usize] += met as u64;
    }

    /// The export as all stands now: the file, where there is one.
    fn export(&mut self, random: &mut Random) -> Result<Option<Vec<u8>>, String> {
        let run = &mut *self.with.run;
        run.right.0.lend(run.memory.logs.room());
        let right = pcap::export(&run.right.0);
        let finished = run.right.0.finished();
        run.keep();
        let times: Vec<u64> = run.right.0.log_words(PACKETS).chunks(2).map(|row| row[1]).collect();
        let last = right.is_ok() && times.iter().any(|time| (LAST - SECOND + 1..=LAST).contains(time));
        let late = right.is_ok() && times.iter().any(|time| *time > LAST);
        self.gives(&right, random)?;
        self.with.run.all()?;
        self.meet(if finished { Case::Finished } else { Case::Unfinished }, right.is_ok());
        self.meet(Case::LastSecond, last);
        self.meet(Case::LateEvent, late);
        Ok(right.ok().map(|made| made.file))
    }

    /// Size and export by the port, with buffers of every kind, must give this and leave the record and the table as they were kept.
    fn gives(&mut self, right: &Result<Exported, u8>, random: &mut Random) -> Result<(), String> {
        let length = right.as_ref().map_or(random.below(300), |made| made.file.len() as u64);
        self.given(right, None, random)?;
        for room in [0, random.below(length + 1), length.saturating_sub(1), length, length + 1 + random.below(64)] {
            self.given(right, Some(room as usize), random)?;
        }
        self.with.run.kept()
    }

    /// One of them: refused, what was told before and the buffer stay; accepted, so do the bytes behind the file.
    fn given(&mut self, right: &Result<Exported, u8>, room: Option<usize>, random: &mut Random) -> Result<(), String> {
        let before = [0; 3].map(|_| random.next());
        let mut told = before;
        let mut out = room.map(|room| Log::new(room, random.next() >> 1));
        let answer = self.with.port.pcap_export(&mut self.with.run.memory, out.as_mut(), &mut told);
        let (wanted, words, file) = match (right, room) {
            (Err(answer), _) => (*answer, before, &[][..]),
            (Ok(made), Some(room)) if made.file.len() > room => (7, before, &[][..]),
            (Ok(made), _) => (0, [made.file.len(), made.packets, made.events].map(|n| n as u64), &made.file[..]),
        };
        let called = if room.is_some() { "export" } else { "size" };
        if (answer, told) != (wanted, words) {
            return Err(format!("{called}, room {room:?}: by the oracle {wanted} {words:?}, by the port {answer} {told:?}"));
        }
        let Some(out) = out else {
            self.counts.sizes[answer as usize] += 1;
            return Ok(());
        };
        if out.first(file.len()).map_err(|text| format!("{called}, answer {answer}: {text}"))? != file {
            return Err(format!("{called}: the file of the port is not that of the oracle"));
        }
        self.counts.exports[answer as usize] += 1;
        self.meet(Case::NoRoom, answer == 18 && room == Some(0));
        if answer == 0 {
            self.counts.files += 1;
            self.counts.bytes += words[0];
            self.counts.packets += words[1];
            self.counts.events += words[2];
        }
        Ok(())
    }

    /// On logs too long or too short, on a record or a table with one word changed, and of rows that no call wrote.
    fn odd_exports(&mut self, random: &mut Random) -> Result<(), String> {
        let Trip { with, counts } = self;
        with.too_long(random, |with, random| Trip { with, counts }.export(random).map(|_| ()))?;
        let Trip { with, counts } = self;
        with.shorter(random, |with, random| Trip { with, counts }.export(random).map(|_| ()))?;
        for _ in 0..4 {
            self.damaged(random)?;
            self.export_made_up(random)?;
        }
        Ok(())
    }

    /// A count past its room must be refused. Where the port takes another record for well formed, it goes by the counts that stand in it. A file without records
    /// is no call, so it answers 0.
    fn damaged(&mut self, random: &mut Random) -> Result<(), String> {
        let damage = self.with.damage(random);
        let memory = &mut self.with.run.memory;
        let none = self.with.port.call(&Call::Records { format: [0, 1], records: &[] }, memory);
        if none != Told::default() {
            return Err(format!("no records on a damaged record ({damage}): {none:?}"));
        }
        let ill = self.with.port.pcap_export(memory, None, &mut [0; 3]) == 1;
        let counts = self.with.port.counts(memory);
        let right = if ill || damage.is_past() { Err(1) } else { exported(&memory.logs, &counts) };
        let given = self.gives(&right, random);
        self.with.mend(&damage);
        self.meet(Case::Ill, ill);
        self.meet(Case::Well, !ill);
        given.map_err(|text| format!("on a damaged record ({damage}): {text}"))
    }

    /// Some words of the packet and the event rows are others; then all is put back.
    fn export_made_up(&mut self, random: &mut Random) -> Result<(), String> {
        let counts = self.with.run.counts;
        let log = random.pick(&[PACKETS, PACKETS, EVENTS]);
        let words = counts[log] as usize * WIDTHS[log];
        if words == 0 {
            return Ok(());
        }
        let logs = &mut self.with.run.memory.logs;
        let before = logs.log(log).read(0, words);
        for _ in 0..random.below(4) + 1 {
            let place = random.below(words as u64) as usize;
            let near = before[place].wrapping_add(random.below(5)).wrapping_sub(2);
            let word = random.pick(&[near, near, 0, u64::MAX, counts[BYTES], counts[PACKETS], LAST]);
            logs.log_mut(log).write(place, &[word]);
        }
        let right = exported(logs, &counts);
        self.with.run.keep();
        let given = self.gives(&right, random);
        self.with.run.memory.logs.log_mut(log).write(0, &before);
        self.meet(Case::MadeUp, right.is_ok());
        given.map_err(|text| format!("rows that no call wrote: {text}"))
    }
}

// ---- import

impl<D: Mode> Trip<'_, '_, D> {
    /// The head of a file: the words of its format, where it is accepted.
    fn head(&mut self, file: &[u8], random: &mut Random) -> Result<Option<[u64; 2]>, String> {
        let before = [random.next(), random.next()];
        let mut words = before;
        let told = self.with.port.pcap_head(file, &mut words);
        let (right, format) = match pcap::head(file) {
            Ok(format) => ((0, HEAD as u64), Some(format_words(format))),
            Err(refused) => ((refused.answer, refused.at as u64), None),
        };
        self.counts.heads[right.0 as usize] += 1;
        if (told, words) != (right, format.unwrap_or(before)) {
            return Err(format!("head: by the oracle {right:?} {format:?}, by the port {told:?} {words:?}"));
        }
        Ok(format)
    }

    /// One import by both.
    fn take(&mut self, format: [u64; 2], records: &[u8]) -> Result<Told, String> {
        self.with.step(&Call::Records { format, records })?;
        let told = self.with.told;
        self.counts.taken += told.block[0];
        self.meet(Case::Eight, told.block[1] > 0);
        Ok(told)
    }

    /// In pieces of these lengths, as a file is read: 16 at the end of a piece goes on with more from its place. What all of them tell, and the last answer.
    fn pieces(&mut self, format: [u64; 2], records: &[u8], mut length: impl FnMut() -> usize) -> Result<Told, String> {
        let (mut at, mut end, mut sum) = (0, 0, Told::default());
        loop {
            end = records.len().min(end + length());
            let told = self.take(format, &records[at..end])?;
            self.meet(Case::Divided, sum.answer == 16 && told.block[0] > 0);
            at += told.block[2] as usize;
            sum.answer = told.answer;
            sum.block = [sum.block[0] + told.block[0], sum.block[1] + told.block[1], at as u64];
            if end == records.len() || !matches!(told.answer, 0 | 16) {
                return Ok(sum);
            }
        }
    }

    /// A file on a fresh decoder, in pieces or not, gives what the Rust makes of it as a whole.
    fn import(&mut self, file: &[u8], random: &mut Random) -> Result<Told, String> {
        self.with.fresh(random)?;
        let mut calls = Calls::<D::Machine>::new(self.with.run.memory.logs.room(), 0, false);
        let whole = pcap::import(file, &mut calls);
        let Some(format) = self.head(file, random)? else { return Ok(Told { answer: whole.answer, ..Told::default() }) };
        let records = &file[HEAD..];
        let most = random.pick(&[40, 200, 1000, records.len() as u64 + 1]);
        let told = if random.chance(50) {
            self.pieces(format, records, || random.below(most) as usize + 1)?
        } else {
            self.take(format, records)?
        };
        let right = Told { answer: whole.answer, block: [whole.taken, whole.eights, (whole.at - HEAD) as u64], ..told };
        // Totals near 2^64 begin between two pieces.
        if self.with.run.total == 0 && told != right {
            return Err(format!("pieces: {told:?}, and of the whole {right:?}"));
        }
        Ok(told)
    }

    /// The byte log, and the packet rows that are no event's.
    fn logged(&self) -> (Vec<u64>, Vec<Vec<u64>>) {
        let read = |log: usize| self.with.run.memory.logs.log(log).read(0, self.with.run.counts[log] as usize * WIDTHS[log]);
        let events: Vec<u64> = read(EVENTS).chunks(2).map(|event| event[0]).collect();
        let rows = read(PACKETS);
        let plain = rows.chunks(2).enumerate().filter(|(k, _)| !events.contains(&(*k as u64)));
        (read(BYTES), plain.map(|(_, row)| row.to_vec()).collect())
    }

    /// An exported file on large logs: the same bytes and packet rows, and the same file again.
    fn there_and_back(&mut self, file: &[u8], random: &mut Random) -> Result<(), String> {
        let before = self.logged();
        let told = self.import(file, random)?;
        // 9 by totals near 2^64, which no call makes.
        if told.answer == 9 && self.with.run.total > 0 {
            return Ok(());
        }
        if told.answer != 0 || self.logged() != before {
            return Err(format!("there and back: {told:?}, and other packets"));
        }
        self.meet(Case::Back, true);
        if self.export(random)?.is_none_or(|again| again != file) {
            return Err("there and back: another file".to_string());
        }
        self.meet(Case::Same, true);
        Ok(())
    }

    /// One log with too few rows for a file: 7, and what came before it stays. With more room it goes on from there.
    fn short(&mut self, file: &[u8], random: &mut Random) -> Result<(), String> {
        let mut calls = Calls::<D::Machine>::new(MOST, 0, false);
        let begun = calls.rows();
        pcap::import(file, &mut calls);
        let wanted = calls.rows();
        let grown: Vec<usize> = (0..12).filter(|log| wanted.0[*log] > begun.0[*log]).collect();
        if grown.is_empty() {
            return Ok(());
        }
        let log = random.pick(&grown);
        let mut room = MOST;
        room.0[log] = wanted.0[log] - 1 - random.below(wanted.0[log] - begun.0[log]);
        self.with.run.lend(room, random);
        self.with.fresh(random)?;
        let Some(format) = self.head(file, random)? else { return Ok(()) };
        let records = &file[HEAD..];
        let told = self.take(format, records)?;
        self.counts.short[log] += (told.answer == 7) as u64;
        self.with.run.lend(MOST, random);
        let rest = self.take(format, &records[told.block[2] as usize..])?;
        self.meet(Case::WentOn, told.answer == 7 && rest.block[0] > 0);
        Ok(())
    }

    /// Records in a format that no head gives.
    fn odd_format(&mut self, packets: &[Packet], random: &mut Random) -> Result<(), String> {
        let any = random.next();
        let big = random.pick(&[0, 1, 2, 255, 256, 1 << 32, u64::MAX, any]);
        let unit =
            random.pick(&[0, 2, 999, 1001, 500_000_000, SECOND - 1, SECOND, (1 << 32) - 1, 1 << 32, (1 << 32) + 1000, any]);
        let format = Format { big: big != 0, nano: true };
        let mut file = write(format, packets).expect("times that fit");
        let most = (SECOND - 1).checked_div(unit % (1 << 32)).unwrap_or(u64::MAX).min(u32::MAX as u64);
        for at in starts(&file, format) {
            let below = random.below(most + 1);
            let fraction = random.pick(&[0, most, most, below]);
            let fraction = if random.below(16) == 0 { random.pick(&[most + 1, u32::MAX as u64]) } else { fraction };
            put(&mut file, format, at + 4, fraction.min(u32::MAX as u64) as u32);
        }
        self.with.fresh(random)?;
        let told = self.pieces([big, unit], &file[HEAD..], || 1 + random.below(4000) as usize)?;
        self.meet(Case::OddFormat, told.block[0] > 0);
        self.meet(Case::OddFraction, told.answer == 17);
        Ok(())
    }
}

/// A format as the port has it.
fn format_words(format: Format) -> [u64; 2] {
    let Units { big, unit } = format.into();
    [big as u64, unit as u64]
}

/// The packets of a file, as far as they can be read.
fn read(file: &[u8], format: Format) -> Vec<Packet<'_>> {
    let mut reader = Reader::at(file, format, HEAD);
    from_fn(|| reader.next().and_then(Result::ok)).collect()
}

/// Where the records of a file start, as far as they can be read.
fn starts(file: &[u8], format: Format) -> Vec<usize> {
    let mut reader = Reader::at(file, format, HEAD);
    let next = || {
        let at = reader.at;
        reader.next().and_then(Result::ok).map(|_| at)
    };
    from_fn(next).collect()
}

fn put(file: &mut [u8], format: Format, at: usize, n: u32) {
    file[at..at + 4].copy_from_slice(&format.four(n));
}

/// The units of a fraction in one second.
fn limit(format: Format) -> u32 {
    if format.nano { 1_000_000_000 } else { 1_000_000 }
}

/// One thing in a file is another.
fn spoil(file: &mut Vec<u8>, format: Format, random: &mut Random) {
    let starts = starts(file, format);
    let place = random.below(file.len() as u64) as usize;
    let at = if starts.is_empty() { HEAD } else { random.pick(&starts) };
    let limit = limit(format);
    let length = random.pick(&[0, 1, 2, 3, 4095, 4096, 4097, 65_536, u32::MAX]);
    let few = random.below(20) + 1;
    match random.below(if starts.is_empty() { 5 } else { 10 }) {
        0 => file.truncate(place),
        1 => file[place] ^= 1 << random.below(8),
        2 => drop(file.splice(place..place, random.bytes(few))),
        3 => drop(file.drain(place..(place + few as usize).min(file.len()))),
        4 => {
            let length = random.pick(&[4096, 4096, 4097, 65_536]);
            let long = [Packet { time: 7 * SECOND, bytes: &random.bytes(length) }];
            file.splice(at..at, write(format, &long).expect("a time that fits").split_off(HEAD));
        }
        5 => put(file, format, at + 8, length),
        6 => put(file, format, at + 12, length),
        7 => [8, 12].iter().for_each(|field| put(file, format, at + field, length)),
        8 => put(file, format, at + 4, random.pick(&[limit, limit - 1, limit + 1, u32::MAX])),
        _ => put(file, format, at, random.next() as u32),
    }
}

// ---- sequences

impl<D: Mode> Trip<'_, '_, D> {
    /// The calls of a trace, exported now and then.
    fn play(&mut self, trace: &[u8], random: &mut Random) -> Result<(), String> {
        let mut times = Times::new(random);
        let mut reader = trace::Reader::new(trace);
        loop {
            let from = reader.at;
            match reader.next() {
                Some(Ok(Record::Packet { bytes, .. })) => self.with.step(&Call::Packet { bytes, time: times.packet(random) })?,
                Some(Ok(Record::Event { kind, code, .. })) => {
                    self.with.step(&Call::Event { kind, code, time: times.event(random) })?
                }
                Some(Ok(Record::Detail { .. })) => self.with.block(1, &trace[from..reader.at])?,
                _ => return Ok(()),
            }
            if random.below(128) == 0 {
                self.export(random)?;
            }
        }
    }

    fn sequence(&mut self, kind: &str, random: &mut Random) -> Result<(), String> {
        let ack = write(WRITTEN, &[Packet { time: 5, bytes: &handshake(ACK) }]).expect("a time that fits");
        if random.below(8) == 0 {
            // Before there is a decoder.
            self.export(random)?;
            for end in [HEAD, HEAD + 3, ack.len()] {
                self.take([0, 1], &ack[HEAD..end])?;
            }
        }
        self.with.run.lend(MOST, random);
        self.with.fresh(random)?;
        let trace = generate(random.next(), random.below(300) + 1, kind).expect("a kind of the list");
        self.play(&trace, random)?;
        if random.chance(50) {
            self.with.step(&Call::Finish)?;
        }
        let file = self.export(random)?;
        self.odd_exports(random)?;
        self.with.damaged(&Call::Records { format: [0, 1], records: &ack[HEAD..] }, random)?;
        match file {
            Some(file) if random.chance(75) => self.there_and_back(&file, random)?,
            // On what the calls left, finished or not.
            file => drop(self.take([0, 1], &file.as_ref().unwrap_or(&ack)[HEAD..])?),
        }
        // The packets that stand there now, at times that fit.
        let made = write(WRITTEN, &self.fitting()).expect("times that fit");
        self.imports(&read(&made, WRITTEN), random)?;
        self.with.run.all()
    }

    /// The packets of the Rust; a time that does not fit is the last that does.
    fn fitting(&self) -> Vec<Packet<'_>> {
        let packets = pcap::packets(&self.with.run.right.0).0;
        packets.into_iter().map(|packet| Packet { time: packet.time.min(LAST), ..packet }).collect()
    }

    /// The file in all formats, whole or in pieces, damaged, and on small logs; its records in formats that no head gives.
    fn imports(&mut self, packets: &[Packet], random: &mut Random) -> Result<(), String> {
        for format in FORMATS {
            let file = write(format, packets).expect("times that fit");
            self.import(&file, random)?;
            match random.below(4) {
                0 => {
                    self.with.step(&Call::Finish)?;
                    self.export(random)?;
                }
                // Behind itself, where endpoints that began with a total near 2^64 come to 9.
                n if n == 1 || self.with.run.total > 0 => drop(self.take(format_words(format), &file[HEAD..])?),
                _ => {}
            }
            let mut spoiled = file.clone();
            spoil(&mut spoiled, format, random);
            let taken = self.import(&spoiled, random)?.block[0] as usize;
            self.meet(Case::Longest, read(&spoiled, format).iter().take(taken).any(|packet| packet.bytes.len() == 4096));
            self.short(&file, random)?;
        }
        self.odd_format(packets, random)?;
        self.odd_format(packets, random)
    }

    /// A small file in each format, cut at every byte, with every bit turned, and with fractions at the limit, on a decoder that is fresh, that answers 8, that is
    /// finished and that was refused; and in pieces of every length.
    fn every_byte(&mut self, random: &mut Random) -> Result<(), String> {
        let bytes = [sof(1), split(1, 0, 2, 3), handshake(ACK)];
        let packets: Vec<Packet> =
            bytes.iter().zip([LAST, 0, 12_345_678_901]).map(|(bytes, time)| Packet { time, bytes }).collect();
        for format in FORMATS {
            let file = write(format, &packets).expect("times that fit");
            for spoiled in every_fault(&file, format) {
                for state in STATES {
                    self.prepare(state, random)?;
                    self.file_on(&spoiled, state, random)?;
                }
            }
            for length in 1..=file.len() {
                self.with.fresh(random)?;
                let told = self.pieces(format_words(format), &file[HEAD..], || length)?;
                if (told.answer, told.block[0]) != (0, 3) {
                    return Err(format!("pieces of {length} bytes: {told:?}"));
                }
            }
        }
        self.with.run.all()
    }

    fn prepare(&mut self, state: State, random: &mut Random) -> Result<(), String> {
        let mut room = MOST;
        if state == State::Ill {
            room.0[ENDPOINTS] = 0;
        }
        self.with.run.lend(room, random);
        self.with.fresh(random)?;
        self.with.run.lend(MOST, random);
        match state {
            State::Suspended => {
                self.with.step(&Call::Packet { bytes: &split(1, 0, 2, 3), time: 1 })?;
                self.with.step(&Call::Event { kind: 0, code: 0, time: 2 })
            }
            State::Finished => self.with.step(&Call::Finish),
            State::Fresh | State::Ill => Ok(()),
        }
    }

    fn file_on(&mut self, file: &[u8], state: State, random: &mut Random) -> Result<(), String> {
        let Some(format) = self.head(file, random)? else { return Ok(()) };
        let told = self.take(format, &file[HEAD..])?;
        let refusing = matches!(state, State::Finished | State::Ill);
        self.meet(Case::NoRecord, state == State::Ill && file.len() == HEAD);
        self.meet(Case::Before, refusing && told.answer >= 16);
        Ok(())
    }
}

/// What a decoder is before a file comes: in the second one a packet is answered 8, in the last one every call 1.
#[derive(Copy, Clone, PartialEq)]
enum State {
    Fresh,
    Suspended,
    Finished,
    Ill,
}

const STATES: [State; 4] = [State::Fresh, State::Suspended, State::Finished, State::Ill];

/// A file cut at every byte, with each bit turned, and with other fractions.
fn every_fault(file: &[u8], format: Format) -> Vec<Vec<u8>> {
    let cut = (0..=file.len()).map(|end| file[..end].to_vec());
    let turned = (0..8 * file.len()).map(|bit| {
        let mut file = file.to_vec();
        file[bit / 8] ^= 1 << (bit % 8);
        file
    });
    let limit = limit(format);
    let fractions = starts(file, format).into_iter().flat_map(|at| [limit - 1, limit, u32::MAX].map(|fraction| (at, fraction)));
    let late = fractions.map(|(at, fraction)| {
        let mut file = file.to_vec();
        put(&mut file, format, at + 4, fraction);
        file
    });
    cut.chain(turned).chain(late).collect()
}

/// That the comparison finds a slip, and nothing where there is none.
#[cfg(test)]
mod tests {
    use super::*;
    use crate::decoder::machine::Machine;
    use crate::lent::Rowed;
    use crate::mode::{High, Plain};
    use crate::report;
    use crate::singles::Memory;
    use crate::singles::slips::{self, StandIn, none};

    /// What is wrong with a port: it is shown what it was called with and spoils what it gives.
    #[derive(Copy, Clone)]
    enum Slip {
        None,
        Head(fn(&[u8], &mut (u8, u64), &mut [u64; 2])),
        Format(fn(&mut [u64; 2])),
        Records(slips::Slip),
        Export(fn(&mut Given)),
    }

    /// What an export gives; without a buffer it is a size.
    struct Given<'a> {
        answer: &'a mut u8,
        told: &'a mut [u64; 3],
        out: Option<&'a mut Log<u8>>,
        finished: bool,
        rows: u64,
    }

    struct Port {
        right: StandIn<Machine>,
        slip: Slip,
    }

    impl Port {
        fn new(slip: Slip) -> Port {
            let of_calls = if let Slip::Records(slip) = slip { slip } else { none };
            Port { right: StandIn::new(of_calls), slip }
        }
    }

    impl Entries for Port {
        fn call(&mut self, call: &Call, memory: &mut Memory) -> Told {
            match (call, self.slip) {
                (Call::Records { format, records }, Slip::Format(slip)) => {
                    let mut format = *format;
                    slip(&mut format);
                    self.right.call(&Call::Records { format, records }, memory)
                }
                _ => self.right.call(call, memory),
            }
        }

        fn counts(&mut self, memory: &Memory) -> [u64; 12] {
            self.right.counts(memory)
        }

        fn set_totals(&mut self, memory: &mut Memory, endpoints: std::ops::Range<u64>, total: u64) {
            self.right.set_totals(memory, endpoints, total);
        }

        fn pcap_head(&mut self, file: &[u8], format: &mut [u64; 2]) -> (u8, u64) {
            let mut told = self.right.pcap_head(file, format);
            if let Slip::Head(slip) = self.slip {
                slip(file, &mut told, format);
            }
            told
        }

        fn pcap_export(&mut self, memory: &mut Memory, mut out: Option<&mut Log<u8>>, told: &mut [u64; 3]) -> u8 {
            let mut answer = self.right.pcap_export(memory, out.as_deref_mut(), told);
            if let Slip::Export(slip) = self.slip {
                let (finished, rows) = (self.right.finished(), self.counts(memory)[PACKETS]);
                slip(&mut Given { answer: &mut answer, told, out, finished, rows });
            }
            answer
        }
    }

    fn found(slip: Slip) -> u64 {
        files::<Plain>(&mut Port::new(slip), 10, 1).differences
    }

    /// The Rust takes every record that it did not leave for ill.
    fn fine<D: Mode>(mut tally: Tally<D>) -> bool {
        tally.counts.cases[Case::Well as usize] += 1;
        report::files(&tally)
    }

    #[test]
    fn none_is_found() {
        assert!(fine(files::<Plain>(&mut Port::new(Slip::None), 300, 1)));
        assert!(fine(files::<High>(&mut StandIn::<<High as Mode>::Machine>::new(none), 300, 1)));
    }

    /// The first bytes of a buffer are changed.
    fn scratch(out: &mut Option<&mut Log<u8>>, place: usize) {
        if let Some(byte) = out.as_mut().and_then(|out| out.cells_mut().get_mut(place)) {
            *byte ^= 1;
        }
    }

    const SLIPS: [(&str, Slip); 20] = [
        ("a refused head writes the format", Slip::Head(|_, told, format| format[0] ^= (told.0 == 15) as u64)),
        ("the byte order is turned", Slip::Head(|_, told, format| format[0] ^= (told.0 == 0) as u64)),
        ("microseconds are lost", Slip::Head(|_, told, format| format[1] = if told.0 == 0 { 1 } else { format[1] })),
        ("15 at 0", Slip::Head(|_, told, _| told.1 = if told.0 == 15 { 0 } else { told.1 })),
        (
            "15 before 14",
            Slip::Head(|file, told, _| {
                if told.0 == 14 && file.len() == HEAD - 1 {
                    *told = (15, 20);
                }
            }),
        ),
        ("a format's first word is one bit", Slip::Format(|format| format[0] &= 1)),
        ("the unit has more than 32 bits", Slip::Format(|format| format[1] = format[1].min((1 << 32) - 1))),
        ("only two units are known", Slip::Format(|format| format[1] = if format[1] == 1000 { 1000 } else { 1 })),
        ("16 for 17", Slip::Records(|_, _, told, _| told.answer -= (told.answer == 17) as u8)),
        ("17 for 16", Slip::Records(|_, _, told, _| told.answer += (told.answer == 16) as u8)),
        (
            "the 8s are lost",
            Slip::Records(|call, _, told, _| {
                if matches!(call, Call::Records { .. }) {
                    told.block[1] = 0;
                }
            }),
        ),
        (
            "the refused record is taken",
            Slip::Records(|call, _, told, _| {
                told.block[0] += (matches!(call, Call::Records { .. }) && told.answer > 8) as u64;
            }),
        ),
        (
            "the place is behind the refused record",
            Slip::Records(|call, _, told, _| {
                told.block[2] += (matches!(call, Call::Records { .. }) && told.answer == 3) as u64;
            }),
        ),
        (
            "a finished decoder is not exported",
            Slip::Export(|g| *g.answer = if g.finished && *g.answer == 0 { 2 } else { *g.answer }),
        ),
        (
            "7 before 18",
            Slip::Export(|g| {
                if *g.answer == 18 && g.out.as_ref().is_some_and(|out| out.length() < HEAD) {
                    *g.answer = 7;
                }
            }),
        ),
        ("what is refused is told", Slip::Export(|g| g.told[0] ^= (*g.answer == 7) as u64)),
        (
            "what is refused is written",
            Slip::Export(|g| {
                if *g.answer == 7 {
                    scratch(&mut g.out, 0);
                }
            }),
        ),
        (
            "a byte behind the file is written",
            Slip::Export(|g| {
                if *g.answer == 0 {
                    scratch(&mut g.out, g.told[0] as usize);
                }
            }),
        ),
        ("events count as packets", Slip::Export(|g| g.told[1] = if *g.answer == 0 { g.rows } else { g.told[1] })),
        (
            "the zone is not 0",
            Slip::Export(|g| {
                if *g.answer == 0 {
                    scratch(&mut g.out, 8);
                }
            }),
        ),
    ];

    #[test]
    fn each_is_found() {
        for (name, slip) in SLIPS {
            assert_ne!(found(slip), 0, "{name} is not found");
        }
    }

    #[test]
    fn the_mode_is_found() {
        assert_ne!(files::<High>(&mut StandIn::<Machine>::new(none), 300, 1).differences, 0, "a port without the mode");
    }
}
