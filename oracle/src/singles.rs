//! Single calls through the entries of the library, in step with the Rust: a record in lent words, logs that change in length between calls, refused
//! calls among the others. After each call the answer, the counts and the rows that it appended are compared, and that a refused one left all as it was.

use std::collections::BTreeMap;
use std::fmt::{Display, Formatter};
use std::marker::PhantomData;
use std::ops::Range;

use crate::blocks::{DETAIL, block_of};
use crate::calls::{Calls, DEVICES, ENDPOINTS, LOGS, Mechanism, Rows, WIDTHS, event_type};
use crate::compare::{Shelves, TOLD};
use crate::generate::{Random, generate, kinds};
use crate::lent::{Log, Logs, TABLE};
use crate::mode::Mode;
use crate::pcap::{Units, import_from};
use crate::selfcheck::small;
use crate::trace::{Clock, HEADER, Reader, Record, Writer};

/// The words of a record: those of the decoder, and a row for each device (crates/handle, place).
pub const RECORD: usize = 2368;
const ROWS: usize = 64;
const ROW: usize = 36;

/// Whether a word of a record belongs to no field: then nobody writes it.
fn is_spare(word: usize) -> bool {
    if word < ROWS { word >= 34 } else { (word - ROWS) % ROW == 3 }
}

/// Where the endpoint table has an endpoint's byte total (crates/endpoints, word).
fn total_word(endpoint: u64) -> usize {
    17 * endpoint as usize + 6
}

/// What is lent to a call.
pub struct Memory {
    pub record: Log<u64>,
    pub logs: Logs,
}

impl Memory {
    /// A made-up record: endpoints have this byte total.
    fn set_totals(&mut self, endpoints: Range<u64>, total: u64) {
        for endpoint in endpoints {
            self.logs.table.cells_mut()[total_word(endpoint)] = total;
        }
    }
}

/// A call of an entry. A block's clock is whether it has started, the last counter and its time.
#[derive(Clone, Debug)]
pub enum Call<'a> {
    Fresh {
        mode: u8,
    },
    Packet {
        bytes: &'a [u8],
        time: u64,
    },
    Event {
        kind: u8,
        code: u8,
        time: u64,
    },
    Finish,
    Block {
        typed: u8,
        clock: [u64; 3],
        records: &'a [u8],
    },
    /// The records of a pcap file, without its head, and the two words of its format.
    Records {
        format: [u64; 2],
        records: &'a [u8],
    },
}

impl Call<'_> {
    fn number(&self) -> usize {
        match self {
            Call::Fresh { .. } => 0,
            Call::Packet { .. } => 1,
            Call::Event { .. } => 2,
            Call::Finish => 3,
            Call::Block { typed: 0, .. } => 4,
            Call::Block { .. } => 5,
            Call::Records { .. } => RECORDS,
        }
    }
}

/// The kinds of calls, by number. The last one is made by `compare pcap` alone (src/files.rs).
pub const CALLS: [&str; 7] = ["fresh", "packet", "event", "finish", "block", "block that obeys details", "pcap records"];
pub const RECORDS: usize = 6;

/// What a call tells: its answer; of a block also the clock behind it, and how many records were taken, the 8s among them and the place, as of pcap records.
#[derive(Copy, Clone, PartialEq, Default, Debug)]
pub struct Told {
    pub answer: u8,
    pub clock: [u64; 3],
    pub block: [u64; 3],
}

impl Told {
    /// Whether anything may have changed: else every byte is as it was.
    fn changes(&self, call: &Call) -> bool {
        match call {
            Call::Block { .. } | Call::Records { .. } => self.block[0] > 0,
            _ => self.answer == 0 || self.answer == 8,
        }
    }
}

/// Whatever has these entries.
pub trait Entries {
    fn call(&mut self, call: &Call, memory: &mut Memory) -> Told;
    /// The twelve counts that stand in the record.
    fn counts(&mut self, memory: &Memory) -> [u64; 12];
    /// The head of a pcap file: its answer and place. The two words get the format.
    fn pcap_head(&mut self, file: &[u8], format: &mut [u64; 2]) -> (u8, u64);
    /// The packets as a pcap file in `out`, or, without it, how long that would be: the answer. Told are the length, the packets and the events left behind.
    fn pcap_export(&mut self, memory: &mut Memory, out: Option<&mut Log<u8>>, told: &mut [u64; 3]) -> u8;
    /// Between two calls the record is made up.
    fn set_totals(&mut self, memory: &mut Memory, endpoints: Range<u64>, total: u64) {
        memory.set_totals(endpoints, total);
    }
}

/// The Rust, called as the entries are: a fresh decoder that is refused answers 1 to every call.
pub(crate) struct Right<M: Mechanism>(pub(crate) Calls<M>);

impl<M: Mechanism> Right<M> {
    /// Before any fresh decoder every call is answered 1.
    fn unmade() -> Self {
        Right(Calls::new(Rows(Rows::LARGEST.0.map(|rows| rows + 1)), 0, false))
    }

    fn call(&mut self, call: &Call, room: Rows) -> Told {
        let single = |answer: u8| Told { answer, ..Told::default() };
        if let Call::Fresh { .. } = call {
            self.0 = Calls::new(room, 0, false);
            return single(self.0.fresh);
        }
        self.0.lend(room);
        match *call {
            Call::Packet { bytes, time } => single(self.0.packet(bytes, time)),
            Call::Event { kind, code, time } => single(self.0.event(kind, code, time)),
            Call::Block { typed, clock, records } => {
                let block = block_of(typed != 0, &mut self.0, clock_of(clock), records);
                let taken = [block.taken, block.eights, block.place as u64];
                let clock = if block.taken == 0 { clock } else { clock_words(block.clock, clock) };
                Told { answer: block.answer, clock, block: taken }
            }
            Call::Records { format, records } => {
                let import = import_from(units_of(format), records, 0, &mut self.0);
                Told { answer: import.answer, block: [import.taken, import.eights, import.at as u64], ..Told::default() }
            }
            _ => single(self.0.finish()),
        }
    }

    /// The rows that a single call would leave, were there room; none where it would be refused all the same.
    fn wanted(&mut self, call: &Call) -> Option<Rows> {
        if self.0.fresh != 0 || self.0.finished() {
            return None;
        }
        match *call {
            Call::Packet { bytes, time } if bytes.len() <= 4096 => Some(self.0.wanted(|m| m.packet(bytes, time))),
            Call::Event { kind, code, time } => event_type(kind).map(|event| self.0.wanted(|m| m.event(event, code, time))),
            Call::Finish => Some(self.0.wanted(|m| m.finish())),
            _ => None,
        }
    }
}

/// A clock by its three words; the counter is taken modulo 2^32.
fn clock_of(words: [u64; 3]) -> Clock {
    if words[0] == 0 { Clock::default() } else { Clock::at(words[1] as u32, words[2]) }
}

/// A pcap file's format by its two words; the unit is taken modulo 2^32.
fn units_of(words: [u64; 2]) -> Units {
    Units { big: words[0] != 0, unit: words[1] as u32 }
}

/// The words of a clock that had these before. Where it has not started they tell nothing.
fn clock_words(clock: Clock, before: [u64; 3]) -> [u64; 3] {
    if clock == Clock::default() {
        return [0, before[1] % (1 << 32), before[2]];
    }
    let (last, time) = clock.state();
    [1, last as u64, time]
}

/// What was compared in a mode, and what came of it.
#[derive(Default)]
pub struct Tally<D: Mode> {
    mode: PhantomData<D>,
    pub sequences: u64,
    pub whole: u64,
    pub kinds: BTreeMap<&'static str, u64>,
    pub calls: u64,
    /// The answers to each kind of call (`CALLS`).
    pub answers: [[u64; DETAIL as usize + 1]; CALLS.len()],
    /// Rows compared of each log.
    pub rows: [u64; 12],
    /// For each log the calls with one row short that were refused with 7; those with a log too long, with one shorter than its rows, and with a count past
    /// its room.
    pub short: [u64; 12],
    pub long: [u64; 12],
    pub shorter: [u64; 12],
    pub past: [u64; 12],
    /// Calls before any fresh decoder, behind finish, and in sequences whose endpoints begin with a total near 2^64.
    pub unmade: u64,
    pub behind: u64,
    pub filled: u64,
    /// Calls on a damaged record or table by what was damaged (`DAMAGED`): answers, of the port alone.
    pub damaged: [[u64; DETAIL as usize + 1]; DAMAGED.len()],
    pub differences: u64,
}

/// What is damaged in one word.
pub const DAMAGED: [&str; 4] = ["a count, past its room", "the decoder", "the devices", "the endpoint table"];

/// The most that is lent: more than most sequences want.
pub(crate) const MOST: Rows = Rows([49_152, 66, 130, 640, 256, 640, 640, 16_384, 640, 640, 2560, 96]);

/// Of so many sequences one is compared whole after each call.
const WHOLE: u64 = 64;

/// Cells behind the rows of each log that are looked at after a refused call.
const NEAR: usize = 64;

/// So many single calls, sequence after sequence. A sequence ends at its first difference.
pub fn singles<D: Mode>(port: &mut dyn Entries, count: u64, seed: u64) -> Tally<D> {
    let mut tally = Tally::default();
    let mut run = Run::<D>::new();
    while tally.calls < count && tally.differences < TOLD {
        let number = tally.sequences;
        let mut random = Random::of(seed, number);
        let kind = random.pick(&run.kinds).0;
        *tally.kinds.entry(kind).or_default() += 1;
        run.start(number, &mut random);
        tally.whole += run.whole as u64;
        tally.sequences += 1;
        if let Err(text) = run.sequence(port, &mut tally, kind, &mut random) {
            tally.differences += 1;
            println!("differs: sequence {number} of seed {seed} ({kind}): {text}");
            run = Run::new();
        }
    }
    tally
}

type Kind = (&'static str, fn(&mut crate::generate::Bench));

/// A sequence under way.
pub(crate) struct Run<D: Mode> {
    pub(crate) kinds: Vec<Kind>,
    pub(crate) right: Right<D::Machine>,
    pub(crate) memory: Memory,
    /// The logs and the shelf as they must be.
    pub(crate) expected: Logs,
    /// The record and the table before a call that is refused.
    record: Log<u64>,
    table: Log<u64>,
    pub(crate) counts: [u64; 12],
    clock: [u64; 3],
    /// The total that endpoints begin with.
    pub(crate) total: u64,
    whole: bool,
}

impl<D: Mode> Run<D> {
    pub(crate) fn new() -> Self {
        let mut shelves = Shelves::default();
        shelves.fill();
        let logs = Logs::new(&MOST, &shelves.rust, 4);
        Run {
            kinds: kinds(D::HIGH),
            right: Right::unmade(),
            expected: logs.clone(),
            record: Log::new(RECORD, 0),
            table: logs.table.clone(),
            memory: Memory { record: Log::new(RECORD, 0), logs },
            counts: [0; 12],
            clock: [0; 3],
            total: 0,
            whole: false,
        }
    }

    /// Other words in all that is lent but for the table and the shelf, which hold what the sequence before left there.
    pub(crate) fn start(&mut self, number: u64, random: &mut Random) {
        let turn = random.next();
        self.right = Right::unmade();
        self.memory.record.fill(turn);
        if random.chance(20) {
            self.memory.record.cells_mut().fill(0);
        }
        self.memory.logs.fill(turn);
        self.expected.copy_logs(&self.memory.logs);
        self.lend(MOST, random);
        self.counts = std::array::from_fn(|log| self.memory.record.cells()[log]);
        self.clock = [0, random.next(), random.next()];
        self.total = if random.below(8) == 0 { u64::MAX - random.below(3000) } else { 0 };
        self.whole = number % WHOLE == 0;
    }

    /// The logs with this room, and some words that make no row.
    pub(crate) fn lend(&mut self, room: Rows, random: &mut Random) {
        for log in 0..12 {
            let more = random.below(WIDTHS[log] as u64) as usize;
            let most = MOST.0[log] as usize * WIDTHS[log];
            self.memory.logs.log_mut(log).lend_first((room.0[log] as usize * WIDTHS[log] + more).min(most));
        }
    }

    fn sequence(&mut self, port: &mut dyn Entries, tally: &mut Tally<D>, kind: &str, random: &mut Random) -> Result<(), String> {
        let records = random.below(400) + 1;
        let trace = generate(random.next(), records, kind).expect("a kind of the list");
        let spare = self.memory.record.clone();
        let mut with = With { run: self, port, tally, told: Told::default() };
        with.begin(random)?;
        let ends = random.chance(15).then(|| random.below(records));
        let mut reader = Reader::new(&trace);
        for number in 0.. {
            if random.below(16) == 0 {
                with.disturb(random)?;
            }
            if ends == Some(number) {
                with.end(random)?;
            }
            if !with.next(&mut reader, &trace, random)? {
                break;
            }
        }
        with.end(random)?;
        let written = |word: &usize| is_spare(*word) && self.memory.record.cells()[*word] != spare.cells()[*word];
        if let Some(word) = (0..RECORD).find(written) {
            return Err(format!("word {word} of the record, which belongs to no field, is written"));
        }
        self.all()
    }

    /// The time of a tick, by the clock; now and then any.
    fn time(&mut self, ticks: u32, random: &mut Random) -> u64 {
        if random.below(16) == 0 {
            let any = random.next();
            return random.pick(&[any, any, 0, u64::MAX]);
        }
        let mut clock = clock_of(self.clock);
        let time = clock.time(ticks);
        self.clock = clock_words(clock, self.clock);
        time
    }

    /// The shelf as it must be by now.
    fn lay_by(&mut self) {
        self.right.0.write_shelf(self.expected.shelf.cells_mut());
    }

    /// Every byte of every log and of the shelf, and the guards of the record and the table.
    pub(crate) fn all(&mut self) -> Result<(), String> {
        self.lay_by();
        self.memory.record.first(RECORD)?;
        self.memory.logs.table.first(TABLE)?;
        self.memory.logs.same(&self.expected)?;
        let shelf = self.memory.logs.shelf.differs(&self.expected.shelf);
        shelf.map_or(Ok(()), |text| Err(format!("shelf: {text}")))
    }

    /// The record and the table are as they were kept.
    pub(crate) fn kept(&self) -> Result<(), String> {
        let record = self.memory.record.differs(&self.record).map(|text| format!("record: {text}"));
        let table = || self.memory.logs.table.differs(&self.table).map(|text| format!("table: {text}"));
        record.or_else(table).map_or(Ok(()), Err)
    }

    pub(crate) fn keep(&mut self) {
        self.record.copy(&self.memory.record);
        self.table.copy(&self.memory.logs.table);
    }

    /// The rows that an accepted call appended; they are what must stand there from now on.
    fn appended(&mut self, from: [u64; 12], rows: [u64; 12]) -> Result<(), String> {
        for log in (0..12).filter(|log| rows[*log] > from[*log]) {
            let (words, at) = (self.right.0.log_words_from(log, from[log] as usize), from[log] as usize * WIDTHS[log]);
            self.expected.log_mut(log).write(at, &words);
            if let Some(word) = self.memory.logs.log(log).lacks(at, &words) {
                let row = from[log] as usize + word / WIDTHS[log];
                return Err(format!("{}: row {row} is not that of the Rust", LOGS[log]));
            }
        }
        Ok(())
    }

    /// Ordinary endpoints that have just come begin with the total, in the Rust and in the lent table.
    fn begin_totals(&mut self, port: &mut dyn Entries, before: u64) {
        let new = before.max(3)..self.counts[ENDPOINTS];
        if self.total > 0 && !self.right.0.finished() && !new.is_empty() {
            self.right.0.start_totals(new.start, self.total);
            port.set_totals(&mut self.memory, new, self.total);
        }
    }
}

/// A sequence under way, the port and the tally; and what the last call told.
pub(crate) struct With<'a, D: Mode> {
    pub(crate) run: &'a mut Run<D>,
    pub(crate) port: &'a mut dyn Entries,
    pub(crate) tally: &'a mut Tally<D>,
    pub(crate) told: Told,
}

impl<D: Mode> With<'_, D> {
    /// One call by both.
    pub(crate) fn step(&mut self, call: &Call) -> Result<(), String> {
        let named = || format!("{call:?}").chars().take(200).collect::<String>();
        self.compared(call).map_err(|text| format!("call {} of all, {}: {text}", self.tally.calls, named()))
    }

    fn compared(&mut self, call: &Call) -> Result<(), String> {
        let run = &mut *self.run;
        let from = match call {
            Call::Fresh { .. } => {
                run.lay_by();
                [0; 12]
            }
            _ => run.counts,
        };
        let right = run.right.call(call, run.memory.logs.room());
        let changes = right.changes(call);
        if !changes {
            run.keep();
        }
        let told = self.port.call(call, &mut run.memory);
        self.tally.calls += 1;
        self.tally.answers[call.number()][right.answer as usize] += 1;
        self.tally.filled += (run.total > 0) as u64;
        if told != right {
            return Err(format!("the Rust {right:?}, the port {told:?}"));
        }
        if changes {
            let rows = run.right.0.rows().0;
            run.appended(from, rows)?;
            run.counts = rows;
            for (sum, (rows, from)) in self.tally.rows.iter_mut().zip(rows.iter().zip(from)) {
                *sum += rows - from;
            }
        } else {
            if let Call::Fresh { .. } = call {
                // It is stored also where it is refused, with no rows.
                run.record.copy(&run.memory.record);
                run.counts = [0; 12];
            }
            run.kept()?;
            run.memory.logs.same_near(&run.expected, &near(&run.counts), NEAR)?;
        }
        let counts = self.port.counts(&run.memory);
        if counts != run.counts {
            return Err(format!("the counts of the port {counts:?}, and not {:?}", run.counts));
        }
        if run.whole {
            run.all()?;
        }
        if changes {
            run.begin_totals(self.port, from[ENDPOINTS]);
        }
        self.told = told;
        Ok(())
    }

    pub(crate) fn fresh(&mut self, random: &mut Random) -> Result<(), String> {
        let mode = if D::HIGH { random.pick(&[1, 1, 2, 255]) } else { 0 };
        self.step(&Call::Fresh { mode })
    }

    /// Calls before there is a decoder, fresh ones that are refused, and one that is not.
    fn begin(&mut self, random: &mut Random) -> Result<(), String> {
        if random.below(8) == 0 {
            for _ in 0..4 {
                self.any(random)?;
                self.tally.unmade += 1;
            }
        }
        if random.below(16) == 0 {
            self.too_long(random, Self::fresh)?;
        }
        if random.below(16) == 0 {
            self.too_small(random)?;
        }
        let room = if random.chance(15) { small(random) } else { MOST };
        self.run.lend(room, random);
        self.fresh(random)
    }

    /// On a decoder that was refused any call is answered 1; then there is a new one.
    fn anew(&mut self, random: &mut Random) -> Result<(), String> {
        self.any(random)?;
        self.fresh(random)
    }

    /// A fresh decoder on logs too small for its four rows.
    fn too_small(&mut self, random: &mut Random) -> Result<(), String> {
        let before = self.run.memory.logs.room();
        let (log, most) = random.pick(&[(DEVICES, 1), (ENDPOINTS, 3)]);
        let mut room = before;
        room.0[log] = random.below(most);
        self.run.lend(room, random);
        self.fresh(random)?;
        self.run.lend(before, random);
        Ok(())
    }

    /// The call of the next record of a trace, or of some, and false at its end.
    fn next(&mut self, reader: &mut Reader, trace: &[u8], random: &mut Random) -> Result<bool, String> {
        let from = reader.at;
        let Some(Ok(record)) = reader.next() else { return Ok(false) };
        let single = random.below(16) > 0;
        match record {
            Record::Packet { ticks, bytes } if single => {
                let time = self.run.time(ticks, random);
                self.single(&Call::Packet { bytes, time }, random)?;
            }
            Record::Event { ticks, kind, code } if single => {
                let time = self.run.time(ticks, random);
                self.single(&Call::Event { kind, code, time }, random)?;
            }
            // For details there is no other entry.
            _ => {
                let mut last = Reader::new(trace);
                last.at = reader.at;
                for _ in 0..random.pick(&[0, 0, 1, 2, 5, 20]) {
                    last.next();
                }
                let cut = if random.below(8) == 0 { random.below(7) as usize } else { 0 };
                let typed = if random.chance(90) { random.pick(&[1, 1, 1, 255]) } else { 0 };
                self.block(typed, &trace[from..last.at - cut.min(last.at - from)])?;
                // Of a block that takes nothing the first record is passed over.
                let place = self.told.block[2] as usize;
                reader.at = if place > 0 { from + place } else { reader.at };
            }
        }
        Ok(true)
    }

    /// A single call; now and then with one row short before, or on a damaged record.
    fn single(&mut self, call: &Call, random: &mut Random) -> Result<(), String> {
        let lent = if random.below(32) == 0 { self.one_short(call, random)? } else { None };
        if random.below(64) == 0 {
            self.damaged(call, random)?;
        }
        self.step(call)?;
        if let Some(room) = lent {
            self.run.lend(room, random);
        }
        Ok(())
    }

    /// A block with the sequence's clock.
    pub(crate) fn block(&mut self, typed: u8, records: &[u8]) -> Result<(), String> {
        self.step(&Call::Block { typed, clock: self.run.clock, records })?;
        self.run.clock = self.told.clock;
        Ok(())
    }

    /// The same call with one row short in one log, which is refused; then that log has just the rows. The room before is given back.
    fn one_short(&mut self, call: &Call, random: &mut Random) -> Result<Option<Rows>, String> {
        let Some(wanted) = self.run.right.wanted(call) else { return Ok(None) };
        let before = self.run.memory.logs.room();
        let grown: Vec<usize> = (0..12).filter(|log| wanted.0[*log] > self.run.counts[*log]).collect();
        let fits = (0..12).all(|log| wanted.0[log] <= before.used().0[log]);
        if grown.is_empty() || !fits {
            return Ok(None);
        }
        let log = random.pick(&grown);
        let mut room = before;
        room.0[log] = wanted.0[log] - 1;
        self.run.lend(room, random);
        self.step(call)?;
        self.tally.short[log] += (self.told.answer == 7) as u64;
        room.0[log] += 1;
        self.run.lend(room, random);
        Ok(Some(before))
    }

    /// Finish, calls behind it, and most times a fresh decoder.
    fn end(&mut self, random: &mut Random) -> Result<(), String> {
        self.single(&Call::Finish, random)?;
        for _ in 0..random.below(4) {
            self.tally.behind += self.run.right.0.finished() as u64;
            self.any(random)?;
        }
        if random.chance(75) {
            self.run.lend(MOST, random);
            self.fresh(random)?;
        }
        Ok(())
    }

    /// A call of any kind but fresh.
    fn any(&mut self, random: &mut Random) -> Result<(), String> {
        match random.below(4) {
            0 => self.step(&Call::Packet { bytes: &[0xD2], time: random.next() }),
            1 => self.step(&Call::Event { kind: random.below(9) as u8, code: 1, time: random.next() }),
            2 => self.step(&Call::Finish),
            _ => self.odd_block(random),
        }
    }

    /// What no trace brings, or seldom.
    fn disturb(&mut self, random: &mut Random) -> Result<(), String> {
        match random.below(16) {
            0 | 1 => {
                let length = random.pick(&[0, 1, 4096, 4097, 4097, 4098, 5000, 65_536]);
                let bytes = random.bytes(length);
                self.step(&Call::Packet { bytes: &bytes, time: random.next() })
            }
            2 | 3 => {
                let kind = 8 + random.below(248) as u8;
                self.step(&Call::Event { kind, code: random.next() as u8, time: random.next() })
            }
            4..7 => self.odd_block(random),
            7 | 8 => self.other_lengths(random),
            9..12 => self.shorter(random, Self::any),
            12 => self.too_long(random, Self::any),
            13 => {
                self.too_small(random)?;
                self.anew(random)
            }
            14 => match random.below(8) {
                0 => self.fresh(random),
                _ => {
                    self.too_long(random, Self::fresh)?;
                    self.anew(random)
                }
            },
            _ => self.any(random),
        }
    }

    /// Blocks of one record that is refused in one way or another, of none, and details that are wrong.
    fn odd_block(&mut self, random: &mut Random) -> Result<(), String> {
        let mut one = Writer::default();
        let typed = random.pick(&[0, 1, 1, 2, 255]);
        match random.below(6) {
            0 => one.detail(
                random.below(4) as u8,
                random.pick(&[0, 16, 17, 255]),
                random.below(3) as u8,
                random.below(5) as u8,
                64,
            ),
            1 => one.detail(random.pick(&[99, 128, 255]), 1, 0, 2, 64),
            2 => one.packet(random.next() as u32, &random.bytes(4097)),
            3 => one.event(random.next() as u32, random.below(256) as u8, 0),
            4 => one.bytes.push(random.pick(&[3, 4, 128, 255])),
            _ => {}
        }
        let mut records = one.bytes.split_off(HEADER);
        if random.below(8) == 0 {
            records.pop();
        }
        self.block(typed, &records)
    }

    /// Other lengths from here on: each log with all that there is, or with a few rows more than it has.
    fn other_lengths(&mut self, random: &mut Random) -> Result<(), String> {
        let mut room = MOST;
        for log in 0..12 {
            if random.below(4) == 0 && self.run.counts[log] < MOST.0[log] {
                room.0[log] = (self.run.counts[log] + random.pick(&[0, 1, 2, 8, 64])).min(MOST.0[log]);
            }
        }
        self.run.lend(room, random);
        self.appending(random)?;
        // A log that is full seldom stays so.
        if random.chance(85) {
            self.run.lend(MOST, random);
        }
        Ok(())
    }

    /// A packet or an event that appends rows.
    fn appending(&mut self, random: &mut Random) -> Result<(), String> {
        let packets: [&[u8]; 4] = [&[0xD2], &[0x69, 0x00, 0x10], &[0xA5, 0x00, 0x10], &[]];
        match random.below(5) {
            4 => self.step(&Call::Event { kind: random.below(8) as u8, code: 7, time: random.next() }),
            i => self.step(&Call::Packet { bytes: packets[i as usize], time: random.next() }),
        }
    }

    /// A call on logs of which one is shorter than its rows.
    pub(crate) fn shorter(
        &mut self,
        random: &mut Random,
        act: impl FnOnce(&mut Self, &mut Random) -> Result<(), String>,
    ) -> Result<(), String> {
        let before = self.run.memory.logs.room();
        let log = random.below(12) as usize;
        if self.run.counts[log] == 0 || self.run.counts[log] > MOST.0[log] {
            return Ok(());
        }
        let mut room = before;
        room.0[log] = random.pick(&[self.run.counts[log] - 1, 0, self.run.counts[log] / 2]);
        self.run.lend(room, random);
        self.tally.shorter[log] += 1;
        act(self, random)?;
        self.run.lend(before, random);
        Ok(())
    }

    /// A call, or a fresh decoder, with a log that is too long in the place of one.
    pub(crate) fn too_long(
        &mut self,
        random: &mut Random,
        act: impl FnOnce(&mut Self, &mut Random) -> Result<(), String>,
    ) -> Result<(), String> {
        let log = random.below(12) as usize;
        let length = (Rows::LARGEST.0[log] as usize + 1) * WIDTHS[log] + random.pick(&[0, 0, 1, 1000]);
        self.run.memory.logs.log_mut(log).lend_zeros(length);
        let stepped = act(self, random);
        let written = self.run.memory.logs.log_mut(log).put_back();
        self.tally.long[log] += 1;
        stepped?;
        written.map_err(|text| format!("a log too long: {text}"))
    }

    /// One word of the record or of the table is another from here on.
    pub(crate) fn damage(&mut self, random: &mut Random) -> Damage {
        let run = &mut *self.run;
        let (record, table) = (run.memory.record.clone(), run.memory.logs.table.clone());
        let what = random.below(DAMAGED.len() as u64) as usize;
        let log = random.below(12) as usize;
        match what {
            0 => {
                run.memory.record.cells_mut()[log] =
                    run.memory.logs.room().used().0[log].saturating_add(random.pick(&[1, 1, 1 << 40]))
            }
            1 => changed(&mut run.memory.record.cells_mut()[..ROWS], random),
            2 => changed(&mut run.memory.record.cells_mut()[ROWS..], random),
            _ => changed(run.memory.logs.table.cells_mut(), random),
        }
        run.keep();
        self.tally.past[log] += (what == 0) as u64;
        Damage { what, log, record, table }
    }

    pub(crate) fn mend(&mut self, damage: &Damage) {
        self.run.memory.record.copy(&damage.record);
        self.run.memory.logs.table.copy(&damage.table);
    }

    /// The port alone on a record or a table with one word changed. Refused, the call leaves all; a count past its room is refused with 1. Accepted, it
    /// writes nothing that is not lent: what else it does the Rust can't be asked. Then all is put back.
    pub(crate) fn damaged(&mut self, call: &Call, random: &mut Random) -> Result<(), String> {
        if self.run.right.0.fresh != 0 {
            return Ok(());
        }
        self.run.lay_by();
        let damage = self.damage(random);
        let run = &mut *self.run;
        let told = self.port.call(call, &mut run.memory);
        self.tally.calls += 1;
        self.tally.damaged[damage.what][told.answer as usize] += 1;
        let fault = if told.changes(call) {
            let outside = run.memory.logs.same_outside(&run.expected);
            run.memory.logs.copy_logs(&run.expected);
            run.memory.logs.shelf.copy(&run.expected.shelf);
            outside
        } else {
            run.kept().and_then(|()| run.all())
        };
        self.mend(&damage);
        fault.map_err(|text| format!("on a damaged record ({damage}), answer {}: {text}", told.answer))?;
        if damage.is_past() && told.answer != 1 {
            return Err(format!("on a damaged record ({damage}): answer {}, and not 1", told.answer));
        }
        Ok(())
    }
}

/// What was damaged (`DAMAGED`), the log whose count it is, and the record and the table before it.
pub(crate) struct Damage {
    what: usize,
    log: usize,
    record: Log<u64>,
    table: Log<u64>,
}

impl Damage {
    /// Whether a count is past its room, so that every call has to answer 1.
    pub(crate) fn is_past(&self) -> bool {
        self.what == 0
    }
}

impl Display for Damage {
    fn fmt(&self, f: &mut Formatter) -> std::fmt::Result {
        let log = if self.is_past() { format!(": {}", LOGS[self.log]) } else { String::new() };
        write!(f, "{}{log}", DAMAGED[self.what])
    }
}

/// Where the look behind the rows begins; a record without a decoder has no rows.
fn near(counts: &[u64; 12]) -> [u64; 12] {
    std::array::from_fn(|log| counts[log].min(MOST.0[log]))
}

/// One of the words is another.
fn changed(words: &mut [u64], random: &mut Random) {
    let place = random.below(words.len() as u64) as usize;
    let word = words[place];
    let other = match random.below(8) {
        0 => 0,
        1 => u64::MAX,
        2 => random.next(),
        3 => word.wrapping_add(1),
        4 => word.wrapping_sub(1),
        5 => word ^ 1 << random.below(64),
        _ => word ^ 1 << random.below(8),
    };
    words[place] = if other == word { !word } else { other };
}

/// That the comparison finds a slip, and nothing where there is none.
#[cfg(test)]
pub(crate) mod slips {
    use super::*;
    use crate::decoder::machine::Machine;
    use crate::files::exported;
    use crate::lent::Rowed;
    use crate::mode::{High, Plain};
    use crate::pcap::{HEAD, head};
    use crate::report;

    /// What is wrong with a port: it is shown the call and the counts before it, and spoils what was told or left.
    pub(crate) type Slip = fn(&Call, &[u64; 12], &mut Told, &mut Memory);

    /// The Rust as a port. Its record holds the counts, and it keeps the rest itself: a record or a table that is another than it left is ill.
    pub(crate) struct StandIn<M: Mechanism> {
        right: Right<M>,
        record: Log<u64>,
        table: Log<u64>,
        slip: Slip,
    }

    impl<M: Mechanism> StandIn<M> {
        pub(crate) fn new(slip: Slip) -> Self {
            StandIn { right: Right::unmade(), record: Log::new(RECORD, 1), table: Log::new(TABLE, 1), slip }
        }

        pub(crate) fn finished(&self) -> bool {
            self.right.0.finished()
        }

        fn is_ill(&self, memory: &Memory) -> bool {
            memory.record.differs(&self.record).or(memory.logs.table.differs(&self.table)).is_some()
        }

        fn keep(&mut self, memory: &Memory) {
            self.record.copy(&memory.record);
            self.table.copy(&memory.logs.table);
        }

        fn store(&mut self, from: [u64; 12], memory: &mut Memory) {
            let rows = self.right.0.rows().0;
            for log in (0..12).filter(|log| rows[*log] > from[*log]) {
                let words = self.right.0.log_words_from(log, from[log] as usize);
                memory.logs.log_mut(log).write(from[log] as usize * WIDTHS[log], &words);
            }
            memory.record.cells_mut()[..12].copy_from_slice(&rows);
            self.right.0.write_shelf(memory.logs.shelf.cells_mut());
        }
    }

    impl<M: Mechanism> Entries for StandIn<M> {
        fn call(&mut self, call: &Call, memory: &mut Memory) -> Told {
            let fresh = matches!(call, Call::Fresh { .. });
            let (counts, room) = (self.counts(memory), memory.logs.room());
            if !fresh && self.is_ill(memory) {
                return Right::<M>::unmade().call(call, room);
            }
            let mut told = self.right.call(call, room);
            if told.changes(call) {
                self.store(if fresh { [0; 12] } else { counts }, memory);
            } else if fresh {
                memory.record.cells_mut()[..12].fill(0);
            }
            (self.slip)(call, &counts, &mut told, memory);
            self.keep(memory);
            told
        }

        fn counts(&mut self, memory: &Memory) -> [u64; 12] {
            std::array::from_fn(|log| memory.record.cells()[log])
        }

        fn pcap_head(&mut self, file: &[u8], format: &mut [u64; 2]) -> (u8, u64) {
            match head(file) {
                Ok(read) => {
                    let units = Units::from(read);
                    *format = [units.big as u64, units.unit as u64];
                    (0, HEAD as u64)
                }
                Err(refused) => (refused.answer, refused.at as u64),
            }
        }

        /// By the rows that are lent, as far as the record is well.
        fn pcap_export(&mut self, memory: &mut Memory, out: Option<&mut Log<u8>>, told: &mut [u64; 3]) -> u8 {
            self.right.0.lend(memory.logs.room());
            if self.is_ill(memory) || self.right.0.is_ill() {
                return 1;
            }
            let (file, packets, events) = match exported(&memory.logs, &self.counts(memory)) {
                Ok(made) => (made.file, made.packets, made.events),
                Err(answer) => return answer,
            };
            if let Some(out) = out {
                if out.length() < file.len() {
                    return 7;
                }
                out.cells_mut()[..file.len()].copy_from_slice(&file);
            }
            *told = [file.len() as u64, packets as u64, events as u64];
            0
        }

        fn set_totals(&mut self, memory: &mut Memory, endpoints: Range<u64>, total: u64) {
            self.right.0.start_totals(endpoints.start, total);
            memory.set_totals(endpoints, total);
            self.keep(memory);
        }
    }

    pub(crate) fn none(_: &Call, _: &[u64; 12], _: &mut Told, _: &mut Memory) {}

    #[test]
    fn none_is_found() {
        assert!(report::calls(&singles::<Plain>(&mut StandIn::<Machine>::new(none), 200_000, 1)));
        assert!(report::calls(&singles::<High>(&mut StandIn::<<High as Mode>::Machine>::new(none), 200_000, 1)));
    }

    #[test]
    fn the_mode_is_found() {
        assert_ne!(singles::<High>(&mut StandIn::<Machine>::new(none), 20_000, 1).differences, 0, "a port without the mode");
        let high = singles::<Plain>(&mut StandIn::<<High as Mode>::Machine>::new(none), 100_000, 1);
        assert_ne!(high.differences, 0, "a port always in the mode");
    }

    /// An answer in the place of another.
    fn swapped(told: &mut Told, from: u8, to: u8) {
        if told.answer == from {
            told.answer = to;
        }
    }

    /// One cell of a log behind so many rows of it is changed, where there is one.
    fn behind(memory: &mut Memory, log: usize, rows: &[u64; 12]) {
        let at = rows[log] as usize * WIDTHS[log];
        if rows[log] < MOST.0[log] && at < memory.logs.log(log).length() {
            let word = (0..=255).find(|word| memory.logs.log(log).lacks(at, &[*word]).is_some());
            memory.logs.log_mut(log).write(at, &[word.expect("a word that does not stand there")]);
        }
    }

    fn refused(call: &Call, told: &Told) -> bool {
        !told.changes(call)
    }

    /// The slips of single calls.
    const SLIPS: [(&str, Slip); 24] = [
        ("a refused call writes a byte", |call, rows, told, memory| {
            if refused(call, told) {
                behind(memory, crate::calls::BYTES, rows);
            }
        }),
        ("a refused call writes a link row", |call, rows, told, memory| {
            if refused(call, told) {
                behind(memory, crate::calls::LINKS, rows);
            }
        }),
        ("a refused call writes its record", |call, _, told, memory| {
            if refused(call, told) {
                memory.record.cells_mut()[20] ^= 1;
            }
        }),
        ("a refused call writes the table", |call, _, told, memory| {
            if refused(call, told) {
                memory.logs.table.cells_mut()[2000] ^= 1;
            }
        }),
        ("a refused call writes the shelf", |call, _, told, memory| {
            if refused(call, told) {
                memory.logs.shelf.cells_mut()[5] ^= 1;
            }
        }),
        ("a call behind finish writes an old row", |_, rows, told, memory| {
            if told.answer == 2 {
                behind(memory, DEVICES, &rows.map(|_| 0));
            }
        }),
        ("a refused fresh decoder is not stored", |call, rows, told, memory| {
            if matches!(call, Call::Fresh { .. }) && told.answer != 0 {
                memory.record.cells_mut()[..12].copy_from_slice(rows);
            }
        }),
        ("8 for 0", |_, _, told, _| swapped(told, 0, 8)),
        ("0 for 8", |_, _, told, _| swapped(told, 8, 0)),
        ("7 for 9", |_, _, told, _| swapped(told, 9, 7)),
        ("1 for 7", |_, _, told, _| swapped(told, 7, 1)),
        ("1 for 2", |_, _, told, _| swapped(told, 2, 1)),
        ("2 for 1", |_, _, told, _| swapped(told, 1, 2)),
        ("3 for 4", |_, _, told, _| swapped(told, 4, 3)),
        ("4 for 3", |_, _, told, _| swapped(told, 3, 4)),
        ("6 for 5", |_, _, told, _| swapped(told, 5, 6)),
        ("a row is lost", |call, rows, told, memory| {
            if matches!(call, Call::Event { .. }) && !refused(call, told) {
                behind(memory, crate::calls::EVENTS, rows);
            }
        }),
        ("a count is wrong", |call, _, told, memory| {
            if matches!(call, Call::Finish) && !refused(call, told) {
                memory.record.cells_mut()[9] += 1;
            }
        }),
        ("a log is written behind its rows", |call, _, told, memory| {
            if !refused(call, told) {
                let rows = std::array::from_fn(|log| memory.record.cells()[log]);
                behind(memory, crate::calls::REQUESTS, &rows);
            }
        }),
        ("a log is written behind what is lent", |call, _, told, memory| {
            if !refused(call, told) && memory.logs.log(crate::calls::PACKETS).length() < 1000 {
                memory.logs.log_mut(crate::calls::PACKETS).write(1100, &[5]);
            }
        }),
        ("an old row is written", |call, rows, told, memory| {
            if matches!(call, Call::Packet { .. }) && !refused(call, told) && rows[crate::calls::ITEMS] > 9 {
                memory.logs.log_mut(crate::calls::ITEMS).write(2, &[77]);
            }
        }),
        ("a word of no field is written", |call, _, told, memory| {
            if !refused(call, told) {
                memory.record.cells_mut()[40] = 0;
            }
        }),
        ("a block that is refused keeps its clock", |call, _, told, _| {
            if matches!(call, Call::Block { .. }) && told.answer > 2 {
                told.clock[2] = told.clock[2].wrapping_add(1);
            }
        }),
        ("a block takes the record that is refused", |call, _, told, _| {
            if matches!(call, Call::Block { .. }) && told.answer != 0 {
                told.block[0] += 1;
            }
        }),
    ];

    #[test]
    fn each_is_found() {
        for (name, slip) in SLIPS {
            assert_ne!(singles::<Plain>(&mut StandIn::<Machine>::new(slip), 60_000, 1).differences, 0, "{name} is not found");
        }
    }

    /// A port that takes any record for well formed.
    struct Trusting(StandIn<Machine>);

    impl Entries for Trusting {
        fn call(&mut self, call: &Call, memory: &mut Memory) -> Told {
            self.0.keep(memory);
            self.0.call(call, memory)
        }

        fn counts(&mut self, memory: &Memory) -> [u64; 12] {
            self.0.counts(memory)
        }

        fn pcap_head(&mut self, file: &[u8], format: &mut [u64; 2]) -> (u8, u64) {
            self.0.pcap_head(file, format)
        }

        fn pcap_export(&mut self, memory: &mut Memory, out: Option<&mut Log<u8>>, told: &mut [u64; 3]) -> u8 {
            self.0.keep(memory);
            self.0.pcap_export(memory, out, told)
        }
    }

    #[test]
    fn trust_is_found() {
        let mut port = Trusting(StandIn::new(none));
        assert_ne!(singles::<Plain>(&mut port, 60_000, 1).differences, 0);
    }
}
