//! The comparison at scale: traces of every kind are played by the Rust and by a port, with room for each log that is enough, just enough
//! or one row short, and every row and byte that they leave is compared.

use std::collections::BTreeMap;
use std::marker::PhantomData;

use crate::calls::{Calls, LINKS, LOGS, Mechanism, REQUESTS, Rows, TRANSACTIONS, WIDTHS};
use crate::cameras;
use crate::capture::Met;
use crate::coverage::Seen;
use crate::damage::{DAMAGES, INPUTS, Made, made};
use crate::descriptors::{PART, SHELF};
use crate::generate::Random;
use crate::generate::steered::every_pair;
use crate::limits::limits;
use crate::listing::{BUFFER, listing};
use crate::mode::{Mode, Plain};
use crate::trace::{Played, play};
use crate::traces::{all, written};

/// What playing a trace leaves: its answer and offset (0 and the trace's length where it finished), and of each log the rows and their words.
/// What it leaves on the shelf stands there.
#[derive(PartialEq)]
pub struct Left {
    pub answer: u8,
    pub at: u64,
    pub rows: [u64; 12],
    pub words: [Vec<u64>; 12],
}

/// Whatever plays a trace on logs of a given room and on a lent shelf. An error is a fault that no row shows, such as a byte written beyond
/// the rows.
pub trait Port {
    fn play(&mut self, trace: &[u8], room: &Rows, shelf: &mut [u8]) -> Result<Left, String>;
}

/// Whatever lists a trace as the program does.
pub trait Lister {
    fn list(&mut self, trace: &[u8]) -> Result<Vec<u8>, String>;
}

/// A decoder made from the source, as a port.
pub struct Rust<M>(PhantomData<M>);

impl<M> Default for Rust<M> {
    fn default() -> Self {
        Rust(PhantomData)
    }
}

impl<M: Mechanism> Port for Rust<M> {
    fn play(&mut self, trace: &[u8], room: &Rows, shelf: &mut [u8]) -> Result<Left, String> {
        Ok(left(trace, play::<M>(trace, *room, 0, &mut ()), shelf))
    }
}

impl<M: Mechanism> Lister for Rust<M> {
    fn list(&mut self, trace: &[u8]) -> Result<Vec<u8>, String> {
        Ok(listing::<M>(trace, BUFFER, Rows::PROGRAM, 0).into_bytes())
    }
}

fn left<M: Mechanism>(trace: &[u8], played: Played<M>, shelf: &mut [u8]) -> Left {
    let (answer, at) = played.refused.map_or((0, trace.len()), |r| (r.answer, r.at));
    // A decoder that could not be made has no row, and wrote none.
    let (rows, words) = match played.calls {
        Some(calls) if calls.fresh == 0 => {
            calls.write_shelf(shelf);
            (calls.rows().0, calls.words())
        }
        _ => Default::default(),
    };
    Left { answer, at: at as u64, rows, words }
}

/// How the two outcomes differ, if they do.
pub fn difference(rust: &Left, port: &Left) -> Option<String> {
    if (rust.answer, rust.at) != (port.answer, port.at) {
        return Some(format!("the Rust {} at {}, the port {} at {}", rust.answer, rust.at, port.answer, port.at));
    }
    let log = (0..12).find(|i| rust.rows[*i] != port.rows[*i] || rust.words[*i] != port.words[*i])?;
    let (a, b) = (&rust.words[log], &port.words[log]);
    let word = a.iter().zip(b).position(|(x, y)| x != y).unwrap_or(a.len().min(b.len()));
    let (name, row) = (LOGS[log], word / WIDTHS[log]);
    let rows = (rust.rows[log], port.rows[log]);
    Some(format!("{name}: rows {} and {}, row {row}: the Rust {:?}, the port {:?}", rows.0, rows.1, a.get(word), b.get(word)))
}

/// Where the two shelves differ, if they do.
pub fn shelf_difference(rust: &[u8], port: &[u8]) -> Option<String> {
    // Slices are compared faster than byte by byte.
    let part = rust.chunks(PART).zip(port.chunks(PART)).position(|(a, b)| a != b)?;
    let place = (part * PART..).find(|i| rust[*i] != port[*i]).expect("a byte that differs");
    let (a, b) = (rust[place], port[place]);
    Some(format!("shelf, part {part}, byte {}: the Rust {a:02X}, the port {b:02X}", place % PART))
}

/// Two shelves that hold the same before a run, other bytes each time.
#[derive(Default)]
pub struct Shelves {
    turn: u8,
    before: Vec<u8>,
    pub rust: Vec<u8>,
    pub port: Vec<u8>,
}

impl Shelves {
    pub fn fill(&mut self) {
        if self.before.is_empty() {
            self.before = Random::new(2).bytes(SHELF as u64);
        }
        self.turn = self.turn.wrapping_add(1);
        for shelf in [&mut self.rust, &mut self.port] {
            shelf.clear();
            shelf.extend(self.before.iter().map(|byte| byte.wrapping_add(self.turn)));
        }
    }

    pub fn difference(&self) -> Option<String> {
        shelf_difference(&self.rust, &self.port)
    }

    /// The bytes that the Rust wrote.
    pub fn written(&self) -> u64 {
        let changed = |(now, before): (&u8, &u8)| *now != before.wrapping_add(self.turn);
        self.rust.iter().zip(&self.before).filter(|pair| changed(*pair)).count() as u64
    }
}

/// What was compared in a mode, and what came of it.
#[derive(Default)]
pub struct Tally<D: Mode> {
    mode: PhantomData<D>,
    pub traces: u64,
    pub kinds: BTreeMap<&'static str, u64>,
    pub damages: [u64; DAMAGES.len()],
    /// Traces played through the port, and the answers that ended them.
    pub runs: u64,
    pub ends: [u64; 14],
    /// Rows compared of each log, and link rows of each kind.
    pub rows: [u64; 12],
    pub links: [u64; 4],
    /// Runs with just the rows that a trace wants, and for each log those that had one row fewer and were refused with 7.
    pub enough: u64,
    pub short: [u64; 12],
    /// Traces refused for want of a 65th device, and of a 129th endpoint.
    pub full: [u64; 2],
    /// Of which logs the program ran out.
    pub wanting: [u64; 12],
    /// Listings compared by their first word (a listing, `refused` with its number, `too long`).
    pub listings: BTreeMap<String, u64>,
    /// The shelves of the run under way, the bytes that traces changed on them, and how often each kind of note was met.
    shelves: Shelves,
    pub shelved: u64,
    pub notes: [u64; 4],
    /// The transaction rows of each reason, 0 among them.
    pub reasons: [u64; 5],
    /// The group rows by what wrote them (`report::WRITERS`).
    pub writers: [u64; 4],
    /// How details and descriptors met (`report::MET`), and the listings that end with the line of details.
    pub met: [u64; 3],
    pub typed: u64,
    pub seen: Seen,
    pub differences: u64,
}

/// Where no more differences are told.
pub(crate) const TOLD: u64 = 20;

impl<D: Mode> Tally<D> {
    fn differ(&mut self, text: String) {
        self.differences += 1;
        if self.differences <= TOLD {
            println!("differs: {text}");
        }
    }

    /// One trace with one room: the Rust, the counting Rust and the port.
    fn run(&mut self, port: &mut dyn Port, trace: &[u8], room: &Rows, what: &str) -> Left {
        self.shelves.fill();
        let played = play::<D::Machine>(trace, *room, 0, &mut ());
        self.written_by(&played);
        if let Some(Met { obeyed, unheard, overridden }) = played.calls.as_ref().map(Calls::met) {
            self.met.iter_mut().zip([obeyed, unheard, overridden]).for_each(|(sum, n)| *sum += n);
        }
        let rust = left(trace, played, &mut self.shelves.rust);
        let counted = left(trace, play::<D::Counted>(trace, *room, 0, &mut self.seen), &mut []);
        if let Some(text) = difference(&rust, &counted) {
            self.differ(format!("{what}: counting changes what the Rust does: {text}"));
        }
        let played = port.play(trace, room, &mut self.shelves.port);
        match played.map(|port| difference(&rust, &port).or_else(|| self.shelves.difference())) {
            Ok(None) => {}
            Ok(Some(text)) | Err(text) => self.differ(format!("{what}, room {:?}: {text}", room.0)),
        }
        self.shelved += self.shelves.written();
        for row in rust.words[REQUESTS].chunks(WIDTHS[REQUESTS]) {
            self.notes[row[3] as usize % 4] += 1;
        }
        self.runs += 1;
        self.ends[rust.answer as usize] += 1;
        for (sum, rows) in self.rows.iter_mut().zip(rust.rows) {
            *sum += rows;
        }
        for row in rust.words[LINKS].chunks(WIDTHS[LINKS]) {
            self.links[row[0] as usize] += 1;
        }
        for row in rust.words[TRANSACTIONS].chunks(WIDTHS[TRANSACTIONS]) {
            self.reasons[row[1] as usize] += 1;
        }
        rust
    }

    /// What wrote the group rows. An event's own row is on endpoint 0, and the others it writes come before its packet row.
    fn written_by(&mut self, played: &Played<D::Machine>) {
        let Some(calls) = &played.calls else { return };
        let capture = calls.machine.capture();
        for (i, (row, stamp)) in capture.group_index.rows.iter().zip(calls.stamps()).enumerate() {
            let event = capture.event_index.stream.rows.binary_search(&stamp.packet).is_ok();
            let writer = match (i < calls.unfinished(), event, row.endpoint_id().value) {
                (false, ..) => 3,
                (_, false, _) => 0,
                (.., 0) => 1,
                _ => 2,
            };
            self.writers[writer] += 1;
        }
    }

    /// A trace with several rooms: just enough, one row short in one log, some more than enough, and much less in one log.
    fn rooms(&mut self, port: &mut dyn Port, trace: &[u8], what: &str, random: &mut Random) {
        let (answer, enough) = wanted::<D>(trace);
        if answer == 7 {
            self.full[(enough.0[2] == 128) as usize] += 1;
        }
        self.run(port, trace, &enough, what);
        self.enough += 1;
        let log = (0..12).map(|i| (self.traces as usize + i) % 12).find(|i| enough.0[*i] > 0).expect("a log with rows");
        self.one_short(port, trace, &enough, log, what);
        let more = Rows(enough.0.map(|rows| rows + random.below(5)));
        self.run(port, trace, &more, what);
        let mut less = more;
        let log = random.below(12) as usize;
        less.0[log] = random.below(less.0[log] + 1);
        self.run(port, trace, &less, what);
    }

    fn one_short(&mut self, port: &mut dyn Port, trace: &[u8], enough: &Rows, log: usize, what: &str) {
        let mut short = *enough;
        short.0[log] -= 1;
        if self.run(port, trace, &short, what).answer == 7 {
            self.short[log] += 1;
        }
    }

    fn trace(&mut self, port: &mut dyn Port, lister: &mut dyn Lister, made: Made, what: &str, random: &mut Random) {
        *self.kinds.entry(made.kind).or_default() += 1;
        if let Some(damage) = made.damage {
            self.damages[damage] += 1;
        }
        self.rooms(port, &made.bytes, what, random);
        self.listed(lister, &made.bytes, what);
        self.program_limit(lister, &made.bytes, what);
        self.traces += 1;
    }

    /// Where the program runs out of room: of which log, and what it prints of the trace before that.
    fn program_limit(&mut self, lister: &mut dyn Lister, trace: &[u8], what: &str) {
        let refusal = |room| play::<D::Machine>(trace, room, 0, &mut ()).refused.filter(|r| r.answer == 7);
        let Some(refused) = refusal(Rows::PROGRAM).filter(|_| trace.len() <= BUFFER) else { return };
        for log in 0..12 {
            let mut room = Rows::LARGEST;
            room.0[log] = Rows::PROGRAM.0[log];
            self.wanting[log] += (refusal(room) == Some(refused)) as u64;
        }
        self.listed(lister, &trace[..refused.at], what);
    }

    /// What the program prints.
    fn listed(&mut self, lister: &mut dyn Lister, trace: &[u8], what: &str) {
        let rust = listing::<D::Machine>(trace, BUFFER, Rows::PROGRAM, 0);
        let words: Vec<&str> = rust.split(' ').take(2).collect();
        let key = if words[0] == "refused" { words.join(" ") } else { rust.lines().next().unwrap_or("").to_string() };
        *self.listings.entry(key).or_default() += 1;
        self.typed += rust.lines().last().is_some_and(|line| line.starts_with("details ")) as u64;
        match lister.list(trace) {
            Ok(port) if port == rust.as_bytes() => {}
            Ok(port) => self.differ(format!("{what}: {}", line_difference(&rust, &String::from_utf8_lossy(&port)))),
            Err(text) => self.differ(format!("{what}: {text}")),
        }
    }
}

/// The answer of a trace and the rows that it leaves where there is all the room that may be; the program's room where it leaves none.
fn wanted<D: Mode>(trace: &[u8]) -> (u8, Rows) {
    let whole = left(trace, play::<D::Machine>(trace, Rows::LARGEST, 0, &mut ()), &mut []);
    (whole.answer, if whole.rows[1] == 0 { Rows::PROGRAM } else { Rows(whole.rows) })
}

fn line_difference(rust: &str, port: &str) -> String {
    let line = rust.lines().zip(port.lines()).position(|(a, b)| a != b);
    let line = line.unwrap_or(rust.lines().count().min(port.lines().count()));
    format!("line {line}: the Rust {:?}, the program {:?}", rust.lines().nth(line), port.lines().nth(line))
}

/// The traces of `systematic`, then so many at random, each through the port with several rooms and through the program; then each log at
/// its limits.
pub fn traces<D: Mode>(port: &mut dyn Port, lister: &mut dyn Lister, count: u64, seed: u64) -> Tally<D> {
    let mut tally = Tally::default();
    for (kind, name, bytes) in systematic(D::HIGH) {
        tally.trace(port, lister, Made { bytes, kind, damage: None }, &format!("{kind}: {name}"), &mut Random::new(seed));
    }
    for i in 0..count {
        let mut random = Random::of(seed, i);
        let made = made(&mut random, D::HIGH);
        let damage = made.damage.map_or("whole", |d| DAMAGES[d].0);
        let what = format!("trace {i} of seed {seed} ({}, {damage})", made.kind);
        tally.trace(port, lister, made, &what, &mut random);
    }
    shortest(port, &mut tally);
    largest(port, &mut tally);
    tally
}

/// Traces that are the same under every seed: each packet to each transaction, each log of the program filled, and those of traces/; in the mode of
/// change request 6 those of traces/high besides.
fn systematic(high: bool) -> Vec<(&'static str, String, Vec<u8>)> {
    let pairs = every_pair().into_iter().enumerate().map(|(i, bytes)| ("every pair", i.to_string(), bytes));
    let limits = limits().into_iter().map(|(log, bytes)| ("one too many", log.to_string(), bytes));
    let named = all().into_iter().map(|(name, bytes)| ("traces/", name, bytes));
    let cameras = cameras::all().into_iter().filter(|_| high).map(|(name, bytes)| ("traces/high/", name, bytes));
    pairs.chain(limits).chain(named).chain(cameras).collect()
}

/// The traces that fill a log, with one row short in each log that they write to.
fn shortest<D: Mode>(port: &mut dyn Port, tally: &mut Tally<D>) {
    for (name, trace) in limits() {
        let (_, enough) = wanted::<D>(&trace);
        for log in (0..12).filter(|log| enough.0[*log] > 0) {
            tally.one_short(port, &trace, &enough, log, &format!("{name}, and one row short of {}", LOGS[log]));
        }
    }
}

/// Each log with the most rows that may be lent, and with one more (answer 1).
fn largest<D: Mode>(port: &mut dyn Port, tally: &mut Tally<D>) {
    let trace = written("IN 0 1; DATA0 *8; ACK; SETUP 0 0; event 1");
    for log in 0..12 {
        for more in 0..2 {
            let mut room = Rows::PROGRAM;
            room.0[log] = Rows::LARGEST.0[log] + more;
            tally.run(port, &trace, &room, &format!("{} with {} rows", LOGS[log], room.0[log]));
        }
    }
}

/// So many inputs to the program, each kind in turn.
pub fn inputs(lister: &mut dyn Lister, count: u64, seed: u64) -> Tally<Plain> {
    let mut tally = Tally::default();
    for i in 0..count {
        let mut random = Random::of(seed, i);
        let (kind, input) = INPUTS[i as usize % INPUTS.len()];
        tally.listed(lister, &input(&mut random), &format!("input {i} of seed {seed} ({kind})"));
        *tally.kinds.entry(kind).or_default() += 1;
        tally.traces += 1;
    }
    tally
}

/// That the comparison finds a slip, and nothing where there is none.
#[cfg(test)]
mod slips {
    use std::ops::Deref;
    use std::panic::{AssertUnwindSafe, catch_unwind};

    use super::*;
    use crate::calls::{EVENTS, GROUPS, PACKETS};
    use crate::decoder::machine::Machine;
    use crate::descriptors::BYTES;
    use crate::enumerations;
    use crate::trace::count_details;
    use crate::typed;

    include!(concat!(env!("OUT_DIR"), "/slips.rs"));

    /// The differences of a decoder on so many traces, or a panic of it.
    fn check<M: Mechanism>(seed: u64, count: u64) -> Result<u64, String> {
        let (mut port, mut lister) = (Rust::<M>::default(), Rust::<M>::default());
        let played = catch_unwind(AssertUnwindSafe(|| traces::<Plain>(&mut port, &mut lister, count, seed)));
        Ok(played.map_or(u64::MAX, |tally| tally.differences))
    }

    #[test]
    fn each_is_found() {
        assert_eq!(check::<Machine>(1, 50), Ok(0));
        for (name, differences) in each(1, 50) {
            assert_ne!(differences, Ok(0), "{name} is not found");
        }
    }

    /// In the mode of change request 6 (changes/high_slips.txt): those of the mode, and a decoder without it; and one in it where it is not chosen.
    mod high {
        use super::*;
        use crate::mode::High;

        include!(concat!(env!("OUT_DIR"), "/high_slips.rs"));

        /// The differences of a decoder on the traces of traces/high and on so many at random.
        fn check_in<D: Mode, M: Mechanism>(seed: u64, count: u64) -> Result<u64, String> {
            let mut tally = Tally::<D>::default();
            let random = (0..count).map(|i| made(&mut Random::of(seed, i), true).bytes);
            for trace in cameras::all().into_iter().map(|(_, trace)| trace).chain(random) {
                tally.rooms(&mut Rust::<M>::default(), &trace, "a trace of the mode", &mut Random::new(seed));
            }
            Ok(tally.differences)
        }

        fn check<M: Mechanism>(seed: u64, count: u64) -> Result<u64, String> {
            check_in::<High, M>(seed, count)
        }

        #[test]
        fn each_is_found() {
            assert_eq!(check::<<High as Mode>::Machine>(1, 50), Ok(0));
            for (name, differences) in each(1, 50) {
                assert_ne!(differences, Ok(0), "{name} is not found");
            }
            assert_ne!(check::<Machine>(1, 50), Ok(0), "a decoder that drops the mode is not found");
            assert_ne!(check_in::<Plain, <High as Mode>::Machine>(1, 50), Ok(0), "a decoder always in the mode is not found");
        }
    }

    // The mutants of change request 13 (changes/mutants.txt).
    crate::decoder_module!(detail_overrides, "/mutant_detail_overrides.rs");
    crate::decoder_module!(given_cleared, "/mutant_given_cleared.rs");
    crate::decoder_module!(detail_stays, "/mutant_detail_stays.rs");

    /// The traces of src/typed.rs whose rows differ by a decoder.
    fn shown<M: Mechanism>() -> Vec<String> {
        let rows = |trace: &[u8], port: &mut dyn Port| port.play(trace, &Rows::LARGEST, &mut [0; SHELF]).expect("rows");
        let differs = |trace: &[u8]| {
            difference(&rows(trace, &mut Rust::<Machine>::default()), &rows(trace, &mut Rust::<M>::default())).is_some()
        };
        typed::all().into_iter().filter(|(_, trace)| differs(trace)).map(|(name, _)| name).collect()
    }

    /// What a detail does beside descriptors shows in the rows of traces that are there for it, not in details alone.
    #[test]
    fn traffic_shows_what_holds() {
        assert_eq!(shown::<Machine>(), [""; 0]);
        assert_eq!(
            shown::<detail_overrides::machine::Machine>(),
            ["detail-over-descriptor", "detail-after-set-0", "detail-other-configuration", "detail-and-interface"]
        );
        assert_eq!(shown::<given_cleared::machine::Machine>(), ["detail-after-set-0"]);
        assert_eq!(
            shown::<detail_stays::machine::Machine>(),
            ["descriptor-over-detail", "detail-after-read", "detail-and-interface"]
        );
    }

    /// A program whose last line is wrong.
    struct LastLine(fn(&[u8], &str) -> String);

    impl Lister for LastLine {
        fn list(&mut self, trace: &[u8]) -> Result<Vec<u8>, String> {
            let right = listing::<Machine>(trace, BUFFER, Rows::PROGRAM, 0);
            Ok((self.0)(trace, &right).into_bytes())
        }
    }

    fn without_last(right: &str) -> String {
        right.lines().filter(|line| !line.starts_with("details ")).map(|line| format!("{line}\n")).collect()
    }

    #[test]
    fn each_is_found_in_the_last_line() {
        let slips: [(&str, fn(&[u8], &str) -> String); 4] = [
            ("no line", |_, right| without_last(right)),
            ("a line for 0", |_, right| match right.contains("\ndetails ") || !right.starts_with("UTL") {
                true => right.to_string(),
                false => format!("{right}details 0\n"),
            }),
            ("packets are counted", |_, right| match right.contains("\ndetails ") {
                true => without_last(right) + &format!("details {}\n", right.matches("\npacket ").count()),
                false => right.to_string(),
            }),
            ("a line behind a refusal", |trace, right| match right.starts_with("refused") && count_details(trace) > 0 {
                true => format!("{right}details {}\n", count_details(trace)),
                false => right.to_string(),
            }),
        ];
        for (name, slip) in slips {
            let mut tally = Tally::<Plain>::default();
            for (what, trace) in all() {
                tally.listed(&mut LastLine(slip), &trace, &what);
            }
            assert_ne!(tally.differences, 0, "{name} is not found");
        }
    }

    /// A port whose rows are right but for one word of each row of a log, which it reckons in its own way from the row's number and what is right.
    struct Reckoned {
        log: usize,
        word: usize,
        slip: Slip,
    }

    type Slip = fn(&Right, usize) -> u64;

    /// What is right, and how many group rows there were before finish.
    struct Right {
        left: Left,
        unfinished: usize,
    }

    impl Deref for Right {
        type Target = Left;

        fn deref(&self) -> &Left {
            &self.left
        }
    }

    impl Port for Reckoned {
        fn play(&mut self, trace: &[u8], room: &Rows, shelf: &mut [u8]) -> Result<Left, String> {
            let played = play::<Machine>(trace, *room, 0, &mut ());
            let unfinished = played.calls.as_ref().map_or(0, Calls::unfinished);
            let mut right = Right { left: left(trace, played, shelf), unfinished };
            let words: Vec<u64> = (0..right.rows[self.log] as usize).map(|row| (self.slip)(&right, row)).collect();
            for (row, word) in right.left.words[self.log].chunks_mut(WIDTHS[self.log]).zip(words) {
                row[self.word] = word;
            }
            Ok(right.left)
        }
    }

    /// Each is found in a word of a log by the traces of traces/.
    fn each_is_found_in(log: usize, word: usize, slips: &[(&str, Slip)]) {
        for (name, slip) in slips {
            let mut tally = Tally::<Plain>::default();
            for (what, trace) in all() {
                tally.rooms(&mut Reckoned { log, word, slip: *slip }, &trace, &what, &mut Random::new(1));
            }
            assert_ne!(tally.differences, 0, "{name} is not found");
        }
    }

    /// The packet and the reason of a transaction row.
    fn named(left: &Left, row: usize) -> (u64, u64) {
        (left.words[TRANSACTIONS][2 * row], left.words[TRANSACTIONS][2 * row + 1])
    }

    /// The bytes of the packet that a transaction row names; an event has none.
    fn bytes(left: &Left, row: usize) -> &[u64] {
        let (packet, starts) = (named(left, row).0 as usize, &left.words[PACKETS]);
        let bytes = &left.words[crate::calls::BYTES];
        let end = starts.get(2 * packet + 2).map_or(bytes.len(), |start| *start as usize);
        &bytes[starts[2 * packet] as usize..end]
    }

    #[test]
    fn each_is_found_in_the_reasons() {
        let slips: [(&str, Slip); 7] = [
            ("no reason", |_, _| 0),
            ("an event is an empty packet", |left, row| if bytes(left, row).is_empty() { 1 } else { named(left, row).1 }),
            ("the length before the PID", |left, row| match (named(left, row).1, bytes(left, row).len()) {
                (2, 2) => 3,
                (reason, _) => reason,
            }),
            ("the CRC before the length", |left, row| match (named(left, row).1, bytes(left, row).len()) {
                (3, 3..) => 4,
                (reason, _) => reason,
            }),
            ("F0 is a PID", |left, row| if bytes(left, row).first() == Some(&0xF0) { 3 } else { named(left, row).1 }),
            ("the reason of the row before", |left, row| row.checked_sub(1).map_or(0, |before| named(left, before).1)),
            ("none on a row that resumes", |left, row| match left.words[TRANSACTIONS].get(2 * row + 2) {
                Some(packet) if *packet == named(left, row).0 => 0,
                _ => named(left, row).1,
            }),
        ];
        each_is_found_in(TRANSACTIONS, 1, &slips);
    }

    /// The packet number of a group row.
    fn packet(left: &Left, row: usize) -> u64 {
        left.words[GROUPS][5 * row + 3]
    }

    /// The time of a packet row.
    fn time(left: &Left, packet: u64) -> u64 {
        left.words[PACKETS][2 * packet as usize + 1]
    }

    /// An event wrote the row, and before its own packet row: that of the event comes behind.
    fn before_event(left: &Left, row: usize) -> bool {
        left.words[GROUPS][5 * row] != 0 && left.words[EVENTS].chunks(2).any(|event| event[0] == packet(left, row))
    }

    #[test]
    fn each_is_found_in_the_stamps() {
        let numbers: [(&str, Slip); 7] = [
            ("no number", |_, _| 0),
            ("the number after the call", |right, row| packet(right, row) + 1),
            ("the number of the call before", |right, row| packet(right, row).saturating_sub(1)),
            ("the old number before an event's packet row", |right, row| packet(right, row) - before_event(right, row) as u64),
            ("events are not counted", |right, row| {
                let packet = packet(right, row);
                packet - right.words[EVENTS].chunks(2).filter(|event| event[0] < packet).count() as u64
            }),
            ("finish is a call with a packet", |right, row| packet(right, row) + (row >= right.unfinished) as u64),
            ("finish has no number", |right, row| if row < right.unfinished { packet(right, row) } else { 0 }),
        ];
        each_is_found_in(GROUPS, 3, &numbers);
        let times: [(&str, Slip); 5] = [
            ("no time", |_, _| 0),
            ("the number in place of the time", |right, row| packet(right, row)),
            ("the time of the call before", |right, row| time(right, packet(right, row).saturating_sub(1))),
            ("the old time before an event's packet row", |right, row| {
                time(right, packet(right, row) - before_event(right, row) as u64)
            }),
            ("finish has no time", |right, row| if row < right.unfinished { time(right, packet(right, row)) } else { 0 }),
        ];
        each_is_found_in(GROUPS, 4, &times);
    }

    /// A port whose rows are right, and whose shelf, which held the first bytes before and should hold the second, is left wrong.
    struct Shelved(fn(&[u8], &mut [u8]));

    impl Port for Shelved {
        fn play(&mut self, trace: &[u8], room: &Rows, shelf: &mut [u8]) -> Result<Left, String> {
            let before = shelf.to_vec();
            let left = Rust::<Machine>::default().play(trace, room, shelf);
            (self.0)(&before, shelf);
            left
        }
    }

    #[test]
    fn each_is_found_on_the_shelf() {
        let slips: [(&str, fn(&[u8], &mut [u8])); 4] = [
            ("nothing is written", |before, shelf| shelf.copy_from_slice(before)),
            ("entries are not written", |before, shelf| {
                shelf
                    .chunks_mut(PART)
                    .zip(before.chunks(PART))
                    .for_each(|(now, before)| now[BYTES..].copy_from_slice(&before[BYTES..]))
            }),
            ("the last byte is written", |_, shelf| shelf[SHELF - 1] ^= 1),
            ("another device's part is written", |_, shelf| shelf.copy_within(PART..2 * PART, 2 * PART)),
        ];
        for (name, slip) in slips {
            let mut tally = Tally::<Plain>::default();
            for (what, trace) in enumerations::all() {
                tally.rooms(&mut Shelved(slip), &trace, &what, &mut Random::new(1));
            }
            assert_ne!(tally.differences, 0, "{name} is not found");
        }
    }
}
