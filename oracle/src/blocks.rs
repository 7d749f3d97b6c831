//! Blocks of records (change request 3): what a block must answer, by single calls, and the comparison with a port that takes blocks. A detail
//! record is refused there (change request 13).

use std::marker::PhantomData;

use crate::calls::{Calls, LOGS, Mechanism, Rows};
use crate::compare::{Left, Rust, Shelves, TOLD, difference};
use crate::damage::made;
use crate::generate::Random;
use crate::mode::Mode;
use crate::trace::{Clock, HEADER, Reader, Record, Writer, call};

/// What a block answers.
#[derive(Copy, Clone, PartialEq, Debug)]
pub struct Block {
    /// 0, or the answer of the record that stopped it.
    pub answer: u8,
    /// The records before that one, and the 8s among them.
    pub taken: u64,
    pub eights: u64,
    /// Where in the block it stopped; the block's length where the answer is 0.
    pub place: usize,
    /// The tick state after the records taken.
    pub clock: Clock,
}

impl Block {
    /// As the port tells it.
    pub fn words(&self) -> [u64; 6] {
        let (last, time) = self.clock.state();
        [self.answer as u64, self.taken, self.eights, self.place as u64, last as u64, time]
    }
}

/// The answer to a detail in a block, and the bytes of such a record.
pub const DETAIL: u8 = 20;
const DETAIL_BYTES: usize = 7;

/// A block of records without header, by single calls up to the first answer other than 0 and 8. 12, 13 and 20 come before a record's call, in
/// this order.
pub fn block<M: Mechanism>(calls: &mut Calls<M>, clock: Clock, records: &[u8]) -> Block {
    block_of(false, calls, clock, records)
}

/// The same where a detail is obeyed, as in a trace, if it is typed.
pub fn block_of<M: Mechanism>(typed: bool, calls: &mut Calls<M>, clock: Clock, records: &[u8]) -> Block {
    let mut reader = Reader::records(records);
    let mut block = Block { answer: 0, taken: 0, eights: 0, place: 0, clock };
    while let Some(record) = reader.next() {
        let mut clock = block.clock;
        let answer = match record {
            Ok(Record::Detail { .. }) if !typed => DETAIL,
            Ok(record) => call(calls, &mut clock, &record),
            Err(refused) => refused.answer,
        };
        if answer != 0 && answer != 8 {
            return Block { answer, ..block };
        }
        let eights = block.eights + (answer == 8) as u64;
        block = Block { answer: 0, taken: block.taken + 1, eights, place: reader.at, clock };
    }
    block
}

/// Records without header, the tick state before them, and where they are cut.
pub struct Input<'a> {
    pub records: &'a [u8],
    pub clock: Clock,
    pub cuts: Vec<u64>,
}

/// What blocks leave: the words of each, and of the logs the same as a trace. `answer` is that of fresh, `at` the number of blocks.
pub struct Taken {
    pub blocks: Vec<[u64; 6]>,
    pub left: Left,
}

/// Whatever takes a fresh decoder and blocks on logs of a given room: a block up to each cut, and one to the end. Each begins where the one
/// before stopped, with the clock that that one left, so that a record which a cut divides is answered 13 and taken by the next. A cut behind the
/// end counts as the end, and one before the place where a block begins makes it empty. An answer other than 0 and 13 ends it. Nothing finishes.
pub trait Blocks {
    fn take(&mut self, input: &Input, room: &Rows, shelf: &mut [u8]) -> Result<Taken, String>;
}

impl<M: Mechanism> Blocks for Rust<M> {
    fn take(&mut self, input: &Input, room: &Rows, shelf: &mut [u8]) -> Result<Taken, String> {
        Ok(taken(input, room, shelf, block::<M>))
    }
}

/// All blocks by a function that takes one.
fn taken<M: Mechanism>(
    input: &Input,
    room: &Rows,
    shelf: &mut [u8],
    one: impl Fn(&mut Calls<M>, Clock, &[u8]) -> Block,
) -> Taken {
    let mut calls = Calls::<M>::new(*room, 0, false);
    if calls.fresh != 0 {
        return Taken { blocks: vec![], left: Left { answer: calls.fresh, at: 0, rows: [0; 12], words: Default::default() } };
    }
    let (mut at, mut clock, mut blocks) = (0, input.clock, Vec::new());
    for cut in input.cuts.iter().map(|cut| *cut as usize).chain([input.records.len()]) {
        let block = one(&mut calls, clock, &input.records[at..cut.clamp(at, input.records.len())]);
        at = (at + block.place).min(input.records.len());
        clock = block.clock;
        blocks.push(block.words());
        if block.answer != 0 && block.answer != 13 {
            break;
        }
    }
    calls.write_shelf(shelf);
    let left = Left { answer: 0, at: blocks.len() as u64, rows: calls.rows().0, words: calls.words() };
    Taken { blocks, left }
}

/// Where records start that can be read, and the end of the last.
fn starts(records: &[u8]) -> Vec<u64> {
    let mut starts = vec![0];
    let mut reader = Reader::records(records);
    while let Some(Ok(_)) = reader.next() {
        starts.push(reader.at as u64);
    }
    starts
}

/// Where the first detail record starts.
fn first_detail(records: &[u8]) -> Option<usize> {
    let mut reader = Reader::records(records);
    while let Some(Ok(record)) = reader.next() {
        if matches!(record, Record::Detail { .. }) {
            return Some(reader.at - DETAIL_BYTES);
        }
    }
    None
}

fn without_details(mut records: Vec<u8>) -> Vec<u8> {
    while let Some(at) = first_detail(&records) {
        records.drain(at..at + DETAIL_BYTES);
    }
    records
}

/// The records of a random trace in a mode, and its kind. A block stops at the first detail, so they are taken out; in one of eight they stay, or one is put in
/// at any place, also one that its call would refuse.
fn recorded(random: &mut Random, high: bool) -> (Vec<u8>, &'static str) {
    let made = made(random, high);
    let records = made.bytes.get(HEADER..).unwrap_or_default().to_vec();
    let typed = random.below(8) == 0;
    if typed && random.chance(50) && first_detail(&records).is_some() {
        return (records, made.kind);
    }
    let mut records = without_details(records);
    if typed {
        let mut one = Writer::default();
        let (address, number) = (random.below(5) as u8, random.pick(&[0, 1, 2, 16]));
        one.detail(address, number, random.below(2) as u8, random.below(5) as u8, 64);
        let at = random.pick(&starts(&records)) as usize;
        records.splice(at..at, one.bytes.split_off(HEADER));
    }
    (records, made.kind)
}

/// Records with a clock and cuts.
fn input<'a>(random: &mut Random, records: &'a [u8]) -> Input<'a> {
    let clock = start(random);
    let mut cuts = cuts(random, records);
    if let Some(detail) = first_detail(records) {
        around(random, detail as u64, &mut cuts);
    }
    Input { records, clock, cuts }
}

/// Some more cuts: before a detail, behind it, inside it.
fn around(random: &mut Random, detail: u64, cuts: &mut Vec<u64>) {
    let (before, behind) = (detail, detail + DETAIL_BYTES as u64);
    let inside = detail + 1 + random.below(DETAIL_BYTES as u64 - 1);
    let more: &[u64] = match random.below(6) {
        0 => &[before],
        1 => &[behind],
        2 => &[before, behind],
        3 => &[inside],
        4 => &[inside, behind],
        _ => &[],
    };
    for cut in more {
        let place = cuts.iter().position(|other| other > cut).unwrap_or(cuts.len());
        cuts.insert(place, *cut);
    }
}

/// Cuts of some records: between two of them, inside one (its head or its bytes), twice at one place, going back, and behind the end.
fn cuts(random: &mut Random, records: &[u8]) -> Vec<u64> {
    let starts = starts(records);
    let length = records.len() as u64;
    let most = random.pick(&[0, 1, 3, 8, 40]);
    let mut cuts: Vec<u64> = (0..random.below(most + 1))
        .map(|_| match random.below(8) {
            0..4 => random.pick(&starts),
            4 | 5 => random.pick(&starts) + random.below(8),
            _ => random.below(length + 1),
        })
        .collect();
    cuts.sort();
    if random.chance(10) {
        cuts.push(length + random.below(3));
    }
    if random.chance(10) {
        cuts.push(random.pick(&[0, length / 2, u64::MAX]));
    }
    if let (true, Some(cut)) = (random.chance(20), cuts.first().copied()) {
        cuts.insert(0, cut);
    }
    cuts
}

/// A clock that has not started, one that has, one that is about to pass 2^64 - 1.
fn start(random: &mut Random) -> Clock {
    match random.below(4) {
        0 => Clock::default(),
        1 => Clock::at(random.next() as u32, u64::MAX - random.below(5000)),
        _ => Clock::at(random.next() as u32, random.next()),
    }
}

/// What was compared in a mode, and what came of it.
#[derive(Default)]
pub struct Tally<D: Mode> {
    mode: PhantomData<D>,
    pub runs: u64,
    pub blocks: u64,
    pub records: u64,
    pub eights: u64,
    /// Blocks that were empty, and records that a cut divided and the next block took.
    pub empty: u64,
    pub divided: u64,
    /// Runs refused with 7 for one row short, and blocks by their answers (and runs in which fresh was refused).
    pub short: u64,
    pub ends: [u64; DETAIL as usize + 1],
    /// Details by where they stood (`DETAILS`): one may count twice.
    pub details: [u64; 4],
    /// The shelves of the run under way, and the bytes that runs changed on them.
    shelves: Shelves,
    pub shelved: u64,
    pub differences: u64,
}

/// Where in its block a detail stands that is refused.
pub const DETAILS: [&str; 4] =
    ["the first record of a block", "behind other records", "the last record of a block", "cut by the block before"];

impl<D: Mode> Tally<D> {
    fn run(&mut self, port: &mut dyn Blocks, input: &Input, room: &Rows, what: &str) -> Taken {
        self.shelves.fill();
        let rust = taken(input, room, &mut self.shelves.rust, block::<D::Machine>);
        let took = port.take(input, room, &mut self.shelves.port);
        self.shelved += self.shelves.written();
        if let Some(text) = took.map_or_else(Some, |port| differs(&rust, &port).or_else(|| self.shelves.difference())) {
            self.differences += 1;
            if self.differences <= TOLD {
                println!("differs: {what}, cuts {:?}, clock {:?}, room {:?}: {text}", input.cuts, input.clock, room.0);
            }
        }
        self.count(&rust);
        self.count_details(input, &rust);
        rust
    }

    /// A detail ends a run: it is refused in the last block.
    fn count_details(&mut self, input: &Input, rust: &Taken) {
        let Some(([answer, taken, _, place, ..], before)) = rust.blocks.split_last() else { return };
        if *answer != DETAIL as u64 {
            return;
        }
        let detail = before.iter().map(|block| block[3]).sum::<u64>() + place;
        let end = input.cuts.get(before.len()).copied().unwrap_or(u64::MAX).min(input.records.len() as u64);
        let cut = *taken == 0 && before.last().is_some_and(|block| block[0] == 13);
        let stands = [*taken == 0, *taken > 0, end == detail + DETAIL_BYTES as u64, cut];
        for (count, stands) in self.details.iter_mut().zip(stands) {
            *count += stands as u64;
        }
    }

    fn count(&mut self, rust: &Taken) {
        self.runs += 1;
        for (i, [answer, taken, eights, place, ..]) in rust.blocks.iter().enumerate() {
            self.blocks += 1;
            self.records += taken;
            self.eights += eights;
            self.empty += ((*answer, *place) == (0, 0)) as u64;
            self.divided += (*answer == 13 && rust.blocks.get(i + 1).is_some_and(|next| next[1] > 0)) as u64;
            self.ends[*answer as usize] += 1;
        }
        self.ends[rust.left.answer as usize] += (rust.left.answer != 0) as u64;
    }
}

fn differs(rust: &Taken, port: &Taken) -> Option<String> {
    let place = (0..rust.blocks.len().max(port.blocks.len())).find(|i| rust.blocks.get(*i) != port.blocks.get(*i));
    match place {
        Some(i) => Some(format!("block {i}: the Rust {:?}, the port {:?}", rust.blocks.get(i), port.blocks.get(i))),
        None => difference(&rust.left, &port.left),
    }
}

/// So many traces in blocks, each with room for just its rows, with a few more, and with one row fewer in one log (the logs in turn).
pub fn blocks<D: Mode>(port: &mut dyn Blocks, count: u64, seed: u64) -> Tally<D> {
    let mut tally = Tally::default();
    for i in 0..count {
        let mut random = Random::of(seed, i);
        let (records, kind) = recorded(&mut random, D::HIGH);
        let input = input(&mut random, &records);
        let what = format!("trace {i} of seed {seed} ({kind})");
        let enough = Rows(taken(&input, &Rows::LARGEST, &mut [], block::<D::Machine>).left.rows);
        tally.run(port, &input, &enough, &what);
        tally.run(port, &input, &Rows(enough.0.map(|rows| rows + random.below(5))), &what);
        let log = (i as usize..).map(|k| k % LOGS.len()).find(|log| enough.0[*log] > 0).expect("a log with rows");
        let mut short = enough;
        short.0[log] -= 1;
        let left = tally.run(port, &input, &short, &what);
        tally.short += (left.left.answer == 7 || left.blocks.iter().any(|block| block[0] == 7)) as u64;
    }
    tally
}

/// That cuts change nothing, and that the comparison finds a slip and nothing where there is none.
#[cfg(test)]
mod tests {
    use super::*;
    use crate::decoder::machine::Machine;
    use crate::mode::{High, Plain};
    use crate::report;

    type One = fn(&mut Calls<Machine>, Clock, &[u8]) -> Block;

    /// A port that takes one block in its own way.
    struct Slip(One);

    impl Blocks for Slip {
        fn take(&mut self, input: &Input, room: &Rows, shelf: &mut [u8]) -> Result<Taken, String> {
            Ok(taken(input, room, shelf, self.0))
        }
    }

    /// The clock after the refused record too.
    fn clock_of_refused(calls: &mut Calls<Machine>, clock: Clock, records: &[u8]) -> Block {
        let mut b = block(calls, clock, records);
        if let Some(Ok(record)) = Reader::records(&records[b.place..]).next() {
            call(&mut Calls::<Machine>::new(Rows::PROGRAM, 0, false), &mut b.clock, &record);
        }
        b
    }

    fn clock_anew(calls: &mut Calls<Machine>, _: Clock, records: &[u8]) -> Block {
        block(calls, Clock::default(), records)
    }

    fn eights_forgotten(calls: &mut Calls<Machine>, clock: Clock, records: &[u8]) -> Block {
        Block { eights: 0, ..block(calls, clock, records) }
    }

    fn eights_not_taken(calls: &mut Calls<Machine>, clock: Clock, records: &[u8]) -> Block {
        let b = block(calls, clock, records);
        Block { taken: b.taken - b.eights, ..b }
    }

    fn refused_taken(calls: &mut Calls<Machine>, clock: Clock, records: &[u8]) -> Block {
        let b = block(calls, clock, records);
        Block { taken: b.taken + (b.answer != 0) as u64, ..b }
    }

    fn behind_refused(calls: &mut Calls<Machine>, clock: Clock, records: &[u8]) -> Block {
        let b = block(calls, clock, records);
        let mut reader = Reader::records(&records[b.place..]);
        reader.next();
        Block { place: b.place + reader.at, ..b }
    }

    /// 12 and 13 before any call of the block.
    fn read_ahead(calls: &mut Calls<Machine>, clock: Clock, records: &[u8]) -> Block {
        let mut reader = Reader::records(records);
        while let Some(record) = reader.next() {
            if let Err(refused) = record {
                return Block { answer: refused.answer, taken: 0, eights: 0, place: 0, clock };
            }
        }
        block(calls, clock, records)
    }

    /// A record that is cut is left for later and no refusal.
    fn cut_is_no_refusal(calls: &mut Calls<Machine>, clock: Clock, records: &[u8]) -> Block {
        let b = block(calls, clock, records);
        Block { answer: if b.answer == 13 { 0 } else { b.answer }, ..b }
    }

    /// A detail is a call like the others.
    fn detail_obeyed(calls: &mut Calls<Machine>, clock: Clock, records: &[u8]) -> Block {
        let b = own_answer_first(calls, clock, records);
        if b.answer == DETAIL { taken_too(b, detail_obeyed(calls, b.clock, &records[b.place + DETAIL_BYTES..])) } else { b }
    }

    /// A detail is passed over.
    fn detail_ignored(calls: &mut Calls<Machine>, clock: Clock, records: &[u8]) -> Block {
        let b = block(calls, clock, records);
        if b.answer == DETAIL { taken_too(b, detail_ignored(calls, b.clock, &records[b.place + DETAIL_BYTES..])) } else { b }
    }

    /// The detail's own call first: what it refuses is told.
    fn own_answer_first(calls: &mut Calls<Machine>, clock: Clock, records: &[u8]) -> Block {
        let b = block(calls, clock, records);
        match Reader::records(&records[b.place..]).next() {
            Some(Ok(record @ Record::Detail { .. })) => match call(calls, &mut b.clock.clone(), &record) {
                0 => b,
                answer => Block { answer, ..b },
            },
            _ => b,
        }
    }

    /// 20 for a detail that is cut.
    fn cut_detail(calls: &mut Calls<Machine>, clock: Clock, records: &[u8]) -> Block {
        let b = block(calls, clock, records);
        let detail = b.answer == 13 && records[b.place] == 2;
        Block { answer: if detail { DETAIL } else { b.answer }, ..b }
    }

    /// 20 before any call of a block that holds a detail.
    fn details_ahead(calls: &mut Calls<Machine>, clock: Clock, records: &[u8]) -> Block {
        match first_detail(records) {
            Some(_) => Block { answer: DETAIL, taken: 0, eights: 0, place: 0, clock },
            None => block(calls, clock, records),
        }
    }

    /// What a block answers whose first part took the records up to a detail and the detail, and whose second part is this.
    fn taken_too(first: Block, second: Block) -> Block {
        Block {
            taken: first.taken + 1 + second.taken,
            eights: first.eights + second.eights,
            place: first.place + DETAIL_BYTES + second.place,
            ..second
        }
    }

    /// However a trace is cut, the blocks together leave what one block leaves.
    #[test]
    fn cuts_change_nothing() {
        for i in 0..300 {
            let mut random = Random::of(2, i);
            let (records, _) = recorded(&mut random, false);
            let cut = input(&mut random, &records);
            let mut shelves = Shelves::default();
            shelves.fill();
            let parts = taken(&cut, &Rows::LARGEST, &mut shelves.port, block::<Machine>);
            let mut whole = taken(&Input { cuts: vec![], ..cut }, &Rows::LARGEST, &mut shelves.rust, block::<Machine>);
            let sum = |word: usize| parts.blocks.iter().map(|block| block[word]).sum::<u64>();
            let last = parts.blocks.last().expect("a block");
            assert_eq!(whole.blocks, [[last[0], sum(1), sum(2), sum(3), last[4], last[5]]]);
            whole.left.at = parts.left.at;
            assert_eq!(difference(&whole.left, &parts.left).or_else(|| shelves.difference()), None);
        }
    }

    #[test]
    fn each_is_found() {
        let right = blocks::<Plain>(&mut Rust::<Machine>::default(), 1000, 1);
        assert!(report::blocks(&right), "the comparison meets what it is for and finds nothing in the Rust");
        let slips: [(&str, One); 13] = [
            ("clock_of_refused", clock_of_refused),
            ("clock_anew", clock_anew),
            ("eights_forgotten", eights_forgotten),
            ("eights_not_taken", eights_not_taken),
            ("refused_taken", refused_taken),
            ("behind_refused", behind_refused),
            ("read_ahead", read_ahead),
            ("cut_is_no_refusal", cut_is_no_refusal),
            ("detail_obeyed", detail_obeyed),
            ("detail_ignored", detail_ignored),
            ("own_answer_first", own_answer_first),
            ("cut_detail", cut_detail),
            ("details_ahead", details_ahead),
        ];
        for (name, one) in slips {
            assert_ne!(blocks::<Plain>(&mut Slip(one), 100, 1).differences, 0, "{name} is not found");
        }
    }

    /// In the mode of change request 6, where a port without it must be found.
    #[test]
    fn in_the_mode() {
        assert!(report::blocks(&blocks::<High>(&mut Rust::<<High as Mode>::Machine>::default(), 1000, 1)));
        assert_ne!(
            blocks::<High>(&mut Rust::<Machine>::default(), 100, 1).differences,
            0,
            "a port without the mode is not found"
        );
        let high = blocks::<Plain>(&mut Rust::<<High as Mode>::Machine>::default(), 100, 1);
        assert_ne!(high.differences, 0, "a port always in the mode is not found");
    }
}
