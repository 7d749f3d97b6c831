//! What a comparison says: what was compared, and how often each case of the source was met.

use crate::blocks::{self, DETAIL, DETAILS};
use crate::calls::{EVENTS, LOGS, Style};
use crate::compare::Tally;
use crate::coverage::{Case, NEXT, count};
use crate::damage::DAMAGES;
use crate::files::{self, CASES};
use crate::mode::{Mode, Plain, status_behind};
use crate::packets::data;
use crate::singles::{self, CALLS, DAMAGED, RECORDS};
use crate::usb::{PID, REASONS};

/// Ways that no call can take: the function, the case, the way, and why. Any other way that is not met is a fault of the comparison, and
/// one of these that is met is a fault here.
const NEVER: &[(&str, &str, &str, &str)] = &[
    ("transaction_status", "Malformed => New", "Malformed", MALFORMED),
    ("transaction_status", "(_, Malformed, Malformed) => Continue", "(_, Malformed, Malformed)", MALFORMED),
    ("transaction_status", "(.., SOF | Malformed) => New", "(.., Malformed)", MALFORMED),
    ("transaction_status", "(Bulk, Complete, SETUP, ACK) => Done", "(Bulk, Complete, SETUP, ACK)", BULK_SETUP),
    ("transaction_status", "(Bulk, Complete, SETUP, NYET) => Retry", "(Bulk, Complete, SETUP, NYET)", BULK_SETUP),
    ("start_pid", "_ => ..", "_", "a split without its token is never handed to group_status"),
    (
        "group_status",
        "if split_sc == Some(Start) && next == OUT (2)",
        "not next == OUT",
        "in a group that began with IN: only number 0 has both directions, and an active group there is a control transfer's",
    ),
    (
        "packet_endpoint",
        "if map.get(dev_addr).is_none()",
        "yes",
        "add_endpoint has just added the device, and add_device its map",
    ),
    (
        "transaction_append",
        "if let Some(state) = &mut self.transaction_state",
        "no",
        "no status that appends comes without a transaction",
    ),
    ("group_end", "if let Some(group) = ep_data.active.take()", "no", "a start or an append of a group comes just before it"),
];

const MALFORMED: &str = "a packet that is not valid is judged before the table is looked up";
const BULK_SETUP: &str = "no row lets a SETUP continue a bulk split";

fn never(case: &Case, way: &str) -> Option<&'static str> {
    NEVER.iter().find(|(f, c, w, _)| *f == case.function && *c == case.what && *w == way).map(|(.., why)| *why)
}

/// Numbers with the names that they go by.
fn named<'a>(names: impl IntoIterator<Item = &'a str>, numbers: &[u64]) -> String {
    names.into_iter().zip(numbers).map(|(name, n)| format!("{name} {n}")).collect::<Vec<_>>().join(", ")
}

/// What came of inputs to the program; false where something differs.
pub fn inputs(t: &Tally<Plain>) -> bool {
    let kinds: Vec<String> = t.kinds.iter().map(|(kind, n)| format!("{kind} {n}")).collect();
    println!("inputs {}: {}", t.traces, kinds.join(", "));
    listings(t);
    let outputs = OUTPUTS.map(|first| t.listings.get(first).copied().unwrap_or(0));
    let good = all_met("output", OUTPUTS, &outputs);
    println!("{} differences", t.differences);
    good && t.differences == 0
}

/// What came of blocks; false where something differs, or where something that can be met was not. 2 and 9 are as in `answers`, 5 and 6 a
/// trace's, 10 and 11 a header's, 14 to 19 no answers of a block; 1 wants a log that is too long, which is tried on whole traces.
pub fn blocks<D: Mode>(t: &blocks::Tally<D>) -> bool {
    let numbers: Vec<String> = (0..t.ends.len()).map(|i| i.to_string()).collect();
    let names = || numbers.iter().map(String::as_str);
    println!("runs {}, blocks {}, records taken {}, 8s among them {}", t.runs, t.blocks, t.records, t.eights);
    println!("blocks that were empty {}, records that a cut divided and the next block took {}", t.empty, t.divided);
    println!("one row short and so refused with 7: {}; bytes changed on the shelf: {}", t.short, t.shelved);
    let answered = (0..t.ends.len()).filter(|i| t.ends[*i] > 0).map(|i| format!("{i} {}", t.ends[i]));
    println!("answers of blocks: {}", answered.collect::<Vec<_>>().join(", "));
    println!("details in a block, refused with 20: {}; {}", t.ends[DETAIL as usize], named(DETAILS, &t.details));
    let mut met = t.ends;
    for never in [1, 2, 5, 6, 8, 9, 10, 11].into_iter().chain(14..20) {
        met[never] = 1;
    }
    let cases = ["an 8", "an empty block", "a divided record", "one row short", "a byte of the shelf"];
    let counts = [t.eights, t.empty, t.divided, t.short, t.shelved];
    let details = all_met("a detail:", DETAILS, &t.details);
    let good = all_met("answer", names(), &met) & all_met("of blocks:", cases, &counts) & details;
    println!("{} differences", t.differences);
    good && t.differences == 0
}

/// The answers that calls of the entries can have: those of document 01, and those of a block.
const ANSWERS: [usize; 13] = [0, 1, 2, 3, 4, 5, 6, 7, 8, 9, 12, 13, DETAIL as usize];

fn row(name: &str, cells: impl IntoIterator<Item = String>) {
    println!("{name:>34}  {}", cells.into_iter().map(|cell| format!("{cell:>10}")).collect::<String>());
}

fn answered(name: &str, answers: &[u64]) {
    row(name, ANSWERS.map(|answer| answers[answer].to_string()));
}

/// What came of single calls: a table of the answers, and by which way they were had. False where something differs, or where something that can be met was
/// not.
pub fn calls<D: Mode>(t: &singles::Tally<D>) -> bool {
    let kinds: Vec<String> = t.kinds.iter().map(|(kind, n)| format!("{kind} {n}")).collect();
    println!("sequences {}, of which {} whole after each call: {}", t.sequences, t.whole, kinds.join(", "));
    row("answers", ANSWERS.map(|answer| answer.to_string()));
    CALLS[..RECORDS].iter().zip(&t.answers).for_each(|(name, answers)| answered(name, answers));
    println!("on a record with one word changed, by the port alone:");
    DAMAGED.iter().zip(&t.damaged).for_each(|(name, answers)| answered(name, answers));
    println!(
        "calls {}: before any decoder {}, behind finish {}, with totals near 2^64 {}",
        t.calls, t.unmade, t.behind, t.filled
    );
    println!("rows compared: {}", named(LOGS, &t.rows));
    println!("one row short and so refused with 7: {}", named(LOGS, &t.short));
    println!("a log too long: {}", named(LOGS, &t.long));
    println!("a log shorter than its rows: {}", named(LOGS, &t.shorter));
    println!("a count past its room: {}", named(LOGS, &t.past));
    println!("{} differences", t.differences);
    let numbers = ANSWERS.map(|answer| answer.to_string());
    let met = |which: &[usize]| ANSWERS.map(|answer| which.iter().map(|call| t.answers[*call][answer]).sum::<u64>());
    let names = || numbers.iter().map(String::as_str);
    let twos: Vec<u64> = t.answers[1..RECORDS].iter().map(|answers| answers[2]).collect();
    let good = [
        all_met("answer", names(), &met(&[0, 1, 2, 3, 4, 5])),
        all_met("behind finish:", CALLS.into_iter().skip(1), &twos),
        all_met("fresh decoder answered", ["0", "1", "7"], &[0, 1, 7].map(|answer: usize| t.answers[0][answer])),
        all_met("one row short:", LOGS, &t.short),
        all_met("too long:", LOGS, &t.long),
        all_met("shorter than its rows:", LOGS, &t.shorter),
        all_met("count past its room:", LOGS, &t.past),
        all_met("call", ["before any decoder", "on a damaged record"], &[t.unmade, t.damaged.iter().flatten().sum()]),
    ];
    good == [true; 8] && t.differences == 0
}

/// What came of pcap files: the answers to each entry, and what was met by which way. False where something differs, or where something that can be met was not.
pub fn files<D: Mode>(t: &files::Tally<D>) -> bool {
    let c = &t.counts;
    println!("sequences {}, single calls {}", t.sequences, t.calls.calls);
    println!("files exported {}: {} bytes, {} packets, {} events left behind", c.files, c.bytes, c.packets, c.events);
    println!("packets imported {}; rows compared: {}", c.taken, named(LOGS, &t.calls.rows));
    let entries: [(&str, &files::Answers, &[usize]); 4] = [
        ("head", &c.heads, &[0, 14, 15]),
        ("records", &t.calls.answers[RECORDS], &[0, 1, 2, 3, 7, 9, 16, 17]),
        ("size", &c.sizes, &[0, 1, 18]),
        ("export", &c.exports, &[0, 1, 7, 18]),
    ];
    let mut good = true;
    for (entry, answers, wanted) in entries {
        let met = (0..answers.len()).filter(|i| answers[*i] > 0).map(|i| format!("{i} {}", answers[i]));
        println!("answers of {entry}: {}", met.collect::<Vec<_>>().join(", "));
        let names: Vec<String> = wanted.iter().map(usize::to_string).collect();
        let counts: Vec<u64> = wanted.iter().map(|answer| answers[*answer]).collect();
        good &= all_met(&format!("{entry} answered"), names.iter().map(String::as_str), &counts);
    }
    println!("a log too small for a file, and so 7: {}", named(LOGS, &c.short));
    CASES.iter().zip(&c.cases).for_each(|(case, n)| println!("{n:>12}  {case}"));
    println!("{} differences", t.differences);
    // A file has no events.
    let short: Vec<u64> = c.short.iter().enumerate().map(|(log, n)| n + (log == EVENTS) as u64).collect();
    good & all_met("too small:", LOGS, &short) & all_met("of files:", CASES, &c.cases) && t.differences == 0
}

/// How the outputs of the program begin. Refusals 1, 2, 8 and 9 are none of them: its logs are not too long, it finishes last, 8 is no
/// refusal, and no total comes so far.
const OUTPUTS: [&str; 11] = [
    "UTL 1",
    "refused 3",
    "refused 4",
    "refused 5",
    "refused 6",
    "refused 7",
    "refused 10",
    "refused 11",
    "refused 12",
    "refused 13",
    "too long",
];

fn listings<D: Mode>(t: &Tally<D>) {
    let listings: Vec<String> = t.listings.iter().map(|(first, n)| format!("{first}: {n}")).collect();
    println!("listings compared {}: {}", t.listings.values().sum::<u64>(), listings.join(", "));
    println!("listings that end with the line of details: {}", t.typed);
}

/// Prints what was compared and, with the table, how often each case was met; false where something differs, or where something that can
/// be met was not.
pub fn traces<D: Mode>(tally: &Tally<D>, table: bool) -> bool {
    what_was_compared(tally);
    let notes = all_met("note", NOTES, &tally.notes);
    let reasons = all_met("reason", REASONS, &tally.reasons);
    let writers = all_met("group row of", WRITERS, &tally.writers);
    let met = all_met("of details:", MET, &tally.met) & all_met("listing", ["with a line of details"], &[tally.typed]);
    let good =
        [answers(tally), limits(tally), cases::<D>(table), pairs(tally), events(tally, table), notes, reasons, writers, met];
    let cells = !D::HIGH || cells(tally);
    println!("{} differences", tally.differences);
    good == [true; 9] && cells && tally.differences == 0
}

/// How the lines of requests end.
const NOTES: [&str; 4] = ["none", "max", "read", "set"];

/// What writes a group row: these have their number and time each in its own way (change request 9).
pub const WRITERS: [&str; 4] = ["a packet", "an event", "an event before its packet row", "finish"];

/// How details and descriptors meet (change request 13): what was done to an entry.
const MET: [&str; 3] =
    ["set by a detail", "left by a detail, since a descriptor gave it", "given by a descriptor behind a detail"];

fn what_was_compared<D: Mode>(t: &Tally<D>) {
    let kinds: Vec<String> = t.kinds.iter().map(|(kind, n)| format!("{kind} {n}")).collect();
    println!("traces {}: {}", t.traces, kinds.join(", "));
    println!("damaged {}: {}", t.damages.iter().sum::<u64>(), named(DAMAGES.iter().map(|d| d.0), &t.damages));
    println!("played {} times, {} calls", t.runs, t.seen.calls);
    println!("rows compared: {}; links: {}", named(LOGS, &t.rows), named(["T", "G", "D", "E"], &t.links));
    println!("reasons of transaction rows: {}", named(REASONS, &t.reasons));
    println!("group rows by what wrote them: {}", named(WRITERS, &t.writers));
    println!("notes of requests: {}; bytes changed on the shelf: {}", named(NOTES, &t.notes), t.shelved);
    println!("entries: {}", named(MET, &t.met));
    listings(t);
}

/// False where one of them is 0.
fn all_met<'a>(what: &str, names: impl IntoIterator<Item = &'a str>, numbers: &[u64]) -> bool {
    let missing: Vec<&str> = names.into_iter().zip(numbers).filter(|(_, n)| **n == 0).map(|(name, _)| name).collect();
    if !missing.is_empty() {
        println!("    NOT MET: {what} {}", missing.join(", "));
    }
    missing.is_empty()
}

/// Answers of calls and of the reader. 2 wants a call behind finish and 9 a total past 2^64 - 1: no trace comes to either.
fn answers<D: Mode>(t: &Tally<D>) -> bool {
    let numbers: Vec<String> = (0..14).map(|i| i.to_string()).collect();
    let names = || numbers.iter().map(String::as_str);
    println!("answers of calls: {}", named(names(), &t.seen.answers));
    println!("answers that ended a trace: {}", named(names(), &t.ends));
    let mut met = t.ends;
    met[8] = t.seen.answers[8];
    (met[2], met[9]) = (1, 1);
    let too_long = t.listings.get("too long").copied().unwrap_or(0);
    all_met("answer", names(), &met) & all_met("listing", ["too long"], &[too_long])
}

fn limits<D: Mode>(t: &Tally<D>) -> bool {
    println!("room just enough: {}; one row short and so refused with 7: {}", t.enough, named(LOGS, &t.short));
    println!("a 65th device refused: {}; a 129th endpoint: {}", t.full[0], t.full[1]);
    println!("logs that the program ran out of: {}", named(LOGS, &t.wanting));
    let full = all_met("one too many:", ["devices", "endpoints"], &t.full);
    all_met("one row short:", LOGS, &t.short) & all_met("the program's room:", LOGS, &t.wanting) & full
}

/// In the table a line for each case: how often it was met, and the way of it that was met least.
fn cases<D: Mode>(table: bool) -> bool {
    let (mut ways, mut met, mut good) = (0, 0, true);
    let mut heading = ("", "");
    for case in D::CASES {
        let counts: Vec<u64> = (0..case.ways.len()).map(|i| count(case.first + i)).collect();
        if table {
            headings(case, &mut heading);
            println!("{:>12}  {}{}", counts.iter().sum::<u64>(), case.what, least(case, &counts));
        }
        ways += counts.len();
        met += counts.iter().filter(|n| **n > 0).count();
        for (way, n) in case.ways.iter().zip(&counts) {
            good &= way_holds(case, way, *n, table);
        }
    }
    println!("decoder.rs: {} cases with {ways} ways: {met} met, {} that no call can take", D::CASES.len(), NEVER.len());
    good
}

/// The function and the match, where they are others than before.
fn headings(case: &Case, (function, of): &mut (&'static str, &'static str)) {
    if case.function != *function {
        (*function, *of) = (case.function, "");
        println!("{function}");
    }
    if case.of != *of {
        *of = case.of;
        println!("    {of}");
    }
}

/// Of several ways the one that was met least.
fn least(case: &Case, counts: &[u64]) -> String {
    let can = (0..counts.len()).filter(|i| never(case, case.ways[*i]).is_none());
    match can.min_by_key(|i| counts[*i]) {
        Some(i) if counts.len() > 1 => format!("; least {}: {}", case.ways[i], counts[i]),
        _ => String::new(),
    }
}

fn way_holds(case: &Case, way: &str, n: u64, table: bool) -> bool {
    let place = format!("{}, {}: {way}", case.function, case.what);
    match (never(case, way), n) {
        (None, 0) => println!("    NOT MET: {place}"),
        (Some(_), 1..) => println!("    MET, and said to be never: {place}"),
        (Some(why), 0) if table => println!("              never: {way}: {why}"),
        _ => {}
    }
    never(case, way).is_some() == (n == 0)
}

/// The transactions that packets found, and whether each kind of packet came to each.
fn pairs<D: Mode>(t: &Tally<D>) -> bool {
    let met: usize = t.seen.pairs.values().map(|row| row.iter().filter(|n| **n > 0).count()).sum();
    let states = t.seen.pairs.len();
    let resumed = t.seen.pairs.keys().filter(|(resumed, _)| *resumed).count();
    println!(
        "transactions that a packet found: {}, resumed {resumed}; with the packet: {met} of {} pairs",
        states - resumed,
        states * NEXT.len()
    );
    for ((resumed, style), row) in &t.seen.pairs {
        let missing: Vec<&str> = NEXT.iter().zip(row).filter(|(_, n)| **n == 0).map(|(name, _)| *name).collect();
        if !missing.is_empty() {
            let resumed = if *resumed { ", resumed" } else { "" };
            println!("    NOT MET: {}{resumed}: {}", style_name(style), missing.join(", "));
        }
    }
    met == states * NEXT.len()
}

/// Types by number; 4 is unknown.
const TYPES: [&str; 5] = ["control", "isochronous", "bulk", "interrupt", "unknown"];

fn style_name(style: &Option<Style>) -> String {
    let Some(s) = style else { return "none".to_string() };
    let kind = |k: u8| TYPES[k as usize];
    match s.split {
        None => format!("{:02X} then {:02X}, {}", s.first, s.last, kind(s.kind)),
        Some((sc, k)) => {
            format!("split {} {}, token {:02X}, last {:02X}", ["start", "complete"][sc as usize], kind(k), s.first, s.last)
        }
    }
}

/// The cells of change request 6: DATA2 and MDATA behind an IN or OUT of each type, and MDATA behind the IN of a complete split of the two types that
/// take it. Each with how often it was met, and the status without the mode and in it; false where one was not met.
fn cells<D: Mode>(t: &Tally<D>) -> bool {
    let (first, last) = ([PID::IN, PID::OUT], [(PID::DATA2, "DATA2"), (PID::MDATA, "MDATA")]);
    let plain = first.iter().flat_map(|first| last.map(|next| (*first, next))).flat_map(|(first, next)| {
        (0..5).map(move |kind| (Style { split: None, first: first as u8, last: first as u8, kind }, next))
    });
    let (token, next) = (PID::IN as u8, last[1]);
    let splits = [1, 3].map(|kind| (Style { split: Some((1, kind)), first: token, last: token, kind: 4 }, next));
    println!("cells of the mode, with the status without it and in it:");
    let mut good = true;
    for (style, (pid, name)) in plain.chain(splits) {
        let place = NEXT.iter().position(|next| *next == name).expect("a packet of the list");
        // What the endpoint of a split is known as does not matter.
        let same = |found: &Style| Style { kind: if style.split.is_some() { 4 } else { found.kind }, ..*found } == style;
        let found = t.seen.pairs.iter().filter(|((_, found), _)| found.as_ref().is_some_and(same));
        let met: u64 = found.map(|(_, row)| row[place]).sum();
        let [off, on] = [false, true].map(|high| status_behind(high, Some(style), &data(pid, &[0; 3])).1);
        let kind = TYPES[style.split.map_or(style.kind, |(_, kind)| kind) as usize];
        let split = if style.split.is_some() { "complete split, " } else { "" };
        let cell = format!("{split}{kind}, {} then {name}", if style.first == PID::IN as u8 { "IN" } else { "OUT" });
        println!("{met:>12}  {cell}: {off}, {on}{}", if split.is_empty() { "" } else { " with its payload" });
        good &= all_met("cell", [cell.as_str()], &[met]);
    }
    good
}

const EVENT_STATES: [&str; 8] = [
    "Idle",
    "LsKeepaliveGroup",
    "AwaitDeviceChirp",
    "PartialDeviceChirp",
    "ValidDeviceChirp",
    "AwaitHostChirp",
    "PartialHostChirp",
    "ValidHostChirp",
];

/// Each event state with each kind of event.
fn events<D: Mode>(t: &Tally<D>, table: bool) -> bool {
    let met = t.seen.events.iter().flatten().filter(|n| **n > 0).count();
    println!("event states with the event: {met} of {} pairs", 8 * 8);
    for (name, row) in EVENT_STATES.iter().zip(&t.seen.events).filter(|_| table) {
        println!("    {name}: {row:?}");
    }
    met == 8 * 8
}
