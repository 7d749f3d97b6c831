//! The oracle's commands.

use std::io::{Read, Write};
use std::process::ExitCode;

use oracle::calls::{LOGS, Rows};
use oracle::compare::Rust;
use oracle::decoder::machine::Machine;
use oracle::descriptors::Descriptors;
use oracle::generate::{CAMERA, EXTRA, KINDS, download, generate};
use oracle::mixed::mixed;
use oracle::mode::{High, Mode, Plain};
use oracle::trace::Refused;
use oracle::{bench, compare, ledger, lemmas, listing, own_and_ruled, pcap, report, selfcheck, trace, traces, training};

const USAGE: &str = "usage: oracle COMMAND
  listing [OPTION..]     a UTL trace on standard input; prints the listing of document 01
  answers [OPTION..]     the same input; prints the answer to each record, then to finish, one a line
  details [OPTION..]     the same input; prints the type and max packet size that each device's endpoints have at the end
  gen SEED N KIND        writes a trace of N records to standard output; the kinds are listed by 'gen kinds'
  download MIB TIMES     writes the trace of change request 11: an enumeration and a bulk download, so many times in so many MiB
  mixed BYTES            writes the mixed sequence of the benchmarks, 200,000 packets with payloads of at most so many bytes
  bench FILE             the time of the raw Rust decoder on a trace, median of five runs
  ledger [--high] FILE   the Rust's own account of the payloads that it counts in a trace: endpoint, packet, length, total before
  selfcheck N            N random calls, 01's well-formed list, demand 3, reasons, stamps and details after each; then the mutants;
                         then N random calls with the ledger of change request 8 after each, and the slips that it must find
  selfcheck --high N     the same in the mode, with the slips of the mode
  coverage [--high] N SEED  plays the traces of `compare traces N SEED` by the Rust alone: which cases of decoder.rs they meet
  descriptors N SEED     the Rust's own decode_request beside the rules of change request 2, on N random traces: what differs
                         outside the listed cases, and how often each of them was met
  traces DIR             writes the traces of the repository and the listings that they must give; in DIR/high those of the mode, in it and without
  traces --check DIR     compares them with what stands in DIR
  training DIR PAGE      writes the training set (NAME.utl, NAME.right, NAME.student), and into its page the first lines that differ
  training --check DIR PAGE  compares them, and every line that the page quotes, with what stands there
  to-pcap                a UTL trace on standard input; writes its packets as a pcap file, and `events N` on standard error
  from-pcap [OPTION..]   a pcap file on standard input; prints the listing of its packets
  pcap-times             the same input; prints time in nanoseconds, length and reason of each packet
  pcap N SEED            N random traces of each kind written in all four formats and read again: the same packets and times
  lemmas SEED RUNS CALLS writes the sequences of `traces` and RUNS random runs of CALLS records as lemmas of crates/runs (proofs/Oracle.antt)
  lemmas --high SEED RUNS CALLS  writes the traces of DIR/high, and RUNS random runs on which the mode shows, as lemmas in the mode
--high is the mode of change request 6, high-bandwidth isochronous data
options:
  --high                 the decoder is fresh in the mode
  --program              room and buffer of the program `listing` (docs/SIZES.md); otherwise the largest that 01 allows
  --room LOG=ROWS        room of one log; LOG is one of
                         bytes devices endpoints packets events transactions groups state-bytes states items links requests
  --buffer BYTES         the size of the input buffer: a longer input is `too long`
  --total N              ordinary endpoints start with this byte total, so that answer 9 can be tried
  --descriptors MODE     how completed requests are read: off, ruled (by change request 2), own (by the Rust's decode_request)
  --finish-at K          (answers) calls finish before record K too, so that answer 2 can be tried";

struct Options {
    room: Rows,
    buffer: usize,
    total: u64,
    finish_at: Option<u64>,
    descriptors: Descriptors,
    high: bool,
}

fn options(words: &[String]) -> Result<Options, String> {
    let (room, descriptors) = (Rows::LARGEST, Descriptors::DEFAULT);
    let mut o = Options { room, buffer: usize::MAX, total: 0, finish_at: None, descriptors, high: false };
    let mut words = words.iter();
    while let Some(word) = words.next() {
        if word == "--program" {
            o.room = Rows::PROGRAM;
            o.buffer = listing::BUFFER;
            continue;
        }
        if word == "--high" {
            o.high = true;
            continue;
        }
        let value = words.next().ok_or(format!("{word} wants a value"))?;
        let number = |text: &str| text.parse::<u64>().map_err(|_| format!("{word}: {text} is no number"));
        match word.as_str() {
            "--room" => {
                let (log, rows) = value.split_once('=').ok_or("--room LOG=ROWS")?;
                let place = LOGS.iter().position(|l| *l == log).ok_or(format!("no log {log}"))?;
                o.room.0[place] = number(rows)?;
            }
            "--buffer" => o.buffer = number(value)? as usize,
            "--total" => o.total = number(value)?,
            "--descriptors" => o.descriptors = mode(value).ok_or(format!("no mode {value}"))?,
            "--finish-at" => o.finish_at = Some(number(value)?),
            _ => return Err(format!("no option {word}")),
        }
    }
    Ok(o)
}

fn mode(name: &str) -> Option<Descriptors> {
    match name {
        "off" => Some(Descriptors::Off),
        "ruled" => Some(Descriptors::Ruled),
        "own" => Some(Descriptors::Own),
        _ => None,
    }
}

fn input() -> Result<Vec<u8>, String> {
    let mut bytes = Vec::new();
    std::io::stdin().read_to_end(&mut bytes).map_err(|e| format!("standard input: {e}"))?;
    Ok(bytes)
}

fn output(bytes: &[u8]) -> Result<(), String> {
    let mut out = std::io::stdout().lock();
    out.write_all(bytes).and_then(|()| out.flush()).map_err(|e| format!("standard output: {e}"))
}

fn answers<D: Mode>(trace: &[u8], o: &Options) -> String {
    if trace.len() > o.buffer {
        return "too long\n".to_string();
    }
    let answers = trace::answers_by::<D::Machine>(o.descriptors, trace, o.room, o.total, o.finish_at);
    answers.iter().map(|a| format!("{a}\n")).collect()
}

fn listed<D: Mode>(trace: &[u8], o: &Options) -> String {
    listing::listing_by::<D::Machine>(o.descriptors, trace, o.buffer, o.room, o.total)
}

fn from_pcap<D: Mode>(file: &[u8], o: &Options) -> String {
    if file.len() > o.buffer { "too long\n".to_string() } else { pcap::listing::<D::Machine>(file, o.room) }
}

fn details<D: Mode>(trace: &[u8], o: &Options) -> String {
    listing::details::<D::Machine>(trace, o.room)
}

/// One of these with its options, in the mode that they choose.
fn told(words: &[String], [plain, high]: [fn(&[u8], &Options) -> String; 2]) -> Result<(), String> {
    let o = options(words)?;
    output(if o.high { high } else { plain }(&input()?, &o).as_bytes())
}

fn coverage<D: Mode>(count: u64, seed: u64) -> bool {
    let (mut port, mut lister) = (Rust::<D::Machine>::default(), Rust::<Machine>::default());
    report::traces(&compare::traces::<D>(&mut port, &mut lister, count, seed), true)
}

fn is_high(words: &[String]) -> bool {
    words == ["--high"]
}

fn run(words: &[String]) -> Result<bool, String> {
    let number = |text: &String| text.parse::<u64>().map_err(|_| format!("{text} is no number"));
    let (command, rest) = words.split_first().ok_or(USAGE)?;
    match (command.as_str(), rest) {
        ("listing", rest) => told(rest, [listed::<Plain>, listed::<High>])?,
        ("answers", rest) => told(rest, [answers::<Plain>, answers::<High>])?,
        ("details", rest) => told(rest, [details::<Plain>, details::<High>])?,
        ("gen", [kinds]) if kinds == "kinds" => {
            let names: String = KINDS.iter().chain(&EXTRA).chain([&CAMERA]).map(|(name, _)| format!("{name}\n")).collect();
            output(names.as_bytes())?;
        }
        ("gen", [seed, n, kind]) => {
            let bytes = generate(number(seed)?, number(n)?, kind).ok_or(format!("no kind {kind}"))?;
            output(&bytes)?;
        }
        ("download", [mib, times]) => output(&download((number(mib)? as usize) << 20, number(times)?.max(1) as usize))?,
        ("mixed", [longest]) => output(&mixed(number(longest)? as usize))?,
        ("bench", [path]) => {
            let bytes = std::fs::read(path).map_err(|e| format!("{path}: {e}"))?;
            bench::bench::<Machine>(&bytes)?;
        }
        ("ledger", [rest @ .., path]) if rest.is_empty() || is_high(rest) => {
            let bytes = std::fs::read(path).map_err(|e| format!("{path}: {e}"))?;
            let text =
                if is_high(rest) { ledger::text::<<High as Mode>::Traced> } else { ledger::text::<<Plain as Mode>::Traced> };
            output(text(&bytes, Rows::LARGEST).as_bytes())?;
        }
        ("selfcheck", [n]) => return Ok(selfcheck::report(number(n)?)),
        ("selfcheck", [flag @ .., n]) if is_high(flag) => return Ok(selfcheck::report_high(number(n)?)),
        ("coverage", [n, seed]) => return Ok(coverage::<Plain>(number(n)?, number(seed)?)),
        ("coverage", [flag @ .., n, seed]) if is_high(flag) => return Ok(coverage::<High>(number(n)?, number(seed)?)),
        ("descriptors", [n, seed]) => return Ok(own_and_ruled::report(number(n)?, number(seed)?)),
        ("to-pcap", []) => match pcap::of_trace::<Machine>(&input()?, pcap::WRITTEN) {
            Ok((file, events)) => {
                output(&file)?;
                eprintln!("events {events}");
            }
            Err(Refused { answer, at }) => return Err(format!("refused {answer} at {at}")),
        },
        ("from-pcap", rest) => told(rest, [from_pcap::<Plain>, from_pcap::<High>])?,
        ("pcap-times", []) => output(pcap::times(&input()?).as_bytes())?,
        ("pcap", [n, seed]) => {
            let count = pcap::there_and_back::<Machine>(number(n)?, number(seed)?)?;
            println!("pcap: {count} packets written and read again");
        }
        ("traces", [folder]) => traces::write(folder)?,
        ("lemmas", [seed, runs, calls]) => output(lemmas::lemmas(number(seed)?, number(runs)?, number(calls)?).as_bytes())?,
        ("lemmas", [flag @ .., seed, runs, calls]) if is_high(flag) => {
            output(lemmas::high(number(seed)?, number(runs)?, number(calls)?).as_bytes())?
        }
        ("traces", [flag, folder]) if flag == "--check" => traces::check(folder)?,
        ("training", [folder, page]) => training::write(folder, page)?,
        ("training", [flag, folder, page]) if flag == "--check" => training::check(folder, page)?,
        _ => return Err(USAGE.to_string()),
    }
    Ok(true)
}

fn main() -> ExitCode {
    let words: Vec<String> = std::env::args().skip(1).collect();
    match run(&words) {
        Ok(true) => ExitCode::SUCCESS,
        Ok(false) => ExitCode::FAILURE,
        Err(message) => {
            eprintln!("{message}");
            ExitCode::FAILURE
        }
    }
}
