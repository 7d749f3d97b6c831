//! The speed of a long capture (change request 11): whole traces by the proved port (`pivotspark_trace`) and by the Rust decoder, in turn, the
//! least time of each. bench/long/run builds it and runs it.

mod system;

use std::hint::black_box;
use std::ops::Range;
use std::path::{Path, PathBuf};
use std::process::{Command, ExitCode};

use oracle::bench::{packets_of, run as decode};
use oracle::blocks::Input;
use oracle::calls::{BYTES, Calls, ENDPOINTS, LOGS, Mechanism, Rows, STATE_BYTES, WIDTHS};
use oracle::decoder::machine::Machine;
use oracle::generate::download;
use oracle::mixed::mixed;
use oracle::trace::{Clock, HEADER, Reader, Record, run as play};
use oracle::usb::validate_packet;

use system::{Logs, processor_time};

const USAGE: &str = "usage: long FOLDER [ROUNDS [MIB ..]]   the traces are written to FOLDER
       long peak port|rust FILE       the peak memory of one run, in KiB";

/// How often an enumeration and a download stand in a trace: some 10, 30 and 100 endpoints.
const TIMES: [usize; 3] = [2, 9, 32];
/// A round has a smaller trace more often, at most so many times.
const MORE: usize = 4;
const MIB: f64 = 1024.0 * 1024.0;

/// The figures wanted: of the Rust's time on the long trace, by the request itself, then with logs fresh from the system and with pages touched
/// before; on the mixed sequence with short payloads; and the most that a packet may cost among traces that differ in size or endpoints, of the
/// least.
const ASKED: f64 = 2.0;
const FRESH: f64 = 0.2;
const TOUCHED: f64 = 0.13;
const SHORT: f64 = 0.8;
const FLAT: f64 = 1.25;

/// What was found on one trace. Times are nanoseconds a packet.
struct Figures {
    name: String,
    bytes: usize,
    packets: u64,
    endpoints: u64,
    rust: f64,
    fresh: f64,
    touched: f64,
    /// The packet checks alone, and the Rust's reading of the records.
    check: f64,
    rust_check: f64,
    rust_reading: f64,
    /// Each record as a block of its own, pages touched; 0 where that was not run.
    alone: f64,
    /// Each packet by a call of its own (`pivotspark_packet`), pages touched; 0 likewise.
    single: f64,
    /// Peak memory of a process that runs the trace once, in MiB: port and Rust.
    peaks: [f64; 2],
}

/// The processor time of a run in nanoseconds, the system's part among it: nothing here waits, so on an idle machine it is the time by the
/// clock, and on a busy one the turns of other programs don't count. What a run leaves is given back behind the time, on both sides.
fn time<T>(run: impl FnOnce() -> T) -> f64 {
    let start = processor_time();
    let left = black_box(run());
    let spent = processor_time() - start;
    drop(left);
    spent as f64
}

/// Room for a trace of so many bytes and records: a few rows of each log for each record.
fn room(bytes: usize, records: u64) -> Rows {
    let rows = |each: u64| each * records + 1024;
    let wanted = [bytes as u64, 64, 128, rows(1), rows(1), rows(1), rows(2), 128 * rows(2), rows(2), rows(2), rows(4), rows(1)];
    Rows(std::array::from_fn(|log| wanted[log].min(Rows::LARGEST.0[log])))
}

/// Where the packets of a trace stand, and where each record ends.
fn packets(trace: &[u8]) -> (Vec<Range<usize>>, Vec<usize>) {
    let (mut reader, mut packets, mut ends) = (Reader::new(trace), Vec::new(), Vec::new());
    while let Some(Ok(record)) = reader.next() {
        ends.push(reader.at);
        if let Record::Packet { bytes, .. } = record {
            packets.push(reader.at - bytes.len()..reader.at);
        }
    }
    (packets, ends)
}

/// How the rows of the port differ from the Rust's and from what change requests add to them, if they do.
fn difference(rust: &Calls<Machine>, port: &Logs, rows: &Rows) -> Option<String> {
    let (capture, counted) = (rust.machine.capture(), rust.rows());
    if let Some(log) = (0..12).find(|log| counted.0[*log] != rows.0[*log]) {
        return Some(format!("{}: the Rust has {} rows, the port {}", LOGS[log], counted.0[log], rows.0[log]));
    }
    let differs = |log: usize| {
        let length = counted.0[log] as usize * WIDTHS[log];
        match log {
            BYTES => port.bytes(log, length) != capture.packet_data.rows,
            STATE_BYTES => port.bytes(log, length) != capture.endpoint_states.rows,
            _ => port.words(log, length) != rust.log_words(log),
        }
    };
    (0..12).find(|log| differs(*log)).map(|log| format!("{}: as many rows, but not the same", LOGS[log]))
}

/// A trace, the logs that are lent to the port again and again, and the least times so far.
struct Case {
    name: String,
    file: PathBuf,
    trace: Vec<u8>,
    /// How often a round has it.
    turns: usize,
    packets: Vec<Range<usize>>,
    /// Where each record ends, from the first one on, where each is to be a block of its own too.
    cuts: Vec<u64>,
    room: Rows,
    rows: Rows,
    again: Logs,
    least: [f64; 8],
}

impl Case {
    /// Both run it once, so that the pages of the logs are touched; then the rows are looked at.
    fn new(plan: Plan, folder: &str) -> Result<Case, String> {
        let (name, trace) = (plan.name, (plan.make)());
        let file = PathBuf::from(folder).join(name.replace(' ', "-") + ".utl");
        std::fs::write(&file, &trace).map_err(|e| format!("{}: {e}", file.display()))?;
        let (packets, ends) = packets(&trace);
        let room = room(trace.len(), ends.len() as u64);
        let cuts = if plan.alone { ends.iter().map(|end| (end - HEADER) as u64).collect() } else { Vec::new() };
        let mut again = Logs::new(&room);
        let rows = again.run(&trace).map_err(|e| format!("{name}: {e}"))?;
        let rust =
            play::<Machine>(&trace, Rows::LARGEST, 0).map_err(|r| format!("{name}: the Rust is refused with {}", r.answer))?;
        if let Some(text) = difference(&rust, &again, &rows) {
            return Err(format!("{name}: {text}"));
        }
        Ok(Case { name, file, trace, turns: plan.turns, packets, cuts, room, rows, again, least: [f64::MAX; 8] })
    }

    /// Port, Rust and port, then the parts that can be run alone.
    fn turn(&mut self) -> Result<(), String> {
        let (trace, packets) = (&self.trace, || self.packets.iter().map(|place| &self.trace[place.clone()]));
        let mut left = Vec::new();
        let input = Input { records: &trace[HEADER..], clock: Clock::default(), cuts: self.cuts.clone() };
        let spent = [
            time(|| {
                let mut fresh = Logs::new(&self.room);
                left.push(fresh.run(trace));
                fresh
            }),
            time(|| decode::<Machine>(trace)),
            time(|| left.push(self.again.run(trace))),
            time(|| packets().map(|packet| library::check(packet) as u64).sum::<u64>()),
            time(|| packets().map(|packet| validate_packet(packet).map_or(0, |pid| pid as u64)).sum::<u64>()),
            time(|| read(trace)),
            match input.cuts.is_empty() {
                true => 0.0,
                false => time(|| self.again.run_one_by_one(&input).map(drop)),
            },
            match input.cuts.is_empty() {
                true => 0.0,
                false => time(|| self.again.run_singly(packets()).map(drop)),
            },
        ];
        if !input.cuts.is_empty() {
            let rows = [self.again.run_one_by_one(&input)?, self.again.run_singly(packets())?];
            if rows.iter().any(|rows| packets_of(rows) != packets_of(&self.rows)) {
                return Err(format!("{}: one by one the port leaves another count of packets", self.name));
            }
        }
        for (least, spent) in self.least.iter_mut().zip(spent) {
            *least = least.min(spent);
        }
        match left.into_iter().all(|rows| rows == Ok(self.rows)) {
            true => Ok(()),
            false => Err(format!("{}: the port leaves other counts of rows than before", self.name)),
        }
    }

    fn figures(self) -> Result<Figures, String> {
        let count = packets_of(&self.rows);
        let [fresh, rust, touched, check, rust_check, rust_reading, alone, single] = self.least.map(|spent| spent / count as f64);
        let peaks = [peak("port", &self.file)?, peak("rust", &self.file)?];
        let (bytes, endpoints) = (self.trace.len(), self.rows.0[ENDPOINTS]);
        Ok(Figures {
            name: self.name,
            bytes,
            packets: count,
            endpoints,
            rust,
            fresh,
            touched,
            check,
            rust_check,
            rust_reading,
            alone,
            single,
            peaks,
        })
    }
}

/// The Rust's reading of the records, and nothing with them.
fn read(trace: &[u8]) -> u64 {
    let (mut reader, mut records) = (Reader::new(trace), 0);
    while let Some(record) = reader.next() {
        black_box(&record);
        records += 1;
    }
    records
}

/// The peak memory in MiB of a process that runs the trace once.
fn peak(side: &str, file: &Path) -> Result<f64, String> {
    let program = std::env::current_exe().map_err(|e| e.to_string())?;
    let output = Command::new(program).args(["peak", side]).arg(file).output().map_err(|e| e.to_string())?;
    let text = String::from_utf8_lossy(&output.stdout);
    let kib: f64 = text.trim().parse().map_err(|_| format!("peak {side}: {}", String::from_utf8_lossy(&output.stderr)))?;
    Ok(kib / 1024.0)
}

/// The same from inside that process.
fn peak_here(side: &str, file: &str) -> Result<(), String> {
    let trace = std::fs::read(file).map_err(|e| format!("{file}: {e}"))?;
    match side {
        "port" => drop(black_box(Logs::new(&room(trace.len(), read(&trace))).run(&trace)?)),
        _ => drop(black_box(decode::<Machine>(&trace)?)),
    }
    let status = std::fs::read_to_string("/proc/self/status").map_err(|e| e.to_string())?;
    let line = status.lines().find_map(|line| line.strip_prefix("VmHWM:")).ok_or("no VmHWM in /proc/self/status")?;
    println!("{}", line.trim().trim_end_matches(" kB"));
    Ok(())
}

const HEAD: [&str; 2] = [
    "                                        |  the Rust   |   port, logs fresh   | port, pages touched  |   peak MiB",
    "trace                    packets  endp. |   ns  MiB/s |   ns   ratio   MiB/s |   ns   ratio   MiB/s |  port   Rust",
];

impl Figures {
    fn rate(&self, ns: f64) -> f64 {
        self.bytes as f64 / MIB / (ns * self.packets as f64 / 1e9)
    }

    fn row(&self) -> String {
        let side = |ns: f64| format!("{ns:5.0} {:7.2} {:7.0}", ns / self.rust, self.rate(ns));
        format!(
            "{:24} {:7} {:6} |{:5.0} {:6.0} |{} |{} |{:6.0} {:6.0}",
            self.name,
            self.packets,
            self.endpoints,
            self.rust,
            self.rate(self.rust),
            side(self.fresh),
            side(self.touched),
            self.peaks[0],
            self.peaks[1]
        )
    }

    fn parts(&self) -> String {
        format!(
            "{:24} | {:6.0} {:6.0} {:6.0} | {:7.0} {:6.0} {:6.0}",
            self.name,
            self.fresh - self.touched,
            self.check,
            self.touched - self.check,
            self.rust_reading,
            self.rust_check,
            self.rust - self.rust_check - self.rust_reading
        )
    }
}

const PARTS: [&str; 2] = [
    "ns a packet, by parts    |         port         |       the Rust",
    "                         |  pages  check   rest | reading  check   rest",
];

/// A figure that is wanted, what was found, and whether that is enough.
fn judge(what: &str, found: f64, wanted: f64) {
    let verdict = if found <= wanted { "reached" } else { "NOT reached" };
    println!("  {what}: {found:.2}, wanted {wanted:.2}: {verdict}");
}

/// The dearest packet of several traces over the cheapest.
fn spread(of: &[&Figures], by: fn(&Figures) -> f64) -> f64 {
    let times = of.iter().map(|f| by(f));
    times.clone().fold(0.0, f64::max) / times.fold(f64::MAX, f64::min)
}

struct Plan {
    name: String,
    make: Box<dyn Fn() -> Vec<u8>>,
    turns: usize,
    /// Whether its records are run as blocks of one, too; those of a download have details, which no block takes.
    alone: bool,
}

/// The sizes with some 10 endpoints, the largest with more, and the two mixed sequences.
fn plans(sizes: &[usize]) -> Vec<Plan> {
    let largest = *sizes.last().expect("a size");
    let long = |mib: usize, times: usize| Plan {
        name: format!("download {mib} MiB x{times}"),
        make: Box::new(move || download(mib << 20, times)),
        turns: (largest / mib).clamp(1, MORE),
        alone: false,
    };
    let short = |longest: usize, turns: usize| Plan {
        name: format!("mixed {longest} bytes"),
        make: Box::new(move || mixed(longest)),
        turns,
        alone: true,
    };
    let grown = sizes.iter().map(|mib| long(*mib, TIMES[0]));
    let crowded = TIMES[1..].iter().map(|times| long(largest, *times));
    grown.chain(crowded).chain([short(8, MORE), short(512, 1)]).collect()
}

/// Each round has every trace, so that a time in which the machine is slow falls on all of them.
fn bench(folder: &str, rounds: usize, sizes: &[usize]) -> Result<(), String> {
    let mut cases = plans(sizes).into_iter().map(|plan| Case::new(plan, folder)).collect::<Result<Vec<_>, _>>()?;
    for _ in 0..rounds {
        for case in &mut cases {
            for _ in 0..case.turns {
                case.turn()?;
            }
        }
    }
    let all = cases.into_iter().map(Case::figures).collect::<Result<Vec<_>, _>>()?;
    println!("{}", HEAD.join("\n"));
    all.iter().for_each(|figures| println!("{}", figures.row()));
    println!("\n{}", PARTS.join("\n"));
    all.iter().for_each(|figures| println!("{}", figures.parts()));
    println!("\nns a packet, pages touched before: each record as a block of its own, and each packet by a call of its own:");
    let one_by_one = |figures: &&Figures| figures.alone > 0.0;
    all.iter().filter(one_by_one).for_each(|f| println!("{:24} | {:6.0} {:6.0}", f.name, f.alone, f.single));
    let (grown, crowded): (Vec<&Figures>, Vec<&Figures>) =
        (all[..sizes.len()].iter().collect(), all[sizes.len() - 1..sizes.len() + 2].iter().collect());
    let (long, short) = (crowded[2], &all[sizes.len() + 2]);
    println!("\nfigures of change request 11, the port's time over the Rust's:");
    for wanted in [ASKED, FRESH] {
        judge(&format!("{}, logs fresh from the system", long.name), long.fresh / long.rust, wanted);
    }
    judge(&format!("{}, pages touched before", long.name), long.touched / long.rust, TOUCHED);
    judge(&format!("{}, logs fresh from the system", short.name), short.fresh / short.rust, SHORT);
    println!("flat, the dearest packet over the cheapest:");
    for (what, of) in [("sizes", &grown), ("endpoints", &crowded)] {
        judge(&format!("{what}, logs fresh from the system"), spread(of, |f| f.fresh), FLAT);
        judge(&format!("{what}, pages touched before"), spread(of, |f| f.touched), FLAT);
    }
    println!("both left the same rows in all twelve logs on each trace");
    Ok(())
}

fn run(words: &[&str]) -> Result<(), String> {
    let number = |text: &&str| text.parse::<usize>().ok().filter(|n| *n > 0).ok_or(format!("{text} is no number above 0"));
    match *words {
        ["peak", side @ ("port" | "rust"), file] => peak_here(side, file),
        [folder, ref rest @ ..] if folder != "peak" => {
            let numbers = rest.iter().map(number).collect::<Result<Vec<_>, _>>()?;
            let (rounds, sizes) = numbers.split_first().map_or((5, &[][..]), |(rounds, sizes)| (*rounds, sizes));
            let mut sizes = if sizes.is_empty() { vec![1, 4, 16, 64] } else { sizes.to_vec() };
            sizes.sort();
            bench(folder, rounds, &sizes)
        }
        _ => Err(USAGE.to_string()),
    }
}

fn main() -> ExitCode {
    let words: Vec<String> = std::env::args().skip(1).collect();
    match run(&words.iter().map(String::as_str).collect::<Vec<_>>()) {
        Ok(()) => ExitCode::SUCCESS,
        Err(message) => {
            eprintln!("{message}");
            ExitCode::FAILURE
        }
    }
}
