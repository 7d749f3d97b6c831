//! What the program is asked to do.

use std::ffi::OsString;

use crate::Fault;
use crate::memory::Room;

/// Input is read, and output written, in parts of so many bytes.
const PART: usize = 1 << 20;

/// No line is longer (docs/SIZES.md), so each fits a part.
const LINE: usize = 156;

const HELP: &str = "usage: pivotspark COMMAND [OPTION..] FILE..

commands:
  list FILE       prints the rows that a capture gives: packets, transactions, groups
  from-pcap FILE  the same, of a file that has to be a pcap file
  to-pcap IN OUT  writes the packets of a capture as a pcap file

pivotspark COMMAND --help says more of a command, pivotspark --version which program this is.
docs/TOOLS.md is the manual.
";

const LIST_HELP: &str = "usage: pivotspark list [--high] [--room ROWS] [--room LOG=ROWS] FILE

Prints the rows that a capture gives, a line each; docs/LISTING.md says how to read them. FILE is a pcap file (USB 2.0 packets)
where its first four bytes say so, and else a UTL trace; - is standard input.
";

const FROM_PCAP_HELP: &str = "usage: pivotspark from-pcap [--high] [--room ROWS] [--room LOG=ROWS] FILE

Prints the rows that the packets of a pcap file give, as pivotspark list does, and refuses every other file. - is standard input.
";

const TO_PCAP_HELP: &str = "usage: pivotspark to-pcap [--high] [--room ROWS] [--room LOG=ROWS] IN OUT

Writes the packets of a capture to a pcap file (USB 2.0 packets, times in nanoseconds), and prints 'events N': so many bus events
are left behind. IN is what pivotspark list takes. OUT appears only when it is whole; a file that stands there is replaced.
";

/// What these commands share, behind what each does.
const OPTIONS_HELP: &str = "
  --high           the mode for high-bandwidth isochronous data (DATA2 and MDATA yield payloads)
  --room ROWS      logs of at most so many rows, and 64 times as many bytes, in place of the largest: for a machine with little memory
  --room LOG=ROWS  room of one log: bytes, devices, endpoints, packets, events, transactions, groups, state-bytes, states, items,
                   links or requests

A capture that is refused gives the line 'refused N at B' on standard output, N the answer and B the place in the file,
and the reason on standard error. Status 0: done. 2: refused, unreadable, unwritable, or called in the wrong way.
";

#[derive(Debug)]
pub enum Command {
    /// A text that was asked for.
    Say(String),
    List(List),
    ToPcap(ToPcap),
}

/// A capture that is to be run, and how.
#[derive(Debug)]
pub struct Capture {
    pub high: bool,
    pub room: Room,
    pub file: OsString,
    /// Whether it has to be a pcap file.
    pub pcap: bool,
    /// The size of the windows in which it is read.
    pub window: usize,
}

#[derive(Debug)]
pub struct List {
    pub capture: Capture,
    /// The size of the parts in which output is written.
    pub part: usize,
}

#[derive(Debug)]
pub struct ToPcap {
    pub capture: Capture,
    pub out: OsString,
    pub part: usize,
}

pub fn command(words: &[OsString]) -> Result<Command, Fault> {
    let (command, rest) = words.split_first().ok_or("no command; pivotspark --help says which there are")?;
    match command.to_str() {
        Some("--help" | "-h" | "help") => Ok(Command::Say(HELP.to_string())),
        Some("--version" | "-V") => Ok(Command::Say(format!("pivotspark {}\n", env!("CARGO_PKG_VERSION")))),
        Some(name @ "list") => on_files(name, LIST_HELP, rest, |options| list(options, false)),
        Some(name @ "from-pcap") => on_files(name, FROM_PCAP_HELP, rest, |options| list(options, true)),
        Some(name @ "to-pcap") => on_files(name, TO_PCAP_HELP, rest, to_pcap),
        _ => Err(format!("no command {}; pivotspark --help says which there are", command.display())),
    }
}

/// The options and files of a command.
struct Options {
    high: bool,
    room: Room,
    files: Vec<OsString>,
}

/// A command on files: its help, or what `make` makes of its options.
fn on_files(
    name: &str,
    help: &str,
    words: &[OsString],
    make: impl FnOnce(Options) -> Result<Command, Fault>,
) -> Result<Command, Fault> {
    let made = match options(words) {
        Ok(None) => return Ok(Command::Say(format!("{help}{OPTIONS_HELP}"))),
        Ok(Some(options)) => make(options),
        Err(fault) => Err(fault),
    };
    made.map_err(|fault| format!("{fault}; pivotspark {name} --help says how it is called"))
}

/// None where help is asked for.
fn options(words: &[OsString]) -> Result<Option<Options>, Fault> {
    let mut options = Options { high: false, room: Room::largest(), files: Vec::new() };
    let mut words = words.iter();
    while let Some(word) = words.next() {
        match word.to_str() {
            Some("--help" | "-h") => return Ok(None),
            Some("--high") => options.high = true,
            Some("--room") => {
                let room = words.next().and_then(|w| w.to_str()).ok_or("--room wants a number of rows, or LOG=ROWS")?;
                options.room.choose(room)?;
            }
            Some("--") => options.files.extend(words.by_ref().cloned()),
            Some(option) if option.starts_with('-') && option != "-" => return Err(format!("no option {option}")),
            _ => options.files.push(word.clone()),
        }
    }
    Ok(Some(options))
}

fn list(options: Options, pcap: bool) -> Result<Command, Fault> {
    let Options { high, room, files } = options;
    let count = files.len();
    let [file] = <[OsString; 1]>::try_from(files).map_err(|_| format!("one file is listed at a time, and {count} were named"))?;
    Ok(Command::List(List { capture: capture(high, room, file, pcap)?, part: part()? }))
}

fn to_pcap(options: Options) -> Result<Command, Fault> {
    let Options { high, room, files } = options;
    let count = files.len();
    let [file, out] =
        <[OsString; 2]>::try_from(files).map_err(|_| format!("two files are wanted, IN and OUT; named: {count}"))?;
    if out == "-" {
        return Err("OUT is a file, and standard output is not one".to_string());
    }
    Ok(Command::ToPcap(ToPcap { capture: capture(high, room, file, false)?, out, part: part()? }))
}

fn capture(high: bool, room: Room, file: OsString, pcap: bool) -> Result<Capture, Fault> {
    Ok(Capture { high, room, file, pcap, window: size("PIVOTSPARK_WINDOW", 1)? })
}

fn part() -> Result<usize, Fault> {
    size("PIVOTSPARK_PART", LINE)
}

/// A switch for tests: parts of another size, of at least so many bytes (docs/TOOLS.md).
fn size(variable: &str, least: usize) -> Result<usize, Fault> {
    let Some(text) = std::env::var_os(variable) else { return Ok(PART) };
    let size = text.to_str().and_then(|t| t.parse().ok()).filter(|n| (least..=PART).contains(n));
    size.ok_or(format!("{variable} is not a number from {least} to {PART}"))
}
