//! The program `pivotspark`: captures of hundreds of megabytes on the proved decoder. It knows files, memory and arguments, and nothing of USB: every row,
//! answer and line comes from the library (crates/pivotspark). docs/TOOLS.md is its manual.
//!
//! Status 0: done. 1 is kept for commands that compare. 2: refused, unreadable, unwritable, or called in the wrong way.

mod arguments;
mod decoder;
mod export;
mod input;
#[rustfmt::skip] // generated
mod library;
mod list;
mod memory;
mod output;
mod progress;
mod run;
mod whole;

use std::ffi::OsString;
use std::io::{Write, stderr};
use std::process::ExitCode;

use arguments::Command;

/// What is wrong, in words for standard error. It ends the program with status 2.
type Fault = String;

fn run(words: &[OsString]) -> Result<(), Fault> {
    match arguments::command(words)? {
        Command::Say(text) => output::say(&text),
        Command::List(options) => list::list(&options),
        Command::ToPcap(options) => export::to_pcap(&options),
    }
}

fn main() -> ExitCode {
    let words: Vec<OsString> = std::env::args_os().skip(1).collect();
    match run(&words) {
        Ok(()) => ExitCode::SUCCESS,
        Err(fault) => {
            // Where standard error can't be written either, the status is all that is left to say it by.
            let _ = writeln!(stderr(), "pivotspark: {fault}");
            ExitCode::from(2)
        }
    }
}
