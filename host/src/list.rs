//! The commands `list` and `from-pcap`: a capture through the decoder, and then the lines of its rows, part by part.

use crate::Fault;
use crate::arguments::List;
use crate::decoder::Decoder;
use crate::library::{self, log};
use crate::output::Output;
use crate::progress::Progress;
use crate::run::{Run, run};

pub fn list(options: &List) -> Result<(), Fault> {
    let mut output = Output::new(options.part)?;
    let mut progress = Progress::beside_text();
    match run(&options.capture, &mut progress) {
        Ok(run) => listing(&run, &mut output, &mut progress),
        Err(stop) => Err(stop.told(&options.capture, &mut output)),
    }
}

/// The logs that have lines, in the order of the listing. Bytes have none of their own.
const LISTED: [usize; 10] = [
    log::DEVICE_ROWS,
    log::ENDPOINT_ROWS,
    log::PACKETS,
    log::EVENTS,
    log::TRANSACTIONS,
    log::GROUPS,
    log::STATES,
    log::ITEMS,
    log::LINKS,
    log::REQUESTS,
];

/// The lines of the logs, between the title and the number of details.
fn listing(run: &Run, output: &mut Output, progress: &mut Progress) -> Result<(), Fault> {
    let counts = run.decoder.counts();
    output.line(library::title)?;
    let total = LISTED.iter().map(|k| counts[*k]).sum();
    let mut done = 0;
    for k in LISTED {
        let mut from = 0;
        while from < counts[k] {
            let next = output.part(|out, told| lines(&run.decoder, k, from, &counts, out, told))?;
            if next <= from {
                return Err("the library made no line of a row".to_string());
            }
            done += next - from;
            from = next;
            progress.show("listed", done, Some(total));
        }
    }
    output.line(|out| library::details_line(run.details, out))
}

/// Lines of log k from a row on, as many as fit; the row behind the last.
fn lines(decoder: &Decoder, k: usize, from: u64, counts: &[u64; 12], out: &mut [u8], told: &mut [u64; 1]) -> u64 {
    let (logs, n) = (&decoder.logs, counts[k]);
    let words = match k {
        log::DEVICE_ROWS => &logs.device_rows,
        log::ENDPOINT_ROWS => &logs.endpoint_rows,
        log::PACKETS => &logs.packets,
        log::EVENTS => &logs.events,
        log::TRANSACTIONS => &logs.transactions,
        log::GROUPS => &logs.groups,
        log::ITEMS => &logs.items,
        log::LINKS => &logs.links,
        log::REQUESTS => &logs.requests,
        _ => return library::state_lines(from, n, &logs.states, counts[log::STATEBYTES], &logs.statebytes, out, told),
    };
    library::lines(k as u8, from, n, words, out, told)
}
