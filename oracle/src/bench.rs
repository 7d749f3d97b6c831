//! The time of the raw Rust decoder on a trace in memory: no answers, no room, only its own work.

use std::time::Instant;

use crate::calls::{EVENTS, Mechanism, PACKETS, Rows, count, event_type};
use crate::descriptors::Descriptors;
use crate::trace::{Clock, Reader, Record, header};
use crate::usb::{Direction, EndpointAddr, EndpointNum, EndpointType};

/// Five runs; prints the median.
pub fn bench<M: Mechanism>(trace: &[u8]) -> Result<(), String> {
    let mut times = Vec::new();
    let mut packets = 0;
    for _ in 0..5 {
        let start = Instant::now();
        packets = packets_of(&count(run::<M>(trace)?.capture()));
        times.push(start.elapsed().as_nanos() as u64);
    }
    times.sort();
    println!("packets {packets}");
    println!("ms {}", times[2] / 1_000_000);
    println!("ns a packet {}", times[2] / packets.max(1));
    Ok(())
}

/// The packets that left these rows: an event has a packet row too.
pub fn packets_of(rows: &Rows) -> u64 {
    rows.0[PACKETS] - rows.0[EVENTS]
}

/// A whole trace and finish: the decoder's own work, and the reading of the records. Descriptors are off, since what the rules ask besides is no
/// part of the Rust.
pub fn run<M: Mechanism>(trace: &[u8]) -> Result<M, String> {
    header(trace).map_err(|r| format!("refused {} at {}", r.answer, r.at))?;
    let mut machine = M::fresh(false, Descriptors::Off);
    let mut reader = Reader::new(trace);
    let mut clock = Clock::default();
    while let Some(record) = reader.next() {
        match record.map_err(|r| format!("refused {} at {}", r.answer, r.at))? {
            Record::Packet { ticks, bytes } => {
                machine.packet(bytes, clock.time(ticks)).ok();
            }
            Record::Event { ticks, kind, code } => {
                let event = event_type(kind).ok_or("an event kind above 7")?;
                machine.event(event, code, clock.time(ticks)).ok();
            }
            Record::Detail { address, number, direction, kind, max } => {
                let place = EndpointAddr::from_parts(EndpointNum(number), Direction::from(direction));
                if let Some(device) = machine.device(address) {
                    device.set_detail(place, EndpointType::from(kind), max);
                }
            }
        }
    }
    machine.finish().map_err(|e| e.to_string())?;
    Ok(machine)
}
