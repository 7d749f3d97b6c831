//! Memory for the logs: zeroed, so that the system gives pages only as they are written, and asked for so that a refusal can be told.

use std::alloc::{Layout, alloc_zeroed};

use crate::Fault;
use crate::library::{LOGS, Logs, MOST_BYTES, MOST_DEVICES, MOST_ENDPOINTS, MOST_ROWS, log};

/// How many bytes of packets there is room for, where a number of rows is chosen for all logs.
const BYTES_A_ROW: usize = 64;

/// Elements that may hold any bits, so zeros too.
pub trait Plain: Copy {}
impl Plain for u8 {}
impl Plain for u64 {}

/// So many zeros, or None where the memory is not to be had.
pub fn zeros<T: Plain>(count: usize) -> Option<Vec<T>> {
    let layout = Layout::array::<T>(count).ok()?;
    if layout.size() == 0 {
        return Some(Vec::new());
    }
    // The layout is not empty; it is the one by which a vector of this capacity gives the memory back; zeros are a value of T.
    unsafe {
        let memory = alloc_zeroed(layout) as *mut T;
        if memory.is_null() { None } else { Some(Vec::from_raw_parts(memory, count, count)) }
    }
}

/// An array that is too large for the stack.
pub fn array<T: Plain, const N: usize>() -> Result<Box<[T; N]>, Fault> {
    let memory = zeros(N).ok_or_else(|| too_little("a decoder", N * size_of::<T>()))?;
    Ok(memory.into_boxed_slice().try_into().unwrap_or_else(|_| unreachable!("it has N elements")))
}

/// A buffer for bytes of the input or of the output.
pub fn buffer(what: &str, count: usize) -> Result<Vec<u8>, Fault> {
    zeros(count).ok_or_else(|| too_little(what, count))
}

/// The rows of each log.
#[derive(Debug, PartialEq)]
pub struct Room([usize; 12]);

impl Room {
    /// Document 01's largest logs. More devices and endpoints than there may be need no rows.
    pub fn largest() -> Room {
        let mut rows = [MOST_ROWS; 12];
        (rows[log::BYTES], rows[log::STATEBYTES]) = (MOST_BYTES, MOST_BYTES);
        (rows[log::DEVICE_ROWS], rows[log::ENDPOINT_ROWS]) = (MOST_DEVICES, MOST_ENDPOINTS);
        Room(rows)
    }

    /// ROWS for all logs, or LOG=ROWS for one.
    pub fn choose(&mut self, text: &str) -> Result<(), Fault> {
        let (name, rows) = text.split_once('=').unwrap_or(("", text));
        let rows: usize = rows.parse().map_err(|_| format!("--room {text}: {rows} is no number of rows"))?;
        let most = Room::largest().0;
        if name.is_empty() {
            for (i, room) in self.0.iter_mut().enumerate() {
                let bytes = i == log::BYTES || i == log::STATEBYTES;
                *room = if bytes { rows.saturating_mul(BYTES_A_ROW) } else { rows }.min(most[i]);
            }
            return Ok(());
        }
        let place = LOGS.iter().position(|(known, _)| *known == name).ok_or(format!("--room {text}: no log {name}"))?;
        if rows > most[place] {
            return Err(format!("--room {text}: there may be {} at most", most[place]));
        }
        self.0[place] = rows;
        Ok(())
    }

    /// The logs, with all their rows zero.
    pub fn logs(&self) -> Result<Logs, Fault> {
        Ok(Logs {
            bytes: self.log(log::BYTES)?,
            device_rows: self.log(log::DEVICE_ROWS)?,
            endpoint_rows: self.log(log::ENDPOINT_ROWS)?,
            packets: self.log(log::PACKETS)?,
            events: self.log(log::EVENTS)?,
            transactions: self.log(log::TRANSACTIONS)?,
            groups: self.log(log::GROUPS)?,
            statebytes: self.log(log::STATEBYTES)?,
            states: self.log(log::STATES)?,
            items: self.log(log::ITEMS)?,
            links: self.log(log::LINKS)?,
            requests: self.log(log::REQUESTS)?,
        })
    }

    fn log<T: Plain>(&self, place: usize) -> Result<Vec<T>, Fault> {
        let (name, width) = LOGS[place];
        let count = self.0[place] * width;
        zeros(count).ok_or_else(|| too_little(&format!("the log of {name}"), count * size_of::<T>()))
    }
}

fn too_little(what: &str, bytes: usize) -> Fault {
    format!("too little memory: {bytes} bytes for {what} are not to be had (--room ROWS asks for smaller logs)")
}

#[cfg(test)]
mod tests {
    use std::hint::black_box;

    use super::*;

    #[test]
    fn room_is_at_most_the_largest() {
        let mut room = Room::largest();
        room.choose("100000000").unwrap();
        assert_eq!(room, Room::largest());
        room.choose("100").unwrap();
        assert_eq!(room.0, [6400, 64, 100, 100, 100, 100, 100, 6400, 100, 100, 100, 100]);
        room.choose("links=7").unwrap();
        assert_eq!(room.0[log::LINKS], 7);
        assert!(room.choose("bytes=1073741825").is_err() && room.choose("rows=1").is_err() && room.choose("links=").is_err());
    }

    #[test]
    fn logs_have_the_words_of_their_rows_and_are_zero() {
        let mut room = Room::largest();
        room.choose("3").unwrap();
        let logs = room.logs().unwrap();
        assert_eq!((logs.bytes.len(), logs.groups.len(), logs.links.len(), logs.items.len()), (192, 15, 12, 3));
        assert!(logs.bytes.iter().all(|b| *b == 0) && logs.links.iter().all(|w| *w == 0));
        room.choose("0").unwrap();
        assert!(room.logs().unwrap().packets.is_empty());
    }

    #[test]
    fn memory_that_is_not_to_be_had_is_told() {
        // Memory that nobody looks at is not asked for at all: hence the boxes.
        assert!(black_box(zeros::<u64>(black_box(usize::MAX / 64))).is_none());
        assert!(zeros::<u64>(usize::MAX).is_none());
    }
}
