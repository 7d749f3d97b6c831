//! The proved port on lent logs and a lent shelf that are filled before and looked at behind: whole traces, blocks, and single calls.

use oracle::blocks::{Blocks, Input, Taken};
use oracle::calls::Rows;
use oracle::compare::{Left, Port};
use oracle::lent::{Log, Logs};
use oracle::singles::{Call, Entries, Memory, RECORD, Told};

/// The library, in a mode; each call has other words in the logs before.
pub struct Library {
    high: bool,
    turn: u64,
}

impl Library {
    /// With a fresh decoder in the mode of change request 6 for each run, or without it.
    pub fn new(high: bool) -> Library {
        Library { high, turn: 0 }
    }

    fn once(&mut self, trace: &[u8], room: &Rows, shelf: &[u8], words: usize) -> (Logs, (u8, u64), Vec<u64>) {
        self.turn += 1;
        let mut logs = Logs::new(room, shelf, self.turn);
        let mut counts = vec![u64::MAX; words];
        // `lend` has what the entry asks for.
        let told = logs.lend(|lent| unsafe { library::trace(self.high, trace, lent, &mut counts) });
        (logs, told, counts)
    }
}

impl Port for Library {
    fn play(&mut self, trace: &[u8], room: &Rows, shelf: &mut [u8]) -> Result<Left, String> {
        let (logs, told, counts) = self.once(trace, room, shelf, 12);
        let rows: [u64; 12] = counts.try_into().expect("twelve counts");
        let left = Left { answer: told.0, at: told.1, rows, words: logs.rows(&rows)? };
        // With too few words for the counts they stay as they were, and all else is the same.
        if self.turn % 32 == 0 {
            let (again, told_again, counts) = self.once(trace, room, shelf, 11);
            let same = told_again == told && again.rows(&rows)? == left.words && again.shelf()? == logs.shelf()?;
            if !same || counts != [u64::MAX; 11] {
                return Err("with eleven words for the counts it does something else".to_string());
            }
        }
        shelf.copy_from_slice(logs.shelf()?);
        Ok(left)
    }
}

/// What one run in blocks told and left: the answer of fresh, the words of each block, the logs and the counts.
struct Run {
    answer: u8,
    blocks: Vec<[u64; 6]>,
    logs: Logs,
    rows: [u64; 12],
}

impl Library {
    fn blocks(&mut self, input: &Input, room: &Rows, shelf: &[u8]) -> Result<Run, String> {
        self.turn += 1;
        let (mut logs, mut record) = (Logs::new(room, shelf, self.turn), Log::new(RECORD, self.turn));
        let (words, mut blocks) = (record.lend().0, Vec::new());
        // `lend` has what the entries ask for, and the record its words.
        let answer = logs.lend(|lent| unsafe { library::blocks(self.high, input, words, lent, |block| blocks.push(block)) });
        let rows = library::counts(record.first(RECORD)?.try_into().expect("the words of a record"));
        Ok(Run { answer, blocks, logs, rows })
    }
}

impl Blocks for Library {
    fn take(&mut self, input: &Input, room: &Rows, shelf: &mut [u8]) -> Result<Taken, String> {
        let Run { answer, blocks, logs, rows } = self.blocks(input, room, shelf)?;
        let left = Left { answer, at: blocks.len() as u64, rows, words: logs.rows(&rows)? };
        // With other words in the record, the table and the logs before, all is the same.
        if self.turn % 32 == 0 {
            let again = self.blocks(input, room, shelf)?;
            let told = (again.answer, &again.blocks, again.rows) == (answer, &blocks, rows);
            if !told || again.logs.rows(&rows)? != left.words || again.logs.shelf()? != logs.shelf()? {
                return Err("with other words in the record before it does something else".to_string());
            }
        }
        shelf.copy_from_slice(logs.shelf()?);
        Ok(Taken { blocks, left })
    }
}

impl Entries for Library {
    fn call(&mut self, call: &Call, memory: &mut Memory) -> Told {
        let record = memory.record.lend().0;
        // `lend` has what the entries ask for, and the record its words.
        memory.logs.lend(|lent| unsafe { library::call(call, record, lent) })
    }

    fn counts(&mut self, memory: &Memory) -> [u64; 12] {
        let record: &[u64; RECORD] = memory.record.cells().try_into().expect("the words of a record");
        library::counts(record)
    }

    fn pcap_head(&mut self, file: &[u8], format: &mut [u64; 2]) -> (u8, u64) {
        library::pcap_head(file, format)
    }

    fn pcap_export(&mut self, memory: &mut Memory, out: Option<&mut Log<u8>>, told: &mut [u64; 3]) -> u8 {
        let (record, out) = (memory.record.lend().0, out.map(Log::lend));
        // As for `call`; `out` has the bytes that it lends.
        memory.logs.lend(|lent| unsafe { library::pcap_export(record, lent, out, told) })
    }
}
