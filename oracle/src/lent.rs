//! What is lent to a port: logs that are filled before with what no row has, with cells on either side that nobody may write, and that are looked at
//! behind; the table and the shelf.

use crate::calls::{BYTES, LOGS, Rows, STATE_BYTES, WIDTHS};
use crate::descriptors::SHELF;

/// Cells on either side of a lent log that nobody may write.
const GUARD: usize = 8;
/// A log past this length is zeros before, and is looked at only near its ends.
const LONG: usize = 1 << 20;
const NEAR: usize = 1 << 12;

/// The words of the endpoint table; the bytes of the shelf are `descriptors::SHELF`.
pub const TABLE: usize = 2704;

/// A lent log: where it starts, and how many elements it has.
pub type Slice<T> = (*mut T, usize);

/// What is lent for a call: the table, the shelf, the two logs of bytes, and the logs of words in their order.
pub struct Lent {
    pub table: *mut u64,
    pub shelf: *mut u8,
    pub bytes: Slice<u8>,
    pub statebytes: Slice<u8>,
    pub words: [Slice<u64>; 10],
}

pub trait Cell: Copy + PartialEq + Default + Into<u64> {
    fn from_word(word: u64) -> Self;
}

impl Cell for u8 {
    fn from_word(word: u64) -> u8 {
        word as u8
    }
}

impl Cell for u64 {
    fn from_word(word: u64) -> u64 {
        word
    }
}

/// A log that is lent, filled before with what no row has.
#[derive(Clone)]
pub struct Log<T> {
    cells: Vec<T>,
    /// How many are lent; some between them and the guard behind may not be.
    length: usize,
    turn: u64,
    /// The cells while others are lent in their place.
    aside: Option<(Vec<T>, usize)>,
}

impl<T: Cell> Log<T> {
    pub fn new(length: usize, turn: u64) -> Self {
        let mut log = Log { cells: vec![T::default(); length + 2 * GUARD], length, turn, aside: None };
        if length <= LONG {
            log.fill(turn);
        }
        log
    }

    /// Other words in every cell.
    pub fn fill(&mut self, turn: u64) {
        self.turn = turn;
        for i in 0..self.cells.len() {
            self.cells[i] = self.before(i);
        }
    }

    /// One that holds these cells.
    pub fn holding(cells: &[T], turn: u64) -> Self {
        let mut log = Log { cells: Vec::with_capacity(cells.len() + 2 * GUARD), length: cells.len(), turn, aside: None };
        let guard = |log: &Log<T>| (0..GUARD).map(|i| log.before(log.cells.len() + i)).collect::<Vec<T>>();
        log.cells.extend(guard(&log));
        log.cells.extend(cells);
        log.cells.extend(guard(&log));
        log
    }

    /// What stood in a cell before the call.
    fn before(&self, cell: usize) -> T {
        match self.length <= LONG {
            true => T::from_word((cell as u64 + self.turn).wrapping_mul(0x9E37_79B9_7F4A_7C15) >> 7),
            false => T::default(),
        }
    }

    pub fn lend(&mut self) -> Slice<T> {
        (self.cells[GUARD..].as_mut_ptr(), self.length)
    }

    /// The first so many cells; every other must be as it was.
    pub fn first(&self, count: usize) -> Result<&[T], String> {
        if count > self.length {
            return Err(format!("{count} words of rows in a log of {}", self.length));
        }
        let (from, to, end) = (GUARD, GUARD + count, self.cells.len());
        let (near, far) = if self.length <= LONG { (end, end) } else { (to + NEAR, end - NEAR) };
        let written = (0..from).chain(to..near).chain(far..end).find(|i| self.cells[*i] != self.before(*i));
        match written {
            Some(i) => Err(format!("cell {} is written, and the rows have {count}", i as i64 - GUARD as i64)),
            None => Ok(&self.cells[from..to]),
        }
    }

    /// So many words of rows.
    pub fn words(&self, count: usize) -> Result<Vec<u64>, String> {
        Ok(self.first(count)?.iter().map(|c| (*c).into()).collect())
    }

    /// Its own cells, also while others are lent in their place.
    fn own(&self) -> &[T] {
        self.aside.as_ref().map_or(&self.cells, |(cells, _)| cells)
    }

    /// The cells without guards, lent or not.
    pub fn cells(&self) -> &[T] {
        &self.cells[GUARD..self.cells.len() - GUARD]
    }

    pub fn cells_mut(&mut self) -> &mut [T] {
        let end = self.cells.len() - GUARD;
        &mut self.cells[GUARD..end]
    }

    /// The same cells as another's, guards among them.
    pub fn copy(&mut self, other: &Log<T>) {
        self.cells.copy_from_slice(&other.cells);
    }

    /// The first cell that is another than in a log that began the same.
    pub fn differs(&self, other: &Log<T>) -> Option<String> {
        differs(self.own(), other.own(), 0)
    }

    /// The same of the cells from one on, so many of them.
    fn differs_near(&self, other: &Log<T>, from: usize, count: usize) -> Option<String> {
        let (cells, others) = (self.own(), other.own());
        let from = (GUARD + from).min(cells.len());
        let to = (from + count).min(cells.len());
        differs(&cells[from..to], &others[from..to], from)
    }

    /// The same of the cells that are not lent.
    fn differs_outside(&self, other: &Log<T>) -> Option<String> {
        let behind = GUARD + self.length;
        let before = differs(&self.cells[..GUARD], &other.cells[..GUARD], 0);
        before.or_else(|| differs(&self.cells[behind..], &other.cells[behind..], behind))
    }
}

/// Slices are compared faster than cell by cell.
fn differs<T: Cell>(cells: &[T], other: &[T], from: usize) -> Option<String> {
    if cells == other {
        return None;
    }
    let at = cells.iter().zip(other).position(|(a, b)| a != b)?;
    let (is, was): (u64, u64) = (cells[at].into(), other[at].into());
    Some(format!("cell {} is {is:#x}, and not {was:#x}", (from + at) as i64 - GUARD as i64))
}

/// A log of bytes or of words.
pub trait Rowed {
    fn length(&self) -> usize;
    /// So many cells are lent from here on, of those that there are.
    fn lend_first(&mut self, length: usize);
    /// Zeros are lent in its place, as many as asked.
    fn lend_zeros(&mut self, length: usize);
    /// What was lent in its place must be zeros still.
    fn put_back(&mut self) -> Result<(), String>;
    /// The words from a cell on, so many.
    fn read(&self, from: usize, count: usize) -> Vec<u64>;
    /// Writes words from a cell on.
    fn write(&mut self, from: usize, words: &[u64]);
    /// The first of these words that does not stand there.
    fn lacks(&self, from: usize, words: &[u64]) -> Option<usize>;
}

impl<T: Cell> Rowed for Log<T> {
    fn length(&self) -> usize {
        self.length
    }

    fn lend_first(&mut self, length: usize) {
        assert!(length + 2 * GUARD <= self.cells.len(), "a log with fewer cells");
        self.length = length;
    }

    fn lend_zeros(&mut self, length: usize) {
        let zeros = vec![T::default(); length + 2 * GUARD];
        self.aside = Some((std::mem::replace(&mut self.cells, zeros), self.length));
        self.length = length;
    }

    fn put_back(&mut self) -> Result<(), String> {
        let written = self.first(0).map(|_| ());
        (self.cells, self.length) = self.aside.take().expect("cells that were put aside");
        written
    }

    fn read(&self, from: usize, count: usize) -> Vec<u64> {
        self.cells()[from..from + count].iter().map(|cell| (*cell).into()).collect()
    }

    fn write(&mut self, from: usize, words: &[u64]) {
        for (cell, word) in self.cells_mut()[from..].iter_mut().zip(words) {
            *cell = T::from_word(*word);
        }
    }

    fn lacks(&self, from: usize, words: &[u64]) -> Option<usize> {
        let cells = &self.cells()[from..from + words.len()];
        cells.iter().zip(words).position(|(cell, word)| (*cell).into() != *word)
    }
}

/// The twelve logs: the two of bytes, and the others in their order; the table and the shelf.
#[derive(Clone)]
pub struct Logs {
    pub table: Log<u64>,
    pub shelf: Log<u8>,
    bytes: Log<u8>,
    statebytes: Log<u8>,
    words: [Log<u64>; 10],
}

/// The logs of words by their numbers.
const OF_WORDS: [usize; 10] = [1, 2, 3, 4, 5, 6, 8, 9, 10, 11];

fn place(log: usize) -> usize {
    log - 1 - (log > STATE_BYTES) as usize
}

impl Logs {
    /// Room for so many rows, and some words behind them that make no row.
    pub fn new(room: &Rows, shelf: &[u8], turn: u64) -> Logs {
        let length = |log: usize| room.0[log] as usize * WIDTHS[log] + turn as usize % WIDTHS[log];
        Logs {
            table: Log::new(TABLE, 1),
            shelf: Log::holding(shelf, turn),
            bytes: Log::new(length(BYTES), turn),
            statebytes: Log::new(length(STATE_BYTES), turn),
            words: OF_WORDS.map(|log| Log::new(length(log), turn)),
        }
    }

    /// The table, the shelf and the logs, lent for a call that uses each once, with their true lengths.
    pub fn lend<T>(&mut self, call: impl FnOnce(&Lent) -> T) -> T {
        call(&Lent {
            table: self.table.lend().0,
            shelf: self.shelf.lend().0,
            bytes: self.bytes.lend(),
            statebytes: self.statebytes.lend(),
            words: self.words.each_mut().map(Log::lend),
        })
    }

    /// What stands on the shelf.
    pub fn shelf(&self) -> Result<&[u8], String> {
        self.shelf.first(SHELF).map_err(|e| format!("shelf: {e}"))
    }

    /// The words of each log's rows.
    pub fn rows(&self, rows: &[u64; 12]) -> Result<[Vec<u64>; 12], String> {
        let mut out: [Vec<u64>; 12] = Default::default();
        for (log, words) in out.iter_mut().enumerate() {
            let count = rows[log] as usize * WIDTHS[log];
            let found = match log {
                BYTES => self.bytes.words(count),
                STATE_BYTES => self.statebytes.words(count),
                _ => self.words[place(log)].words(count),
            };
            *words = found.map_err(|e| format!("{}: {e}", LOGS[log]))?;
        }
        Ok(out)
    }

    pub fn log(&self, log: usize) -> &dyn Rowed {
        match log {
            BYTES => &self.bytes,
            STATE_BYTES => &self.statebytes,
            _ => &self.words[place(log)],
        }
    }

    pub fn log_mut(&mut self, log: usize) -> &mut dyn Rowed {
        match log {
            BYTES => &mut self.bytes,
            STATE_BYTES => &mut self.statebytes,
            _ => &mut self.words[place(log)],
        }
    }

    /// The rows that there is room for, by the lengths.
    pub fn room(&self) -> Rows {
        Rows(std::array::from_fn(|log| (self.log(log).length() / WIDTHS[log]) as u64))
    }

    /// Other words in every cell of the logs; table and shelf stay.
    pub fn fill(&mut self, turn: u64) {
        self.bytes.fill(turn);
        self.statebytes.fill(turn);
        self.words.iter_mut().for_each(|log| log.fill(turn));
    }

    /// The cells of the logs as they are in others.
    pub fn copy_logs(&mut self, other: &Logs) {
        self.bytes.copy(&other.bytes);
        self.statebytes.copy(&other.statebytes);
        self.words.iter_mut().zip(&other.words).for_each(|(log, other)| log.copy(other));
    }

    /// A log that is not as in others, by a comparison of bytes and one of words.
    fn find(
        &self,
        other: &Logs,
        bytes: impl Fn(usize, &Log<u8>, &Log<u8>) -> Option<String>,
        words: impl Fn(usize, &Log<u64>, &Log<u64>) -> Option<String>,
    ) -> Result<(), String> {
        let found = (0..12).find_map(|log| {
            let text = match log {
                BYTES => bytes(log, &self.bytes, &other.bytes),
                STATE_BYTES => bytes(log, &self.statebytes, &other.statebytes),
                _ => words(log, &self.words[place(log)], &other.words[place(log)]),
            };
            text.map(|text| format!("{}: {text}", LOGS[log]))
        });
        found.map_or(Ok(()), Err)
    }

    /// Every cell of every log must be as in others.
    pub fn same(&self, other: &Logs) -> Result<(), String> {
        self.find(other, |_, a, b| a.differs(b), |_, a, b| a.differs(b))
    }

    /// The same of the first cells behind so many rows.
    pub fn same_near(&self, other: &Logs, rows: &[u64; 12], count: usize) -> Result<(), String> {
        let from = |log: usize| rows[log] as usize * WIDTHS[log];
        self.find(other, |log, a, b| a.differs_near(b, from(log), count), |log, a, b| a.differs_near(b, from(log), count))
    }

    /// The same of the cells that are not lent.
    pub fn same_outside(&self, other: &Logs) -> Result<(), String> {
        self.find(other, |_, a, b| a.differs_outside(b), |_, a, b| a.differs_outside(b))
    }
}
