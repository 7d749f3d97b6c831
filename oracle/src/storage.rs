//! Storage in memory: ids, maps by id, and the logs as `Vec`s. It stands for the parts of packetry's util and database
//! that docs/src does not have.

use std::cell::{Ref, RefCell};
use std::marker::PhantomData;
use std::ops::{Index, IndexMut, Range};
use std::rc::Rc;

use crate::crates::Error;

/// The number of a row, typed by what the row holds.
pub struct Id<T> {
    kind: PhantomData<fn() -> T>,
    pub value: u64,
}

impl<T> Id<T> {
    pub const fn constant(value: u64) -> Self {
        Id { kind: PhantomData, value }
    }
}

impl<T> Copy for Id<T> {}

impl<T> Clone for Id<T> {
    fn clone(&self) -> Self {
        *self
    }
}

impl<T> PartialEq for Id<T> {
    fn eq(&self, other: &Self) -> bool {
        self.value == other.value
    }
}

impl<T> From<u64> for Id<T> {
    fn from(value: u64) -> Self {
        Id::constant(value)
    }
}

impl<T> From<Id<T>> for u64 {
    fn from(id: Id<T>) -> u64 {
        id.value
    }
}

impl<T> From<Id<T>> for usize {
    fn from(id: Id<T>) -> usize {
        id.value as usize
    }
}

/// A map from small numbers, as packetry's vec_map.
#[derive(Clone)]
pub struct VecMap<K, V> {
    kind: PhantomData<fn() -> K>,
    entries: Vec<Option<V>>,
}

impl<K: Into<usize>, V> VecMap<K, V> {
    pub fn new() -> Self {
        VecMap { kind: PhantomData, entries: Vec::new() }
    }

    pub fn get(&self, key: K) -> Option<&V> {
        self.entries.get(key.into()).and_then(Option::as_ref)
    }

    pub fn get_mut(&mut self, key: K) -> Option<&mut V> {
        self.entries.get_mut(key.into()).and_then(Option::as_mut)
    }

    pub fn set(&mut self, key: K, value: V) {
        let place = key.into();
        if self.entries.len() <= place {
            self.entries.resize_with(place + 1, || None);
        }
        self.entries[place] = Some(value);
    }

    pub fn values(&self) -> impl Iterator<Item = &V> {
        self.entries.iter().flatten()
    }

    pub fn values_mut(&mut self) -> impl Iterator<Item = &mut V> {
        self.entries.iter_mut().flatten()
    }
}

impl<K: Into<usize>, V> Default for VecMap<K, V> {
    fn default() -> Self {
        VecMap::new()
    }
}

impl<K: Into<usize>, V> Index<K> for VecMap<K, V> {
    type Output = V;

    fn index(&self, key: K) -> &V {
        self.get(key).expect("an entry at this key")
    }
}

impl<K: Into<usize>, V> IndexMut<K> for VecMap<K, V> {
    fn index_mut(&mut self, key: K) -> &mut V {
        self.get_mut(key).expect("an entry at this key")
    }
}

/// A value that readers share and one writer updates, as ArcSwap with packetry's rcu.
#[derive(Clone, Default)]
pub struct Shared<T>(RefCell<T>);

impl<T> Shared<T> {
    pub fn load(&self) -> Ref<'_, T> {
        self.0.borrow()
    }

    pub fn store(&self, value: T) {
        *self.0.borrow_mut() = value;
    }
}

pub trait SingleWriterRcu<T> {
    fn update(&self, change: impl FnOnce(&mut T));
}

impl<T> SingleWriterRcu<T> for Shared<T> {
    fn update(&self, change: impl FnOnce(&mut T)) {
        change(&mut self.0.borrow_mut());
    }
}

/// What stands in the journal: the rows of an endpoint in the order appended, and, where a trail is kept, the rows between them.
#[derive(Copy, Clone, PartialEq, Debug)]
pub enum Mark {
    /// Endpoint, transaction.
    T(u64, u64),
    /// Endpoint, endpoint transaction.
    G(u64, u64),
    /// Endpoint, endpoint transaction, total before.
    D(u64, u64, u64),
    /// Endpoint, item.
    E(u64, u64),
    /// The place of a packet row, a group row (endpoint, group, start) and an item row in the order; a trail has them.
    Packet,
    Group(u64, u64, bool),
    Item(u64),
}

#[derive(Default)]
pub struct Journal {
    pub marks: Vec<Mark>,
    /// How many of the marks are link rows (T, G, D, E).
    pub links: usize,
    pub trail: bool,
    /// The account of a traced decoder (src/ledger.rs): of each payload that it counted the endpoint, the packet, the length and the total before.
    pub counted: Vec<[u64; 4]>,
}

impl Journal {
    fn link(&mut self, mark: Mark) {
        self.marks.push(mark);
        self.links += 1;
    }
}

pub type SharedJournal = Rc<RefCell<Journal>>;

/// A stream of rows, each of which is pushed and gets the next number.
pub struct DataWriter<T> {
    pub rows: Vec<T>,
    /// What a push leaves in a trail.
    pub mark: Option<(SharedJournal, fn(u64, T) -> Mark)>,
}

impl<T: Copy> DataWriter<T> {
    pub fn new() -> Self {
        DataWriter { rows: Vec::new(), mark: None }
    }

    pub fn push(&mut self, row: &T) -> Result<Id<T>, Error> {
        let id = self.len();
        if let Some((journal, mark)) = &self.mark {
            let mut journal = journal.borrow_mut();
            if journal.trail {
                journal.marks.push(mark(id, *row));
            }
        }
        self.rows.push(*row);
        Ok(Id::from(id))
    }

    pub fn append(&mut self, rows: &[T]) -> Result<Range<Id<T>>, Error> {
        let start = self.len();
        self.rows.extend_from_slice(rows);
        Ok(Id::from(start)..Id::from(self.len()))
    }

    pub fn len(&self) -> u64 {
        self.rows.len() as u64
    }

    pub fn is_empty(&self) -> bool {
        self.rows.is_empty()
    }
}

impl<T: Copy> Default for DataWriter<T> {
    fn default() -> Self {
        DataWriter::new()
    }
}

/// An index: a stream of numbers, typed by what they name.
pub struct CompactWriter<K, V> {
    kind: PhantomData<fn(K) -> V>,
    pub stream: DataWriter<u64>,
}

impl<K: From<u64>, V: Into<u64>> CompactWriter<K, V> {
    pub fn new() -> Self {
        CompactWriter { kind: PhantomData, stream: DataWriter::new() }
    }

    pub fn push(&mut self, value: V) -> Result<K, Error> {
        Ok(K::from(self.stream.push(&value.into())?.value))
    }
}

impl<K: From<u64>, V: Into<u64>> Default for CompactWriter<K, V> {
    fn default() -> Self {
        CompactWriter::new()
    }
}

/// Which of an endpoint's rows a link writer appends.
#[derive(Copy, Clone)]
pub enum Link {
    T,
    G,
    D,
    /// The second half of a D row: the total before it.
    Total,
    E,
}

/// An index of one endpoint. Its rows stand in the journal that all endpoints share, since the listing has them in the order appended.
#[derive(Clone)]
pub struct LinkWriter<K, V> {
    kind: PhantomData<fn(K) -> V>,
    link: Link,
    endpoint: u64,
    pub count: u64,
    journal: SharedJournal,
}

impl<K: From<u64>, V: Into<u64>> LinkWriter<K, V> {
    pub fn new(link: Link, endpoint: u64, journal: &SharedJournal) -> Self {
        LinkWriter { kind: PhantomData, link, endpoint, count: 0, journal: journal.clone() }
    }

    pub fn push(&mut self, value: V) -> Result<K, Error> {
        let (x, value) = (self.endpoint, value.into());
        let mut journal = self.journal.borrow_mut();
        match (self.link, journal.marks.last_mut()) {
            (Link::T, _) => journal.link(Mark::T(x, value)),
            (Link::G, _) => journal.link(Mark::G(x, value)),
            (Link::D, _) => journal.link(Mark::D(x, value, 0)),
            (Link::Total, Some(Mark::D(_, _, total))) => *total = value,
            (Link::Total, _) => return Err(Error("a total with no D row before it".to_string())),
            (Link::E, _) => journal.link(Mark::E(x, value)),
        }
        self.count += 1;
        Ok(K::from(self.count - 1))
    }
}
