// The capture on storage in memory, and the details rules of document 01 in place of `endpoint_details`, `set_endpoint_type`
// and `decode_request`, with the mode in which requests are read (src/descriptors.rs); included behind the lines of capture.rs.

impl From<u8> for EndpointState {
    fn from(number: u8) -> EndpointState {
        match number {
            1 => EndpointState::Starting,
            2 => EndpointState::Ongoing,
            3 => EndpointState::Ending,
            _ => EndpointState::Idle,
        }
    }
}

/// A request row: the endpoint, the 8 setup bytes, the length of the payload, and the note of what was taken (0 where none is made).
#[derive(Copy, Clone, PartialEq, Debug)]
pub struct Request {
    pub endpoint: u64,
    pub setup: [u8; 8],
    pub length: u64,
    pub note: u64,
}

/// The log of requests, and how they are read.
#[derive(Default)]
pub struct RequestLog {
    pub descriptors: Descriptors,
    pub rows: RefCell<Vec<Request>>,
    /// The rows that are listed cases (src/listed.rs); marked by the mode `Ruled`.
    pub marks: RefCell<Vec<(usize, Case)>>,
}

pub type Requests = Rc<RequestLog>;

impl RequestLog {
    pub fn truncate(&self, rows: usize) {
        self.rows.borrow_mut().truncate(rows);
        self.marks.borrow_mut().retain(|(row, _)| *row < rows);
    }
}

/// What is known of an endpoint of a device: type and largest payload, either unknown; and whether a descriptor gave it, after which no detail
/// record changes it (change request 13). `typed` is for the count of `Met` alone: a detail record set it last.
#[derive(Copy, Clone, PartialEq, Default, Debug)]
pub struct Detail {
    pub kind: Option<usb::EndpointType>,
    pub max: Option<usize>,
    pub given: bool,
    pub typed: bool,
}

impl Detail {
    /// The place of an endpoint among the 32 of a device: 16 numbers out, then 16 in. Number 0 is kept as out.
    pub fn place(addr: EndpointAddr) -> usize {
        let number = addr.number().0 as usize;
        match addr.direction() {
            Direction::In if number != 0 => number + 16,
            _ => number,
        }
    }
}

/// How detail records and descriptors met on a device's entries (change request 13). No rule looks at it.
#[derive(Copy, Clone, PartialEq, Default, Debug)]
pub struct Met {
    /// Details that were obeyed, and those for an entry that a descriptor had given, which change nothing.
    pub obeyed: u64,
    pub unheard: u64,
    /// Entries that a detail had set and a descriptor then gave.
    pub overridden: u64,
}

/// What is read of a device's descriptors.
#[derive(Clone)]
pub enum Reading {
    Off,
    Ruled(RefCell<(Shelf, Witness)>),
    Own(own::DeviceData),
}

/// 32 details for a device, and what was read of its descriptors. In the mode `Own` the Rust keeps its own details.
#[derive(Clone)]
pub struct DeviceData {
    pub details: RefCell<[Detail; 32]>,
    pub met: Cell<Met>,
    reading: Reading,
    requests: Requests,
}

impl DeviceData {
    pub fn new(requests: &Requests) -> DeviceData {
        let reading = match requests.descriptors {
            Descriptors::Off => Reading::Off,
            Descriptors::Ruled => Reading::Ruled(RefCell::default()),
            Descriptors::Own => Reading::Own(Default::default()),
        };
        DeviceData { details: RefCell::default(), met: Cell::default(), reading, requests: requests.clone() }
    }

    pub fn endpoint_details(&self, addr: EndpointAddr) -> (EndpointType, Option<usize>) {
        use EndpointType::*;
        if let Reading::Own(device) = &self.reading {
            return device.endpoint_details(addr);
        }
        match addr.number() {
            INVALID_EP_NUM => (Invalid, None),
            FRAMING_EP_NUM => (Framing, None),
            CONTROL_EP_NUM => (Normal(usb::EndpointType::Control), self.details.borrow()[0].max),
            _ => {
                let detail = self.details.borrow()[Detail::place(addr)];
                match detail.kind {
                    Some(kind) => (Normal(kind), detail.max),
                    None => (Unidentified, None),
                }
            }
        }
    }

    /// A split's type: stored only where none is known, and never for number 0.
    pub fn set_endpoint_type(&self, addr: EndpointAddr, kind: usb::EndpointType) {
        if let Reading::Own(device) = &self.reading {
            return device.set_endpoint_type(addr, kind);
        }
        let detail = &mut self.details.borrow_mut()[Detail::place(addr)];
        if addr.number() != CONTROL_EP_NUM && detail.kind.is_none() {
            detail.kind = Some(kind);
        }
    }

    /// A detail record: sets both, unless a descriptor has given the entry (change request 13). The Rust has no such call, so in the mode `Own`
    /// it does nothing.
    pub fn set_detail(&self, addr: EndpointAddr, kind: usb::EndpointType, max: u16) {
        let (entry, mut met) = (&mut self.details.borrow_mut()[Detail::place(addr)], self.met.get());
        if entry.given {
            met.unheard += 1;
        } else {
            let max = if max == 0 { None } else { Some(max as usize) };
            *entry = Detail { kind: Some(kind), max, given: false, typed: true };
            met.obeyed += 1;
        }
        self.met.set(met);
    }

    /// A payload that was seen on an endpoint whose request is a read (src/descriptors.rs, R3).
    pub fn lay(&self, counted: usize, payload: &[u8]) {
        if let Reading::Ruled(kept) = &self.reading {
            let shelf = &mut kept.borrow_mut().0;
            assert!(counted.min(BYTES) <= shelf.written()[0].len(), "bytes count that were not laid by");
            shelf.lay(counted, payload);
        }
    }

    pub fn decode_request(&self, endpoint: EndpointId, fields: &SetupFields, payload: &[u8]) -> Result<(), Error> {
        let (setup, length) = (fields.bytes(), payload.len());
        let note = match &self.reading {
            Reading::Off => 0,
            Reading::Ruled(kept) => self.ruled(&mut kept.borrow_mut(), &setup, payload),
            Reading::Own(device) => {
                own::decode_request(device, fields, payload)?;
                0
            }
        };
        self.requests.rows.borrow_mut().push(Request { endpoint: endpoint.value, setup, length: length as u64, note });
        Ok(())
    }

    /// A request by the rules, with the marks of the row that will be pushed. The bytes on the shelf must be the payload that the decoder
    /// itself has collected: so both ways to say which bytes count are tried.
    fn ruled(&self, (shelf, witness): &mut (Shelf, Witness), setup: &[u8; 8], payload: &[u8]) -> u64 {
        let mut details = self.details.borrow_mut();
        if matches!(kind(setup), Kind::DeviceRead | Kind::ConfigurationRead) {
            let read = shelf.payload(payload.len());
            assert_eq!(read, &payload[..read.len()], "the shelf does not hold the payload");
        }
        let row = self.requests.rows.borrow().len();
        let cases = witness.marks(setup, payload);
        self.requests.marks.borrow_mut().extend(cases.into_iter().map(|case| (row, case)));
        witness.follow(setup, payload);
        let before = *details;
        let note = shelf.request(setup, payload.len(), &mut details);
        let mut met = self.met.get();
        met.overridden += before.iter().zip(details.iter()).filter(|(old, new)| old.typed && new.given).count() as u64;
        self.met.set(met);
        note
    }

    /// The entries that were read of the device's configurations, and the chosen one.
    pub fn read(&self) -> (Vec<Entry>, Option<u8>) {
        match &self.reading {
            Reading::Ruled(kept) => (kept.borrow().0.entries.clone(), kept.borrow().0.chosen),
            Reading::Off | Reading::Own(_) => Default::default(),
        }
    }

    /// What the device's part of the shelf holds of it is written there; other bytes stay.
    pub fn write_shelf(&self, part: &mut [u8]) {
        if let Reading::Ruled(kept) = &self.reading {
            for (half, bytes) in part.chunks_mut(BYTES).zip(kept.borrow().0.written()) {
                half[..bytes.len()].copy_from_slice(bytes);
            }
        }
    }

    /// The details of each place as a number for the type, 4 for none, and the max, 0 for none.
    pub fn told(&self) -> [(u8, usize); 32] {
        std::array::from_fn(|place| {
            let addr = EndpointAddr::from_parts(EndpointNum(place as u8 % 16), Direction::from(place as u8 / 16));
            match self.endpoint_details(addr) {
                (EndpointType::Normal(kind), max) => (kind as u8, max.unwrap_or(0)),
                (_, max) => (4, max.unwrap_or(0)),
            }
        })
    }
}

/// Stands where the counters of the capture database do; it hands each new endpoint its number and the journal.
pub struct CounterSet {
    pub endpoints: u64,
    pub journal: SharedJournal,
}

pub struct Counter(Cell<u64>);

impl Counter {
    pub fn store(&self, value: u64) {
        self.0.set(value);
    }
}

pub struct EndpointShared {
    pub total_data: Counter,
}

/// Readers are left out.
pub struct EndpointReader;

#[derive(Clone)]
pub struct EndpointWriter {
    pub shared: Arc<EndpointShared>,
    pub transaction_ids: LinkWriter<EndpointTransactionId, TransactionId>,
    pub group_index: LinkWriter<EndpointGroupId, EndpointTransactionId>,
    pub data_transactions: LinkWriter<EndpointDataEvent, EndpointTransactionId>,
    pub data_byte_counts: LinkWriter<EndpointDataEvent, EndpointByteCount>,
    pub end_index: LinkWriter<EndpointGroupId, TrafficItemId>,
}

pub fn create_endpoint(db: &mut CounterSet) -> Result<(EndpointWriter, EndpointReader), Error> {
    let endpoint = db.endpoints;
    db.endpoints += 1;
    let writer = EndpointWriter {
        shared: Arc::new(EndpointShared { total_data: Counter(Cell::new(0)) }),
        transaction_ids: LinkWriter::new(Link::T, endpoint, &db.journal),
        group_index: LinkWriter::new(Link::G, endpoint, &db.journal),
        data_transactions: LinkWriter::new(Link::D, endpoint, &db.journal),
        data_byte_counts: LinkWriter::new(Link::Total, endpoint, &db.journal),
        end_index: LinkWriter::new(Link::E, endpoint, &db.journal),
    };
    Ok((writer, EndpointReader))
}

pub struct CaptureShared {
    pub device_data: Shared<VecMap<DeviceId, Arc<DeviceData>>>,
    pub endpoint_index: Shared<VecMap<DeviceAddr, VecMap<EndpointAddr, EndpointId>>>,
    pub endpoint_readers: Shared<VecMap<EndpointId, Arc<EndpointReader>>>,
    pub complete: AtomicBool,
    pub requests: Requests,
}

pub struct CaptureWriter {
    pub counters: CounterSet,
    pub shared: Arc<CaptureShared>,
    pub endpoint_writers: VecMap<EndpointId, EndpointWriter>,
    pub packet_data: DataWriter<u8>,
    pub packet_index: CompactWriter<PacketId, PacketByteId>,
    pub packet_times: CompactWriter<PacketId, Timestamp>,
    pub event_index: CompactWriter<EventId, PacketId>,
    pub event_codes: DataWriter<u8>,
    pub transaction_index: CompactWriter<TransactionId, PacketId>,
    pub group_index: DataWriter<GroupIndexEntry>,
    pub item_index: CompactWriter<TrafficItemId, GroupId>,
    pub devices: DataWriter<Device>,
    pub endpoints: DataWriter<Endpoint>,
    pub endpoint_states: DataWriter<u8>,
    pub endpoint_state_index: CompactWriter<GroupId, Id<u8>>,
}

/// An empty capture. With a trail the journal has the place of packet, group and item rows too.
pub fn create_capture(trail: bool, descriptors: Descriptors) -> CaptureWriter {
    let journal = Rc::new(RefCell::new(Journal { trail, ..Journal::default() }));
    let mut capture = CaptureWriter {
        counters: CounterSet { endpoints: 0, journal: journal.clone() },
        shared: Arc::new(CaptureShared {
            device_data: Shared::default(),
            endpoint_index: Shared::default(),
            endpoint_readers: Shared::default(),
            complete: AtomicBool::new(false),
            requests: Rc::new(RequestLog { descriptors, ..RequestLog::default() }),
        }),
        endpoint_writers: VecMap::new(),
        packet_data: DataWriter::new(),
        packet_index: CompactWriter::new(),
        packet_times: CompactWriter::new(),
        event_index: CompactWriter::new(),
        event_codes: DataWriter::new(),
        transaction_index: CompactWriter::new(),
        group_index: DataWriter::new(),
        item_index: CompactWriter::new(),
        devices: DataWriter::new(),
        endpoints: DataWriter::new(),
        endpoint_states: DataWriter::new(),
        endpoint_state_index: CompactWriter::new(),
    };
    capture.packet_index.stream.mark = Some((journal.clone(), |_, _| Mark::Packet));
    capture.group_index.mark =
        Some((journal.clone(), |_, g| Mark::Group(g.endpoint_id().value, g.group_id().value, g.is_start())));
    capture.item_index.stream.mark = Some((journal, |item, _| Mark::Item(item)));
    capture
}

pub mod prelude {
    pub use super::{
        CaptureWriter, Device, DeviceData, DeviceId, EVENT_EP_ID, EVENT_EP_NUM, Endpoint, EndpointGroupId, EndpointId,
        EndpointLookup, EndpointState, EndpointTransactionId, EndpointType, FRAMING_EP_NUM, GroupId, GroupIndexEntry,
        INVALID_EP_ID, INVALID_EP_NUM, PacketId, TrafficItemId, TransactionId, create_endpoint,
    };
}
