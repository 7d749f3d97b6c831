// A decoder that can be called, looked into and put back; included in each module that holds a decoder, so that it sees its
// private state.

use super::*;
use crate::calls::{EndpointView, Mechanism, Place, Style, TransactionView, View};
use crate::capture::{DeviceData, create_capture};
use crate::descriptors::{Descriptors, Kind, kind};
use crate::mode::yields;
use crate::storage::Journal;

pub struct Machine {
    /// Gone once it has finished: `finish` takes the decoder and hands back the capture.
    decoder: Option<Decoder>,
    finished: Option<CaptureWriter>,
}

/// Everything that a call may change, as it was before: the state copied, the logs by their lengths.
pub struct Saved {
    device_index: VecMap<DeviceAddr, DeviceId>,
    endpoint_data: VecMap<EndpointId, EndpointData>,
    last_endpoint_state: Vec<u8>,
    last_item_endpoint: Option<EndpointId>,
    transaction_state: Option<TransactionState>,
    suspended_transaction: Option<TransactionState>,
    event_state: EventState,
    ls_keepalive_item: Option<TrafficItemId>,
    endpoint_writers: VecMap<EndpointId, crate::capture::EndpointWriter>,
    endpoint_index: VecMap<DeviceAddr, VecMap<EndpointAddr, EndpointId>>,
    devices: Vec<DeviceData>,
    lengths: [usize; 17],
}

impl Machine {
    fn decoder(&self) -> &Decoder {
        self.decoder.as_ref().expect("a decoder that has not finished")
    }

    /// The PID and the status of a packet, were it the next.
    pub fn status(&self, packet: &[u8]) -> (u8, &'static str) {
        named_status(&self.decoder().transaction_state, packet)
    }

    fn decoder_mut(&mut self) -> &mut Decoder {
        self.decoder.as_mut().expect("a decoder that has not finished")
    }

    /// Lays a payload by before its packet is taken (src/descriptors.rs, R3): that of a packet which yields one, which the transaction takes and
    /// which is no setup data, on an endpoint whose kept setup is a read. What it may count for is seen here, whether it counts is not.
    fn lay(&self, packet: &[u8]) {
        use TransactionStyle::*;
        let d = self.decoder();
        let found = if d.suspended_transaction.is_some() { &d.suspended_transaction } else { &d.transaction_state };
        let Some(state) = found else { return };
        let (Some(id), Ok((pid, status))) = (state.endpoint_id, transaction_status(found, packet)) else { return };
        let of_setup = matches!(
            (&state.style, pid),
            (Simple(PID::SETUP) | Split(StartComplete::Start, usb::EndpointType::Control, Some(PID::SETUP)), PID::DATA0)
        );
        if !yields(HIGH, pid) || of_setup || status == TransactionStatus::Invalid {
            return;
        }
        let e = &d.endpoint_data[id];
        let asked = e.setup.map(|fields| kind(&fields.bytes()));
        if let (Some(Kind::DeviceRead | Kind::ConfigurationRead), Ok(device)) = (asked, d.capture.device_data(e.device_id)) {
            device.lay(e.payload.len(), &packet[1..packet.len() - 2]);
        }
    }
}

fn lengths(c: &CaptureWriter) -> [usize; 17] {
    [
        c.packet_data.rows.len(),
        c.packet_index.stream.rows.len(),
        c.packet_times.stream.rows.len(),
        c.event_index.stream.rows.len(),
        c.event_codes.rows.len(),
        c.transaction_index.stream.rows.len(),
        c.group_index.rows.len(),
        c.item_index.stream.rows.len(),
        c.devices.rows.len(),
        c.endpoints.rows.len(),
        c.endpoint_states.rows.len(),
        c.endpoint_state_index.stream.rows.len(),
        c.counters.journal.borrow().marks.len(),
        c.shared.requests.rows.borrow().len(),
        c.counters.endpoints as usize,
        c.counters.journal.borrow().links,
        c.counters.journal.borrow().counted.len(),
    ]
}

fn truncate(c: &mut CaptureWriter, n: &[usize; 17]) {
    c.packet_data.rows.truncate(n[0]);
    c.packet_index.stream.rows.truncate(n[1]);
    c.packet_times.stream.rows.truncate(n[2]);
    c.event_index.stream.rows.truncate(n[3]);
    c.event_codes.rows.truncate(n[4]);
    c.transaction_index.stream.rows.truncate(n[5]);
    c.group_index.rows.truncate(n[6]);
    c.item_index.stream.rows.truncate(n[7]);
    c.devices.rows.truncate(n[8]);
    c.endpoints.rows.truncate(n[9]);
    c.endpoint_states.rows.truncate(n[10]);
    c.endpoint_state_index.stream.rows.truncate(n[11]);
    c.counters.journal.borrow_mut().marks.truncate(n[12]);
    c.shared.requests.truncate(n[13]);
    c.counters.endpoints = n[14] as u64;
    c.counters.journal.borrow_mut().links = n[15];
    c.counters.journal.borrow_mut().counted.truncate(n[16]);
}

fn transaction_view(t: &TransactionState) -> TransactionView {
    TransactionView {
        lacks_token: matches!(t.style, TransactionStyle::Split(_, _, None)),
        id: t.id.value,
        endpoint: t.endpoint_id.map(|x| x.value),
        link: t.ep_transaction_id.map(|x| x.value),
        payload: t.payload.as_ref().map(|p| p.len() as u64),
    }
}

fn style(t: &TransactionState) -> Style {
    let (split, first) = match t.style {
        TransactionStyle::Simple(first) => (None, first),
        TransactionStyle::Split(sc, kind, token) => (Some((sc as u8, kind as u8)), token.unwrap_or(PID::Malformed)),
    };
    Style { split, first: first as u8, last: t.last as u8, kind: t.endpoint_type.map_or(4, |kind| kind as u8) }
}

fn endpoint_view(e: &EndpointData) -> EndpointView {
    EndpointView {
        device: e.device_id.value,
        early: e.early_start.map(|g| g.value),
        active: e.active.as_ref().map(|g| (g.id.value, g.first as u8)),
        ended: e.ended.map(|g| g.value),
        payload: e.payload.len() as u64,
        pending: e.pending_payload.as_ref().map(|(p, id)| (p.len() as u64, id.value)),
        total: e.total_data,
    }
}

impl Mechanism for Machine {
    const HIGH: bool = HIGH;
    type Saved = Saved;

    fn fresh(trail: bool, descriptors: Descriptors) -> Self {
        let decoder = Decoder::new(create_capture(trail, descriptors)).expect("a fresh decoder");
        Machine { decoder: Some(decoder), finished: None }
    }

    fn packet(&mut self, packet: &[u8], time: u64) -> Result<(), Error> {
        if self.capture().shared.requests.descriptors == Descriptors::Ruled {
            self.lay(packet);
        }
        self.decoder_mut().handle_raw_packet(packet, time)
    }

    fn event(&mut self, event: EventType, code: u8, time: u64) -> Result<(), Error> {
        self.decoder_mut().handle_event(event, time)?;
        // The code byte is the caller's.
        let codes = &mut self.decoder_mut().capture.event_codes.rows;
        *codes.last_mut().expect("the code of this event") = code;
        Ok(())
    }

    fn finish(&mut self) -> Result<(), Error> {
        let decoder = self.decoder.take().expect("a decoder that has not finished");
        self.finished = Some(decoder.finish()?);
        Ok(())
    }

    fn device(&self, address: u8) -> Option<Arc<DeviceData>> {
        let decoder = self.decoder();
        let id = decoder.device_index.get(DeviceAddr(address))?;
        decoder.capture.device_data(*id).ok()
    }

    fn capture(&self) -> &CaptureWriter {
        self.finished.as_ref().unwrap_or_else(|| &self.decoder().capture)
    }

    fn journal(&self) -> std::cell::Ref<'_, Journal> {
        self.capture().counters.journal.borrow()
    }

    fn save(&self) -> Saved {
        let d = self.decoder();
        Saved {
            device_index: d.device_index.clone(),
            endpoint_data: d.endpoint_data.clone(),
            last_endpoint_state: d.last_endpoint_state.clone(),
            last_item_endpoint: d.last_item_endpoint,
            transaction_state: d.transaction_state.clone(),
            suspended_transaction: d.suspended_transaction.clone(),
            event_state: d.event_state,
            ls_keepalive_item: d.ls_keepalive_item,
            endpoint_writers: d.capture.endpoint_writers.clone(),
            endpoint_index: d.capture.shared.endpoint_index.load().clone(),
            devices: d.capture.shared.device_data.load().values().map(|device| (**device).clone()).collect(),
            lengths: lengths(&d.capture),
        }
    }

    fn restore(&mut self, saved: Saved) {
        let mut capture = match (self.decoder.take(), self.finished.take()) {
            (Some(decoder), _) => decoder.capture,
            (None, Some(capture)) => capture,
            (None, None) => unreachable!("a machine holds a decoder or its capture"),
        };
        truncate(&mut capture, &saved.lengths);
        capture.endpoint_writers = saved.endpoint_writers;
        capture.shared.endpoint_index.store(saved.endpoint_index);
        let mut devices = VecMap::new();
        for (i, device) in saved.devices.into_iter().enumerate() {
            devices.set(DeviceId::from(i as u64), Arc::new(device));
        }
        capture.shared.device_data.store(devices);
        self.decoder = Some(Decoder {
            capture,
            device_index: saved.device_index,
            endpoint_data: saved.endpoint_data,
            last_endpoint_state: saved.last_endpoint_state,
            last_item_endpoint: saved.last_item_endpoint,
            transaction_state: saved.transaction_state,
            suspended_transaction: saved.suspended_transaction,
            event_state: saved.event_state,
            ls_keepalive_item: saved.ls_keepalive_item,
        });
    }

    fn view(&self) -> Option<View> {
        let d = self.decoder.as_ref()?;
        Some(View {
            endpoints: d.endpoint_data.values().map(endpoint_view).collect(),
            current: d.transaction_state.as_ref().map(transaction_view),
            suspended: d.suspended_transaction.as_ref().map(transaction_view),
            last_item_endpoint: d.last_item_endpoint.map(|x| x.value),
            keepalive_item: d.ls_keepalive_item.map(|x| x.value),
        })
    }

    fn place(&self) -> Place {
        let d = self.decoder();
        let transaction = d.suspended_transaction.as_ref().or(d.transaction_state.as_ref()).map(style);
        let dropped = d.suspended_transaction.as_ref().is_some_and(|t| t.endpoint_id.is_none());
        Place { transaction, resumed: d.suspended_transaction.is_some(), dropped, event: d.event_state as u8 }
    }

    fn total(&self, endpoint: u64) -> u64 {
        match &self.decoder {
            Some(d) => d.endpoint_data[EndpointId::from(endpoint)].total_data,
            None => u64::MAX,
        }
    }

    fn start_totals(&mut self, from: u64, total: u64) {
        for e in self.decoder_mut().endpoint_data.values_mut() {
            if e.endpoint_id.value >= from {
                e.total_data = total;
            }
        }
    }
}

// ---- transaction_status alone, for those who ask it about a decoder that may have a fault

fn named_status(state: &Option<TransactionState>, packet: &[u8]) -> (u8, &'static str) {
    use TransactionStatus::*;
    let (pid, status) = transaction_status(state, packet).expect("a status");
    let name = match status {
        New => "New",
        Continue => "Continue",
        Retry => "Retry",
        Done => "Done",
        Fail => "Fail",
        Ambiguous => "Ambiguous",
        Invalid => "Invalid",
    };
    (pid as u8, name)
}

/// The PID and the status of a packet behind a transaction.
pub fn status_behind(found: Option<Style>, packet: &[u8]) -> (u8, &'static str) {
    let state = found.map(|t| TransactionState {
        style: match t.split {
            None => TransactionStyle::Simple(PID::from(t.first)),
            Some((sc, kind)) => {
                let token = (t.first != 0).then(|| PID::from(t.first));
                TransactionStyle::Split(StartComplete::from(sc), usb::EndpointType::from(kind), token)
            }
        },
        id: TransactionId::from(0),
        last: PID::from(t.last),
        endpoint_id: None,
        endpoint_type: (t.kind < 4).then(|| usb::EndpointType::from(t.kind)),
        ep_transaction_id: None,
        setup: None,
        payload: None,
    });
    named_status(&state, packet)
}

// ---- group_status alone, for a comparison on states that no trace need reach

/// The words of a state, in the order of `pivotspark_group_status` (crates/pivotspark).
pub type State = [u64; 23];

/// The source's `group_status` on a state: status, effect (kind, number, waited, id), then last_success, setup (there, bytes),
/// payload and whether a payload waits. The tokens, types and lengths must be ones that the source can hold.
pub fn group_status_words(s: &State) -> [u64; 10] {
    use crate::capture::{Detail, DeviceData, RequestLog, Requests};
    // A request is told by its row alone: the bytes of a payload are not in the state.
    let requests = Requests::new(RequestLog { descriptors: Descriptors::Off, ..RequestLog::default() });
    let device = DeviceData::new(&requests);
    let address = match s[19] {
        5 => EndpointAddr(0x12),
        6 => EndpointAddr(0x11),
        7 => EndpointAddr(0x10),
        _ => EndpointAddr(1),
    };
    if s[19] < 4 {
        let max = if s[20] == 0 { None } else { Some(s[20] as usize) };
        device.details.borrow_mut()[1] = Detail { kind: Some(usb::EndpointType::from(s[19] as u8)), max, ..Detail::default() };
    }
    let mut e = endpoint_of(s, address);
    let mut t = transaction_of(s);
    let (status, effect) = e.group_status(&device, &mut t, s[21] == 1, s[22] == 1).expect("a transaction with its token");
    let [kind, number, waited, id] = match (effect, requests.rows.borrow().first()) {
        (TransactionSideEffect::NoEffect, Some(row)) => [2, row.length, 0, 0],
        (TransactionSideEffect::NoEffect, None) => [0; 4],
        (TransactionSideEffect::NewDevice(address), _) => [1, address.0 as u64, 0, 0],
        (TransactionSideEffect::PendingData(data), _) => [3, data.len() as u64, 0, 0],
        (TransactionSideEffect::IndexData(length, id, ..), _) => [4, length as u64, id.is_some() as u64, id.map_or(0, |id| id.value)],
    };
    let setup = e.setup.map_or(0, |fields| u64::from_le_bytes(fields.bytes()));
    let waits = e.pending_payload.is_some() as u64;
    [status as u64, kind, number, waited, id, e.last_success as u64, e.setup.is_some() as u64, setup, e.payload.len() as u64, waits]
}

fn setup_of(there: u64, bytes: u64) -> Option<SetupFields> {
    let mut packet = [0; 9];
    packet[1..].copy_from_slice(&bytes.to_le_bytes());
    (there == 1).then(|| SetupFields::from_data_packet(&packet))
}

fn endpoint_of(s: &State, address: EndpointAddr) -> EndpointData {
    let mut e = EndpointData::new(DeviceId::from(0), EndpointId::from(3), address);
    let group = EndpointGroupId::from(0);
    match s[0] {
        1 => e.early_start = Some(group),
        2 => {
            let last = (s[2] == 1).then(|| PID::from(s[3] as u8));
            e.active = Some(GroupState { id: group, first: PID::from(s[1] as u8), last });
        }
        3 => e.ended = Some(group),
        _ => {}
    }
    e.last_success = s[4] == 1;
    e.setup = setup_of(s[5], s[6]);
    e.payload = vec![0; s[7] as usize];
    e.pending_payload = (s[8] == 1).then(|| (vec![0; s[9] as usize].into(), EndpointTransactionId::from(s[10])));
    e
}

fn transaction_of(s: &State) -> TransactionState {
    let pid = PID::from(s[14] as u8);
    let style = match s[11] {
        1 => TransactionStyle::Simple(pid),
        _ => TransactionStyle::Split(StartComplete::from(s[12] as u8), usb::EndpointType::from(s[13] as u8), Some(pid)),
    };
    TransactionState {
        style,
        id: TransactionId::from(0),
        last: pid,
        endpoint_id: Some(EndpointId::from(3)),
        endpoint_type: None,
        ep_transaction_id: None,
        setup: setup_of(s[15], s[16]),
        payload: (s[17] == 1).then(|| vec![0; s[18] as usize].into()),
    }
}
