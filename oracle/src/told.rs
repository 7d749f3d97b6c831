// What the ledger is told of a decoder (src/ledger.rs); included behind machine.rs in each module that holds a traced decoder.

use crate::ledger::{ACTIVE, EARLY, ENDED, Entry, NONE, Payload, Told, UNKNOWN, World};

fn data(payload: &Payload) -> (u64, u64) {
    (payload.packet, payload.len() as u64)
}

fn entry(d: &Decoder, e: &EndpointData) -> Entry {
    let phase = match e {
        EndpointData { active: Some(_), .. } => ACTIVE,
        EndpointData { early_start: Some(_), .. } => EARLY,
        EndpointData { ended: Some(_), .. } => ENDED,
        _ => NONE,
    };
    let (first, last) = e.active.as_ref().map_or((0, None), |group| (group.first as u64, group.last));
    let setup = e.setup.map_or(0, |fields| u64::from_le_bytes(fields.bytes()));
    let device = d.capture.device_data(e.device_id).expect("the device of an endpoint");
    let (kind, max) = match device.endpoint_details(e.address) {
        (EndpointType::Normal(kind), max) => (kind as u64, max),
        (EndpointType::Unidentified, max) => (UNKNOWN, max),
        (EndpointType::Framing, max) => (5, max),
        (EndpointType::Invalid, max) => (6, max),
    };
    Entry {
        words: [
            phase,
            first,
            last.is_some() as u64,
            last.map_or(0, |pid| pid as u64),
            e.last_success as u64,
            e.setup.is_some() as u64,
            setup,
            e.payload.len() as u64,
        ],
        details: [kind, max.unwrap_or(0) as u64],
        waiting: e.pending_payload.as_ref().map(|(payload, _)| data(payload)),
    }
}

impl Told for Machine {
    fn world(&self, packet: Option<&[u8]>) -> Option<World> {
        let d = self.decoder.as_ref()?;
        let found = d.suspended_transaction.as_ref().or(d.transaction_state.as_ref());
        let goes_to = packet.and_then(|packet| match validate_packet(packet) {
            Err(_) => Some(INVALID_EP_ID),
            Ok(PID::SPLIT) => None,
            Ok(pid) => d.capture.packet_endpoint(pid, packet).ok(),
        });
        Some(World {
            packets: d.capture.packet_index.stream.len(),
            place: self.place(),
            endpoint: found.and_then(|t| t.endpoint_id).map(|x| x.value),
            held: found.and_then(|t| t.payload.as_ref()).map(data),
            entries: d.endpoint_data.values().map(|e| entry(d, e)).collect(),
            goes_to: goes_to.map(|x| x.value),
        })
    }
}
