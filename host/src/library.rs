//! The entries of the static library, for Rust. Written by scripts/header from the library's source.
//!
//! A function here is an entry of that name: what it asks of pointers, lengths and overlap (include/pivotspark.h) is what Rust's references
//! have, so each is safe to call. Their contracts ask for nothing else.
#![allow(dead_code)] // a program uses some of them
#![allow(clippy::too_many_arguments)]

pub type Record = [u64; 2368];
pub type Ticks = [u64; 3];
pub type Table = [u64; 2704];
pub type Shelf = [u8; 524288];
pub type Told = [u64; 3];
pub type PcapFormat = [u64; 2];

/// The most rows of a log.
pub const MOST_ROWS: usize = 16777216;
/// The most bytes of bytes and of statebytes.
pub const MOST_BYTES: usize = 1073741824;
/// The most devices, whatever the log's length.
pub const MOST_DEVICES: usize = 64;
/// The most endpoints, likewise.
pub const MOST_ENDPOINTS: usize = 128;
/// The most bytes of a packet.
pub const MOST_PACKET: usize = 4096;
/// The bytes of a trace before its first record.
pub const HEADER_SIZE: usize = 5;
/// The bytes of a pcap file before its first record.
pub const PCAP_HEAD_SIZE: usize = 24;
/// The mark of a pcap file, in either byte order: times in microseconds.
pub const PCAP_MICROSECONDS: usize = 2712847316;
/// The mark of a pcap file, likewise: times in nanoseconds.
pub const PCAP_NANOSECONDS: usize = 2712812621;

/// The twelve logs, in the order of their numbers.
pub struct Logs {
    pub bytes: Vec<u8>,
    pub device_rows: Vec<u64>,
    pub endpoint_rows: Vec<u64>,
    pub packets: Vec<u64>,
    pub events: Vec<u64>,
    pub transactions: Vec<u64>,
    pub groups: Vec<u64>,
    pub statebytes: Vec<u8>,
    pub states: Vec<u64>,
    pub items: Vec<u64>,
    pub links: Vec<u64>,
    pub requests: Vec<u64>,
}

/// The logs' names (docs/SIZES.md), and the elements of a row.
pub const LOGS: [(&str, usize); 12] = [
    ("bytes", 1),
    ("devices", 1),
    ("endpoints", 3),
    ("packets", 2),
    ("events", 2),
    ("transactions", 2),
    ("groups", 5),
    ("state-bytes", 1),
    ("states", 1),
    ("items", 1),
    ("links", 4),
    ("requests", 4),
];

/// The numbers of the logs.
pub mod log {
    pub const BYTES: usize = 0;
    pub const DEVICE_ROWS: usize = 1;
    pub const ENDPOINT_ROWS: usize = 2;
    pub const PACKETS: usize = 3;
    pub const EVENTS: usize = 4;
    pub const TRANSACTIONS: usize = 5;
    pub const GROUPS: usize = 6;
    pub const STATEBYTES: usize = 7;
    pub const STATES: usize = 8;
    pub const ITEMS: usize = 9;
    pub const LINKS: usize = 10;
    pub const REQUESTS: usize = 11;
}

/// The answers.
pub mod answer {
    pub const ACCEPTED: u8 = 0;
    pub const NOT_FORMED: u8 = 1;
    pub const FINISHED: u8 = 2;
    pub const LONG_PACKET: u8 = 3;
    pub const EVENT_KIND: u8 = 4;
    pub const DETAIL_FIELDS: u8 = 5;
    pub const NO_DEVICE: u8 = 6;
    pub const NO_ROOM: u8 = 7;
    pub const DROPPED: u8 = 8;
    pub const TOTAL: u8 = 9;
    pub const MARK: u8 = 10;
    pub const VERSION: u8 = 11;
    pub const TAG: u8 = 12;
    pub const CUT: u8 = 13;
    pub const PCAP_MARK: u8 = 14;
    pub const PCAP_LINK: u8 = 15;
    pub const PCAP_CUT: u8 = 16;
    pub const PCAP_FRACTION: u8 = 17;
    pub const PCAP_SECONDS: u8 = 18;
    pub const DETAIL_IN_BLOCK: u8 = 20;
}

/// An answer in words (docs/TOOLS.md).
pub fn words(answer: u8) -> &'static str {
    match answer {
        0 => "accepted",
        1 => "a lent log is too long, or the record is not well formed",
        2 => "the decoder was finished before",
        3 => "a packet of more than 4,096 bytes",
        4 => "an event kind above 7",
        5 => "a detail with a number above 15, a type above 3, a direction above 1, or number 0 that is not control",
        6 => "a detail for an address with no device",
        7 => "no room: a log, or the number of devices or endpoints, is at its limit",
        8 => "accepted: a packet came while the suspended transaction had no endpoint, and that transaction was dropped",
        9 => "an endpoint's byte total would pass 2^64 - 1",
        10 => "no UTL trace: its first three bytes are not the mark",
        11 => "a version of the trace other than 1, or none",
        12 => "a record with an unknown tag",
        13 => "a record that is cut short",
        14 => "no pcap file: its first four bytes are none of the marks, or its head is cut short",
        15 => "a pcap file whose link type is not 288, USB 2.0 packets",
        16 => "a record of a pcap file that is cut short, or whose packet was not captured whole",
        17 => "a record of a pcap file whose fraction is not below one second",
        18 => "a time whose seconds do not fit the 32 bits of a pcap file",
        20 => "a detail, which a block may not hold",
        _ => "an answer that has no words",
    }
}

pub mod entry {
    #[link(name = "pivotspark", kind = "static")]
    unsafe extern "C" {
        pub fn pivotspark_block(
            typed: u8,
            record: *mut u64,
            clock: *mut u64,
            records: *const u8, records_len: usize,
            table: *mut u64,
            bytes: *mut u8, bytes_len: usize,
            device_rows: *mut u64, device_rows_len: usize,
            endpoint_rows: *mut u64, endpoint_rows_len: usize,
            packets: *mut u64, packets_len: usize,
            events: *mut u64, events_len: usize,
            transactions: *mut u64, transactions_len: usize,
            groups: *mut u64, groups_len: usize,
            statebytes: *mut u8, statebytes_len: usize,
            states: *mut u64, states_len: usize,
            items: *mut u64, items_len: usize,
            links: *mut u64, links_len: usize,
            requests: *mut u64, requests_len: usize,
            shelf: *mut u8,
            told: *mut u64,
        ) -> u8;
        pub fn pivotspark_counts(record: *const u64, counts: *mut u64);
        pub fn pivotspark_event(
            record: *mut u64,
            kind: u8,
            code: u8,
            time: u64,
            table: *mut u64,
            bytes: *const u8, bytes_len: usize,
            device_rows: *const u64, device_rows_len: usize,
            endpoint_rows: *const u64, endpoint_rows_len: usize,
            packets: *mut u64, packets_len: usize,
            events: *mut u64, events_len: usize,
            transactions: *mut u64, transactions_len: usize,
            groups: *mut u64, groups_len: usize,
            statebytes: *mut u8, statebytes_len: usize,
            states: *mut u64, states_len: usize,
            items: *mut u64, items_len: usize,
            links: *mut u64, links_len: usize,
            requests: *const u64, requests_len: usize,
        ) -> u8;
        pub fn pivotspark_finish(
            record: *mut u64,
            table: *mut u64,
            bytes: *const u8, bytes_len: usize,
            device_rows: *const u64, device_rows_len: usize,
            endpoint_rows: *const u64, endpoint_rows_len: usize,
            packets: *const u64, packets_len: usize,
            events: *const u64, events_len: usize,
            transactions: *const u64, transactions_len: usize,
            groups: *mut u64, groups_len: usize,
            statebytes: *mut u8, statebytes_len: usize,
            states: *mut u64, states_len: usize,
            items: *mut u64, items_len: usize,
            links: *mut u64, links_len: usize,
            requests: *const u64, requests_len: usize,
        ) -> u8;
        pub fn pivotspark_fresh(
            mode: u8,
            record: *mut u64,
            table: *mut u64,
            bytes: *const u8, bytes_len: usize,
            device_rows: *mut u64, device_rows_len: usize,
            endpoint_rows: *mut u64, endpoint_rows_len: usize,
            packets: *const u64, packets_len: usize,
            events: *const u64, events_len: usize,
            transactions: *const u64, transactions_len: usize,
            groups: *const u64, groups_len: usize,
            statebytes: *const u8, statebytes_len: usize,
            states: *const u64, states_len: usize,
            items: *const u64, items_len: usize,
            links: *const u64, links_len: usize,
            requests: *const u64, requests_len: usize,
        ) -> u8;
        pub fn pivotspark_packet(
            record: *mut u64,
            packet: *const u8, packet_len: usize,
            time: u64,
            table: *mut u64,
            bytes: *mut u8, bytes_len: usize,
            device_rows: *mut u64, device_rows_len: usize,
            endpoint_rows: *mut u64, endpoint_rows_len: usize,
            packets: *mut u64, packets_len: usize,
            events: *const u64, events_len: usize,
            transactions: *mut u64, transactions_len: usize,
            groups: *mut u64, groups_len: usize,
            statebytes: *mut u8, statebytes_len: usize,
            states: *mut u64, states_len: usize,
            items: *mut u64, items_len: usize,
            links: *mut u64, links_len: usize,
            requests: *mut u64, requests_len: usize,
            shelf: *mut u8,
        ) -> u8;
        pub fn pivotspark_pcap_export(
            record: *const u64,
            table: *const u64,
            bytes: *const u8, bytes_len: usize,
            device_rows: *const u64, device_rows_len: usize,
            endpoint_rows: *const u64, endpoint_rows_len: usize,
            packets: *const u64, packets_len: usize,
            events: *const u64, events_len: usize,
            transactions: *const u64, transactions_len: usize,
            groups: *const u64, groups_len: usize,
            statebytes: *const u8, statebytes_len: usize,
            states: *const u64, states_len: usize,
            items: *const u64, items_len: usize,
            links: *const u64, links_len: usize,
            requests: *const u64, requests_len: usize,
            out: *mut u8, out_len: usize,
            told: *mut u64,
        ) -> u8;
        pub fn pivotspark_pcap_head(file: *const u8, file_len: usize, format: *mut u64) -> u64;
        pub fn pivotspark_pcap_records(
            record: *mut u64,
            format: *const u64,
            records: *const u8, records_len: usize,
            table: *mut u64,
            bytes: *mut u8, bytes_len: usize,
            device_rows: *mut u64, device_rows_len: usize,
            endpoint_rows: *mut u64, endpoint_rows_len: usize,
            packets: *mut u64, packets_len: usize,
            events: *const u64, events_len: usize,
            transactions: *mut u64, transactions_len: usize,
            groups: *mut u64, groups_len: usize,
            statebytes: *mut u8, statebytes_len: usize,
            states: *mut u64, states_len: usize,
            items: *mut u64, items_len: usize,
            links: *mut u64, links_len: usize,
            requests: *mut u64, requests_len: usize,
            shelf: *mut u8,
            told: *mut u64,
        ) -> u8;
        pub fn pivotspark_pcap_size(
            record: *const u64,
            table: *const u64,
            bytes: *const u8, bytes_len: usize,
            device_rows: *const u64, device_rows_len: usize,
            endpoint_rows: *const u64, endpoint_rows_len: usize,
            packets: *const u64, packets_len: usize,
            events: *const u64, events_len: usize,
            transactions: *const u64, transactions_len: usize,
            groups: *const u64, groups_len: usize,
            statebytes: *const u8, statebytes_len: usize,
            states: *const u64, states_len: usize,
            items: *const u64, items_len: usize,
            links: *const u64, links_len: usize,
            requests: *const u64, requests_len: usize,
            told: *mut u64,
        ) -> u8;
        pub fn pivotspark_header(trace: *const u8, trace_len: usize) -> u64;
        pub fn pivotspark_details(trace: *const u8, trace_len: usize) -> u64;
        pub fn pivotspark_group_status(state: *const u64, out: *mut u64);
        pub fn pivotspark_lines(
            kind: u8,
            from: u64,
            n: u64,
            log: *const u64, log_len: usize,
            out: *mut u8, out_len: usize,
            told: *mut u64,
        ) -> u64;
        pub fn pivotspark_state_lines(
            from: u64,
            n: u64,
            states: *const u64, states_len: usize,
            m: u64,
            statebytes: *const u8, statebytes_len: usize,
            out: *mut u8, out_len: usize,
            told: *mut u64,
        ) -> u64;
        pub fn pivotspark_title(out: *mut u8, out_len: usize) -> u64;
        pub fn pivotspark_details_line(n: u64, out: *mut u8, out_len: usize) -> u64;
        pub fn pivotspark_refused_line(answer: u8, place: u64, out: *mut u8, out_len: usize) -> u64;
        pub fn pivotspark_check(packet: *const u8, packet_len: usize) -> u16;
        pub fn pivotspark_crc16(payload: *const u8, payload_len: usize) -> u16;
        pub fn pivotspark_trace(
            mode: u8,
            trace: *const u8, trace_len: usize,
            table: *mut u64,
            bytes: *mut u8, bytes_len: usize,
            device_rows: *mut u64, device_rows_len: usize,
            endpoint_rows: *mut u64, endpoint_rows_len: usize,
            packets: *mut u64, packets_len: usize,
            events: *mut u64, events_len: usize,
            transactions: *mut u64, transactions_len: usize,
            groups: *mut u64, groups_len: usize,
            statebytes: *mut u8, statebytes_len: usize,
            states: *mut u64, states_len: usize,
            items: *mut u64, items_len: usize,
            links: *mut u64, links_len: usize,
            requests: *mut u64, requests_len: usize,
            shelf: *mut u8,
            counts: *mut u64, counts_len: usize,
        ) -> u64;
    }
}

/// The records from the first byte on. A detail is obeyed where `typed` is not 0, as in a trace, and else refused. `clock` has
/// the tick state before the records, and gets that after those taken: whether there was a tick (0 or 1), the last counter, the
/// time; zeros before the first record. `told` gets the records taken, how many of them were answered 8, and the place in
/// `records` where it stopped. Answers 0 at the end of the records, else the answer of the record at that place: of its call, or
/// 12, 13, 20.
pub fn block(
    typed: u8,
    record: &mut Record,
    clock: &mut Ticks,
    records: &[u8],
    table: &mut Table,
    logs: &mut Logs,
    shelf: &mut Shelf,
    told: &mut Told,
) -> u8 {
    unsafe { entry::pivotspark_block(
        typed,
        record.as_mut_ptr(),
        clock.as_mut_ptr(),
        records.as_ptr(), records.len(),
        table.as_mut_ptr(),
        logs.bytes.as_mut_ptr(), logs.bytes.len(),
        logs.device_rows.as_mut_ptr(), logs.device_rows.len(),
        logs.endpoint_rows.as_mut_ptr(), logs.endpoint_rows.len(),
        logs.packets.as_mut_ptr(), logs.packets.len(),
        logs.events.as_mut_ptr(), logs.events.len(),
        logs.transactions.as_mut_ptr(), logs.transactions.len(),
        logs.groups.as_mut_ptr(), logs.groups.len(),
        logs.statebytes.as_mut_ptr(), logs.statebytes.len(),
        logs.states.as_mut_ptr(), logs.states.len(),
        logs.items.as_mut_ptr(), logs.items.len(),
        logs.links.as_mut_ptr(), logs.links.len(),
        logs.requests.as_mut_ptr(), logs.requests.len(),
        shelf.as_mut_ptr(),
        told.as_mut_ptr(),
    ) }
}

/// The numbers of the next rows, in the order of the logs. So many rows each log has.
pub fn counts(record: &Record, counts: &mut [u64; 12]) {
    unsafe { entry::pivotspark_counts(record.as_ptr(), counts.as_mut_ptr()) }
}

/// An event of this kind, with this code at this time. Answers 0 to 2, 4, 7 or 9.
pub fn event(record: &mut Record, kind: u8, code: u8, time: u64, table: &mut Table, logs: &mut Logs) -> u8 {
    unsafe { entry::pivotspark_event(
        record.as_mut_ptr(),
        kind,
        code,
        time,
        table.as_mut_ptr(),
        logs.bytes.as_ptr(), logs.bytes.len(),
        logs.device_rows.as_ptr(), logs.device_rows.len(),
        logs.endpoint_rows.as_ptr(), logs.endpoint_rows.len(),
        logs.packets.as_mut_ptr(), logs.packets.len(),
        logs.events.as_mut_ptr(), logs.events.len(),
        logs.transactions.as_mut_ptr(), logs.transactions.len(),
        logs.groups.as_mut_ptr(), logs.groups.len(),
        logs.statebytes.as_mut_ptr(), logs.statebytes.len(),
        logs.states.as_mut_ptr(), logs.states.len(),
        logs.items.as_mut_ptr(), logs.items.len(),
        logs.links.as_mut_ptr(), logs.links.len(),
        logs.requests.as_ptr(), logs.requests.len(),
    ) }
}

/// The end. Answers 0 to 2, 7 or 9. After 0 every call answers 2.
pub fn finish(record: &mut Record, table: &mut Table, logs: &mut Logs) -> u8 {
    unsafe { entry::pivotspark_finish(
        record.as_mut_ptr(),
        table.as_mut_ptr(),
        logs.bytes.as_ptr(), logs.bytes.len(),
        logs.device_rows.as_ptr(), logs.device_rows.len(),
        logs.endpoint_rows.as_ptr(), logs.endpoint_rows.len(),
        logs.packets.as_ptr(), logs.packets.len(),
        logs.events.as_ptr(), logs.events.len(),
        logs.transactions.as_ptr(), logs.transactions.len(),
        logs.groups.as_mut_ptr(), logs.groups.len(),
        logs.statebytes.as_mut_ptr(), logs.statebytes.len(),
        logs.states.as_mut_ptr(), logs.states.len(),
        logs.items.as_mut_ptr(), logs.items.len(),
        logs.links.as_mut_ptr(), logs.links.len(),
        logs.requests.as_ptr(), logs.requests.len(),
    ) }
}

/// A fresh decoder; in the mode for high-bandwidth isochronous data where `mode` is not 0. Answers 0, 1 or 7.
pub fn fresh(mode: u8, record: &mut Record, table: &mut Table, logs: &mut Logs) -> u8 {
    unsafe { entry::pivotspark_fresh(
        mode,
        record.as_mut_ptr(),
        table.as_mut_ptr(),
        logs.bytes.as_ptr(), logs.bytes.len(),
        logs.device_rows.as_mut_ptr(), logs.device_rows.len(),
        logs.endpoint_rows.as_mut_ptr(), logs.endpoint_rows.len(),
        logs.packets.as_ptr(), logs.packets.len(),
        logs.events.as_ptr(), logs.events.len(),
        logs.transactions.as_ptr(), logs.transactions.len(),
        logs.groups.as_ptr(), logs.groups.len(),
        logs.statebytes.as_ptr(), logs.statebytes.len(),
        logs.states.as_ptr(), logs.states.len(),
        logs.items.as_ptr(), logs.items.len(),
        logs.links.as_ptr(), logs.links.len(),
        logs.requests.as_ptr(), logs.requests.len(),
    ) }
}

/// The packet of these bytes at this time. Answers 0 to 3 or 7 to 9.
pub fn packet(record: &mut Record, packet: &[u8], time: u64, table: &mut Table, logs: &mut Logs, shelf: &mut Shelf) -> u8 {
    unsafe { entry::pivotspark_packet(
        record.as_mut_ptr(),
        packet.as_ptr(), packet.len(),
        time,
        table.as_mut_ptr(),
        logs.bytes.as_mut_ptr(), logs.bytes.len(),
        logs.device_rows.as_mut_ptr(), logs.device_rows.len(),
        logs.endpoint_rows.as_mut_ptr(), logs.endpoint_rows.len(),
        logs.packets.as_mut_ptr(), logs.packets.len(),
        logs.events.as_ptr(), logs.events.len(),
        logs.transactions.as_mut_ptr(), logs.transactions.len(),
        logs.groups.as_mut_ptr(), logs.groups.len(),
        logs.statebytes.as_mut_ptr(), logs.statebytes.len(),
        logs.states.as_mut_ptr(), logs.states.len(),
        logs.items.as_mut_ptr(), logs.items.len(),
        logs.links.as_mut_ptr(), logs.links.len(),
        logs.requests.as_mut_ptr(), logs.requests.len(),
        shelf.as_mut_ptr(),
    ) }
}

/// The packets as a file, from the start of `out`; refused, nothing is written. `told` as of pivotspark_pcap_size. Answers 0, 1,
/// 18, or 7 where the file is longer than `out`.
pub fn pcap_export(record: &Record, table: &Table, logs: &mut Logs, out: &mut [u8], told: &mut Told) -> u8 {
    unsafe { entry::pivotspark_pcap_export(
        record.as_ptr(),
        table.as_ptr(),
        logs.bytes.as_ptr(), logs.bytes.len(),
        logs.device_rows.as_ptr(), logs.device_rows.len(),
        logs.endpoint_rows.as_ptr(), logs.endpoint_rows.len(),
        logs.packets.as_ptr(), logs.packets.len(),
        logs.events.as_ptr(), logs.events.len(),
        logs.transactions.as_ptr(), logs.transactions.len(),
        logs.groups.as_ptr(), logs.groups.len(),
        logs.statebytes.as_ptr(), logs.statebytes.len(),
        logs.states.as_ptr(), logs.states.len(),
        logs.items.as_ptr(), logs.items.len(),
        logs.links.as_ptr(), logs.links.len(),
        logs.requests.as_ptr(), logs.requests.len(),
        out.as_mut_ptr(), out.len(),
        told.as_mut_ptr(),
    ) }
}

/// The answer to the head in the top byte, and the place below it: where the records begin, or what is wrong. Where it is
/// accepted `format` gets the file's format. The answer is 0, 14 or 15.
pub fn pcap_head(file: &[u8], format: &mut PcapFormat) -> u64 {
    unsafe { entry::pivotspark_pcap_head(file.as_ptr(), file.len(), format.as_mut_ptr()) }
}

/// The records from the first byte on, each a packet call, in the format that the head gave. `told` gets the records taken, how
/// many of them were answered 8, and the place in `records` where it stopped. Answers 0 at the end of the records, else the
/// answer of the record at that place: of its call, or 16, 17. Of a file that is lent in pieces a piece may end within a record,
/// which is answered 16: go on from its place with more.
pub fn pcap_records(
    record: &mut Record,
    format: &PcapFormat,
    records: &[u8],
    table: &mut Table,
    logs: &mut Logs,
    shelf: &mut Shelf,
    told: &mut Told,
) -> u8 {
    unsafe { entry::pivotspark_pcap_records(
        record.as_mut_ptr(),
        format.as_ptr(),
        records.as_ptr(), records.len(),
        table.as_mut_ptr(),
        logs.bytes.as_mut_ptr(), logs.bytes.len(),
        logs.device_rows.as_mut_ptr(), logs.device_rows.len(),
        logs.endpoint_rows.as_mut_ptr(), logs.endpoint_rows.len(),
        logs.packets.as_mut_ptr(), logs.packets.len(),
        logs.events.as_ptr(), logs.events.len(),
        logs.transactions.as_mut_ptr(), logs.transactions.len(),
        logs.groups.as_mut_ptr(), logs.groups.len(),
        logs.statebytes.as_mut_ptr(), logs.statebytes.len(),
        logs.states.as_mut_ptr(), logs.states.len(),
        logs.items.as_mut_ptr(), logs.items.len(),
        logs.links.as_mut_ptr(), logs.links.len(),
        logs.requests.as_mut_ptr(), logs.requests.len(),
        shelf.as_mut_ptr(),
        told.as_mut_ptr(),
    ) }
}

/// How long the file is that pivotspark_pcap_export would write. `told` gets the file's length, its packets, and the events that
/// it leaves behind; refused, it is as it was. Answers 0, 1 or 18.
pub fn pcap_size(record: &Record, table: &Table, logs: &mut Logs, told: &mut Told) -> u8 {
    unsafe { entry::pivotspark_pcap_size(
        record.as_ptr(),
        table.as_ptr(),
        logs.bytes.as_ptr(), logs.bytes.len(),
        logs.device_rows.as_ptr(), logs.device_rows.len(),
        logs.endpoint_rows.as_ptr(), logs.endpoint_rows.len(),
        logs.packets.as_ptr(), logs.packets.len(),
        logs.events.as_ptr(), logs.events.len(),
        logs.transactions.as_ptr(), logs.transactions.len(),
        logs.groups.as_ptr(), logs.groups.len(),
        logs.statebytes.as_ptr(), logs.statebytes.len(),
        logs.states.as_ptr(), logs.states.len(),
        logs.items.as_ptr(), logs.items.len(),
        logs.links.as_ptr(), logs.links.len(),
        logs.requests.as_ptr(), logs.requests.len(),
        told.as_mut_ptr(),
    ) }
}

/// The answer to the header in the top byte, and the place below it: where the records begin, or what is wrong. The answer is 0,
/// 10 or 11.
pub fn header(trace: &[u8]) -> u64 {
    unsafe { entry::pivotspark_header(trace.as_ptr(), trace.len()) }
}

/// How many records of a trace are details that were typed in (02, 13). Of a part of a trace: lend the five bytes before its
/// records too.
pub fn details(trace: &[u8]) -> u64 {
    unsafe { entry::pivotspark_details(trace.as_ptr(), trace.len()) }
}

/// The answer's ten words, for the 23 of the state; specs/Words.antt says what each is.
pub fn group_status(state: &[u64; 23], out: &mut [u64; 10]) {
    unsafe { entry::pivotspark_group_status(state.as_ptr(), out.as_mut_ptr()) }
}

/// Lines of the rows of a log, by its number, from row `from` on, of n rows. It writes whole lines while `out` has room for the
/// longest, 156 bytes, tells in told[0] how many bytes they are, and gives the row behind the last one.
pub fn lines(kind: u8, from: u64, n: u64, log: &[u64], out: &mut [u8], told: &mut [u64; 1]) -> u64 {
    unsafe { entry::pivotspark_lines(kind, from, n, log.as_ptr(), log.len(), out.as_mut_ptr(), out.len(), told.as_mut_ptr()) }
}

/// Lines of the states from row `from` on, of n rows, over m state bytes. As pivotspark_lines.
pub fn state_lines(from: u64, n: u64, states: &[u64], m: u64, statebytes: &[u8], out: &mut [u8], told: &mut [u64; 1]) -> u64 {
    unsafe { entry::pivotspark_state_lines(
        from,
        n,
        states.as_ptr(), states.len(),
        m,
        statebytes.as_ptr(), statebytes.len(),
        out.as_mut_ptr(), out.len(),
        told.as_mut_ptr(),
    ) }
}

/// The first line of the listing. Gives the bytes written, 0 where they do not fit.
pub fn title(out: &mut [u8]) -> u64 {
    unsafe { entry::pivotspark_title(out.as_mut_ptr(), out.len()) }
}

/// The last one, where details were typed in. As pivotspark_title; none for 0 details.
pub fn details_line(n: u64, out: &mut [u8]) -> u64 {
    unsafe { entry::pivotspark_details_line(n, out.as_mut_ptr(), out.len()) }
}

/// The only one, where the trace is refused. As pivotspark_title.
pub fn refused_line(answer: u8, place: u64, out: &mut [u8]) -> u64 {
    unsafe { entry::pivotspark_refused_line(answer, place, out.as_mut_ptr(), out.len()) }
}

/// The PID byte of a valid packet, and 256 times the reason of a malformed one.
pub fn check(packet: &[u8]) -> u16 {
    unsafe { entry::pivotspark_check(packet.as_ptr(), packet.len()) }
}

/// The CRC16 of a data packet's payload.
pub fn crc16(payload: &[u8]) -> u16 {
    unsafe { entry::pivotspark_crc16(payload.as_ptr(), payload.len()) }
}

/// The trace on the lent table, logs and shelf, which may hold anything; in the mode for high-bandwidth isochronous data where
/// `mode` is not 0. The record's counts are stored in `counts`; if it has fewer than twelve words it is left as it is.
pub fn trace(mode: u8, trace: &[u8], table: &mut Table, logs: &mut Logs, shelf: &mut Shelf, counts: &mut [u64]) -> u64 {
    unsafe { entry::pivotspark_trace(
        mode,
        trace.as_ptr(), trace.len(),
        table.as_mut_ptr(),
        logs.bytes.as_mut_ptr(), logs.bytes.len(),
        logs.device_rows.as_mut_ptr(), logs.device_rows.len(),
        logs.endpoint_rows.as_mut_ptr(), logs.endpoint_rows.len(),
        logs.packets.as_mut_ptr(), logs.packets.len(),
        logs.events.as_mut_ptr(), logs.events.len(),
        logs.transactions.as_mut_ptr(), logs.transactions.len(),
        logs.groups.as_mut_ptr(), logs.groups.len(),
        logs.statebytes.as_mut_ptr(), logs.statebytes.len(),
        logs.states.as_mut_ptr(), logs.states.len(),
        logs.items.as_mut_ptr(), logs.items.len(),
        logs.links.as_mut_ptr(), logs.links.len(),
        logs.requests.as_mut_ptr(), logs.requests.len(),
        shelf.as_mut_ptr(),
        counts.as_mut_ptr(), counts.len(),
    ) }
}
