// What the lines of usb.rs lean on, in place of the derives and macros of other crates; included behind them.

/// A number that names a case of an enum, or the enum's default.
macro_rules! from_number {
    ($name:ident: $($case:ident),+) => {
        impl From<u8> for $name {
            fn from(number: u8) -> $name {
                match number {
                    $(x if x == $name::$case as u8 => $name::$case,)+
                    _ => $name::default(),
                }
            }
        }
    };
}

from_number!(PID: RSVD, OUT, ACK, DATA0, PING, SOF, NYET, DATA2, SPLIT, IN, NAK, DATA1, ERR, SETUP, STALL, MDATA);
from_number!(EndpointType: Control, Isochronous, Bulk, Interrupt);
from_number!(StartComplete: Start, Complete);
from_number!(RequestType: Standard, Class, Vendor);
from_number!(Recipient: Device, Interface, Endpoint, Other);
from_number!(Direction: Out, In);
from_number!(StandardRequest: GetStatus, ClearFeature, SetFeature, SetAddress, GetDescriptor, SetDescriptor,
    GetConfiguration, SetConfiguration, GetInterface, SetInterface, SynchFrame);

impl From<Direction> for u8 {
    fn from(direction: Direction) -> u8 {
        direction as u8
    }
}

macro_rules! byte_type {
    ($name:ident) => {
        #[derive(Copy, Clone, Debug, Default, PartialEq, Eq)]
        pub struct $name(pub u8);

        impl From<u8> for $name {
            fn from(byte: u8) -> $name {
                $name(byte)
            }
        }

        impl From<$name> for u8 {
            fn from(value: $name) -> u8 {
                value.0
            }
        }

        impl From<$name> for usize {
            fn from(value: $name) -> usize {
                value.0 as usize
            }
        }
    };
}

byte_type!(DeviceAddr);
byte_type!(EndpointNum);
byte_type!(EndpointAddr);

impl SetupFields {
    /// The 8 bytes that the fields were read from.
    pub fn bytes(&self) -> [u8; 8] {
        let [v0, v1] = self.value.to_le_bytes();
        let [i0, i1] = self.index.to_le_bytes();
        let [l0, l1] = self.length.to_le_bytes();
        [self.type_fields.0, self.request, v0, v1, i0, i1, l0, l1]
    }
}

/// Why a packet is malformed (change request 1), the first of these that applies; 0 for a valid one. `validate_packet` has no reason: what is
/// asked of it is whether a packet whose first byte and length are right is valid, so whether its CRC is.
pub mod reason {
    pub const EMPTY: u8 = 1;
    pub const BAD_PID: u8 = 2;
    pub const WRONG_LENGTH: u8 = 3;
    pub const BAD_CRC: u8 = 4;
}

/// The numbers of `reason`, 0 among them, by name.
pub const REASONS: [&str; 5] = ["valid", "empty", "bad PID", "wrong length", "bad CRC"];

pub fn reason_of(packet: &[u8]) -> u8 {
    let Some(first) = packet.first() else { return reason::EMPTY };
    // USB 2.0, 8.3.1: the high nibble is the complement of the low one, which is the PID; of the sixteen 0 is reserved.
    let pid = first & 0xF;
    if first >> 4 != 0xF - pid || pid == 0 {
        return reason::BAD_PID;
    }
    // USB 2.0, table 8-1: SPLIT, PING, and by two bits of the others tokens and SOF, data, handshakes.
    let lengths = match (pid, pid & 3) {
        (8, _) => 4..=4,
        (4, _) | (_, 1) => 3..=3,
        (_, 3) => 3..=1027,
        _ => 1..=1,
    };
    match validate_packet(packet) {
        _ if !lengths.contains(&packet.len()) => reason::WRONG_LENGTH,
        Err(_) => reason::BAD_CRC,
        Ok(_) => 0,
    }
}

/// The source's crc16 is private; the trace maker wants it too.
pub fn data_crc(bytes: &[u8]) -> u16 {
    crc16(bytes)
}

pub mod prelude {
    pub use super::{
        DeviceAddr, Direction, EndpointAddr, EndpointNum, PID, PacketFields, RequestType, SetupFields, SplitFields,
        StandardRequest, StartComplete,
    };
}
