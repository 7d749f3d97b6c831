//! Packets made by hand: tokens, SOFs, splits, data and handshakes with their checks.

use crate::usb::{PID, crc5, data_crc};

pub fn token(pid: PID, address: u8, number: u8) -> Vec<u8> {
    let bits = address as u32 & 0x7F | (number as u32 & 0xF) << 7;
    let word = bits | (crc5(bits, 11) as u32) << 11;
    vec![pid as u8, word as u8, (word >> 8) as u8]
}

pub fn sof(frame: u16) -> Vec<u8> {
    let bits = frame as u32 & 0x7FF;
    let word = bits | (crc5(bits, 11) as u32) << 11;
    vec![PID::SOF as u8, word as u8, (word >> 8) as u8]
}

/// A SPLIT: SC 1 is complete; the type is numbered as document 01 has it.
pub fn split(hub: u8, sc: u8, port: u8, kind: u8) -> Vec<u8> {
    let bits = hub as u32 & 0x7F | (sc as u32 & 1) << 7 | (port as u32 & 0x7F) << 8 | (kind as u32 & 3) << 17;
    let word = bits | (crc5(bits, 19) as u32) << 19;
    vec![PID::SPLIT as u8, word as u8, (word >> 8) as u8, (word >> 16) as u8]
}

pub fn data(pid: PID, payload: &[u8]) -> Vec<u8> {
    let mut packet = vec![pid as u8];
    packet.extend_from_slice(payload);
    packet.extend_from_slice(&data_crc(payload).to_le_bytes());
    packet
}

pub fn handshake(pid: PID) -> Vec<u8> {
    vec![pid as u8]
}

/// The 8 bytes of a setup packet (USB 2.0, 9.3).
pub fn setup(kind: u8, request: u8, value: u16, index: u16, length: u16) -> [u8; 8] {
    let [v0, v1] = value.to_le_bytes();
    let [i0, i1] = index.to_le_bytes();
    let [l0, l1] = length.to_le_bytes();
    [kind, request, v0, v1, i0, i1, l0, l1]
}
