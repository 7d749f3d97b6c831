//! Change request 4 on the oracle: files written by hand, every refusal at every byte, and pieces of every length.

use oracle::calls::{Calls, Rows};
use oracle::decoder::machine::Machine;
use oracle::pcap::{
    FORMATS, Format, HEAD, Imported, Packet, Reader, WRITTEN, head, import, import_from, of_trace, packets, there_and_back, write,
};
use oracle::trace::{Refused, Writer};

/// SOF 0 with its CRC5, and an ACK.
const SOF: [u8; 3] = [0xA5, 0x00, 0x10];
const ACK: [u8; 1] = [0xD2];

/// An SOF after 1 second and 2 microseconds, an ACK a microsecond later, by the format's own text.
#[rustfmt::skip]
const LITTLE: [u8; 60] = [
    0x4D, 0x3C, 0xB2, 0xA1, 2, 0, 4, 0, 0, 0, 0, 0, 0, 0, 0, 0, 0x00, 0x10, 0, 0, 0x20, 1, 0, 0,
    1, 0, 0, 0, 0xD0, 0x07, 0, 0, 3, 0, 0, 0, 3, 0, 0, 0, 0xA5, 0x00, 0x10,
    1, 0, 0, 0, 0xB8, 0x0B, 0, 0, 1, 0, 0, 0, 1, 0, 0, 0, 0xD2,
];

#[rustfmt::skip]
const BIG_MICRO: [u8; 60] = [
    0xA1, 0xB2, 0xC3, 0xD4, 0, 2, 0, 4, 0, 0, 0, 0, 0, 0, 0, 0, 0, 0, 0x10, 0x00, 0, 0, 1, 0x20,
    0, 0, 0, 1, 0, 0, 0, 2, 0, 0, 0, 3, 0, 0, 0, 3, 0xA5, 0x00, 0x10,
    0, 0, 0, 1, 0, 0, 0, 3, 0, 0, 0, 1, 0, 0, 0, 1, 0xD2,
];

fn fresh() -> Calls<Machine> {
    Calls::new(Rows::LARGEST, 0, false)
}

fn imported(file: &[u8]) -> Imported {
    import(file, &mut fresh())
}

#[test]
fn by_hand() {
    let given = [Packet { time: 1_000_002_000, bytes: &SOF }, Packet { time: 1_000_003_000, bytes: &ACK }];
    assert_eq!(write(WRITTEN, &given).unwrap(), LITTLE);
    assert_eq!(write(Format { big: true, nano: false }, &given).unwrap(), BIG_MICRO);
    for file in [LITTLE, BIG_MICRO] {
        let mut calls = fresh();
        assert_eq!(import(&file, &mut calls), Imported { answer: 0, at: 60, taken: 2, eights: 0 });
        assert_eq!(packets(&calls).0, given);
    }
}

/// A head that is cut, that lacks its mark, or has another link type, in the order of the answers; nothing else of it is looked at.
#[test]
fn heads() {
    for format in FORMATS {
        let file = write(format, &[]).unwrap();
        assert_eq!(file.len(), HEAD);
        for end in 0..HEAD {
            assert_eq!(head(&file[..end]), Err(Refused { answer: 14, at: 0 }));
        }
        for (place, bit) in (0..HEAD).flat_map(|place| (0..8).map(move |bit| (place, bit))) {
            let mut file = file.clone();
            file[place] ^= 1 << bit;
            let wanted = match place {
                0..4 => Err(Refused { answer: 14, at: 0 }),
                4..20 => Ok(format),
                _ => Err(Refused { answer: 15, at: 20 }),
            };
            assert_eq!(head(&file), wanted, "bit {bit} of byte {place}");
        }
    }
    let mut both = LITTLE[..HEAD].to_vec();
    (both[0], both[20]) = (0, 0);
    assert_eq!(head(&both), Err(Refused { answer: 14, at: 0 }));
}

/// Each byte of a record: cut behind it 16; a length that is not the other 16, before 17; a fraction of a second 17. What came before it stays.
#[test]
fn records() {
    for format in FORMATS {
        let given = [Packet { time: 5, bytes: &ACK }, Packet { time: 4_294_967_295_000_000_000, bytes: &SOF }];
        let file = write(format, &given).unwrap();
        let second = HEAD + 17;
        for end in second + 1..file.len() {
            assert_eq!(imported(&file[..end]), Imported { answer: 16, at: second, taken: 1, eights: 0 });
        }
        assert_eq!(imported(&file[..second]), Imported { answer: 0, at: second, taken: 1, eights: 0 });
        let put = |place: usize, n: u32| {
            let mut file = file.clone();
            file[place..place + 4].copy_from_slice(&if format.big { n.to_be_bytes() } else { n.to_le_bytes() });
            file
        };
        let most = if format.nano { 1_000_000_000 } else { 1_000_000 };
        let refused = |answer| Imported { answer, at: second, taken: 1, eights: 0 };
        assert_eq!(imported(&put(second + 4, most)), refused(17));
        assert_eq!(imported(&put(second + 4, u32::MAX)), refused(17));
        assert_eq!(imported(&put(second + 4, most - 1)).answer, 0);
        for length in [0, 2, 4, u32::MAX] {
            assert_eq!(imported(&put(second + 8, length)), refused(16));
            assert_eq!(imported(&put(second + 12, length)), refused(16));
        }
        let mut both = put(second + 4, most);
        both.pop();
        assert_eq!(imported(&both), refused(16), "16 before 17");
    }
}

/// A packet of 4,097 bytes is the call's own refusal, 3, at its record.
#[test]
fn too_long() {
    let long = [0u8; 4097];
    let file = write(WRITTEN, &[Packet { time: 0, bytes: &ACK }, Packet { time: 0, bytes: &long }]).unwrap();
    assert_eq!(imported(&file), Imported { answer: 3, at: HEAD + 17, taken: 1, eights: 0 });
}

/// Seconds that do not fit 32 bits.
#[test]
fn late() {
    let time = 4_294_967_296_000_000_000;
    assert_eq!(write(WRITTEN, &[Packet { time: time - 1, bytes: &ACK }]).map(|f| f.len()), Ok(HEAD + 17));
    assert_eq!(write(WRITTEN, &[Packet { time, bytes: &ACK }]), Err(18));
}

/// Events are left behind, and counted.
#[test]
fn events() {
    let mut trace = Writer::default();
    trace.event(1, 1, 5);
    trace.packet(2, &SOF);
    trace.event(3, 2, 0);
    trace.packet(4, &ACK);
    let (file, events) = of_trace::<Machine>(&trace.bytes, WRITTEN).unwrap();
    assert_eq!(events, 2);
    let mut reader = Reader::at(&file, WRITTEN, HEAD);
    let times: Vec<u64> = std::iter::from_fn(|| reader.next().map(|p| p.unwrap().time)).collect();
    assert_eq!(times, [2, 4]);
}

/// A file in pieces of every length: a 16 asks for more from its place, and all of them give what the whole gives.
#[test]
fn pieces() {
    let given: Vec<Packet> = (0..20).map(|n| Packet { time: n * 1000, bytes: if n % 3 == 0 { &SOF } else { &ACK } }).collect();
    let file = write(WRITTEN, &given).unwrap();
    for size in 19..file.len() {
        let (mut calls, mut at, mut taken) = (fresh(), HEAD, 0);
        while at < file.len() {
            let piece = &file[at..(at + size).min(file.len())];
            let part = import_from(WRITTEN, piece, 0, &mut calls);
            assert!(part.answer == 0 || part.answer == 16 && part.at > 0, "{part:?}");
            (at, taken) = (at + part.at, taken + part.taken);
        }
        assert_eq!(taken, 20);
        assert_eq!(packets(&calls).0, given);
    }
}

#[test]
fn back() {
    assert!(there_and_back::<Machine>(3, 1).unwrap() > 1000);
}
