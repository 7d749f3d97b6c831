//! Blocks of records (change requests 3 and 13) on the oracle. What is expected here is written from documents 01 and 02 by hand.

use oracle::blocks::{Block, block};
use oracle::calls::{Calls, Mechanism, Rows};
use oracle::decoder::machine::Machine;
use oracle::trace::{Clock, HEADER, Writer};

fn fresh() -> Calls<Machine> {
    Calls::new(Rows::LARGEST, 0, false)
}

fn records(write: impl FnOnce(&mut Writer)) -> Vec<u8> {
    let mut trace = Writer::default();
    write(&mut trace);
    trace.bytes.split_off(HEADER)
}

const ACK: [u8; 1] = [0xD2];
/// A start of a bulk split.
const SPLIT: [u8; 4] = [0x78, 0x01, 0x01, 0x44];
/// A packet of one byte, an event.
const PACKET: usize = 8;
const EVENT: usize = 7;

/// What a block answers, its clock by the last counter and its time.
fn answer(answer: u8, taken: u64, eights: u64, place: usize, clock: (u32, u64)) -> Block {
    Block { answer, taken, eights, place, clock: Clock::at(clock.0, clock.1) }
}

/// An empty block takes none and answers 0, also behind finish and on a decoder that was refused.
#[test]
fn empty() {
    let none = Block { answer: 0, taken: 0, eights: 0, place: 0, clock: Clock::default() };
    assert_eq!(block(&mut fresh(), Clock::default(), &[]), none);
    let mut finished = fresh();
    assert_eq!(finished.finish(), 0);
    assert_eq!(block(&mut finished, Clock::default(), &[]), none);
    let mut refused = Calls::<Machine>::new(Rows([0; 12]), 0, false);
    assert_eq!(block(&mut refused, Clock::default(), &[]), none);
    assert_eq!(block(&mut fresh(), Clock::at(5, 9), &[]), answer(0, 0, 0, 0, (5, 9)));
}

/// The first time is its ticks where the clock has not started; else the difference is added, modulo 2^32 and 2^64.
#[test]
fn clock() {
    let two = records(|t| {
        t.packet(10, &ACK);
        t.packet(4, &ACK);
    });
    assert_eq!(block(&mut fresh(), Clock::default(), &two), answer(0, 2, 0, 2 * PACKET, (4, 10 + (1 << 32) - 6)));
    assert_eq!(block(&mut fresh(), Clock::at(8, 100), &two).clock, Clock::at(4, 102 + (1 << 32) - 6));
    let one = records(|t| t.packet(3, &ACK));
    assert_eq!(block(&mut fresh(), Clock::at(1, u64::MAX), &one).clock, Clock::at(3, 1));
    let mut calls = fresh();
    block(&mut calls, Clock::at(1, u64::MAX), &one);
    block(&mut calls, Clock::at(3, 1), &records(|t| t.event(5, 7, 0)));
    assert_eq!(calls.log_words(3), [0, 1, 1, 3]);
}

/// It stops at the first answer other than 0 and 8, with the tick state of the records before it; their rows remain.
#[test]
fn stops() {
    let third = |write: fn(&mut Writer)| {
        records(|t| {
            t.packet(1, &ACK);
            t.packet(2, &ACK);
            write(t);
            t.packet(9, &ACK);
        })
    };
    let cases: [(u8, fn(&mut Writer)); 6] = [
        (3, |t| t.packet(7, &[0; 4097])),
        (4, |t| t.event(7, 8, 0)),
        (20, |t| t.detail(0, 1, 0, 2, 64)),
        (20, |t| t.detail(0, 16, 0, 2, 64)),
        (20, |t| t.detail(99, 1, 0, 2, 64)),
        (12, |t| t.bytes.push(3)),
    ];
    for (number, write) in cases {
        let mut calls = fresh();
        assert_eq!(block(&mut calls, Clock::default(), &third(write)), answer(number, 2, 0, 2 * PACKET, (2, 2)));
        assert_eq!(calls.rows().0[3], 2, "two packet rows");
    }
    let mut room = Rows::LARGEST;
    room.0[3] = 2;
    let mut calls = Calls::<Machine>::new(room, 0, false);
    assert_eq!(block(&mut calls, Clock::default(), &third(|_| {})), answer(7, 2, 0, 2 * PACKET, (2, 2)));
}

/// A record that is cut short is 13, whatever it is; one more byte and it is taken.
#[test]
fn cut() {
    let whole = records(|t| {
        t.packet(1, &ACK);
        t.event(2, 7, 0);
        t.packet(3, &SPLIT);
    });
    let ends = [PACKET, PACKET + EVENT, whole.len()];
    for length in 0..=whole.len() {
        let taken = ends.iter().filter(|end| **end <= length).count();
        let place = if taken == 0 { 0 } else { ends[taken - 1] };
        let clock = [Clock::default(), Clock::at(1, 1), Clock::at(2, 2), Clock::at(3, 3)][taken];
        let answer = if place == length { 0 } else { 13 };
        let found = block(&mut fresh(), Clock::default(), &whole[..length]);
        assert_eq!(found, Block { answer, taken: taken as u64, eights: 0, place, clock }, "{length} bytes");
    }
}

/// A detail stops its block with 20, and nothing of it happens: wherever it stands, and whether its call would be refused or not. Cut short it is 13, and
/// the next block that has it whole answers 20.
#[test]
fn detail() {
    let detail = records(|t| t.detail(0, 1, 0, 1, 64));
    let (packet, out) = (records(|t| t.packet(1, &ACK)), records(|t| t.packet(2, &[0xE1, 0x80, 0xA0])));
    let cases = [
        (detail.clone(), Block { answer: 20, taken: 0, eights: 0, place: 0, clock: Clock::default() }),
        ([&detail[..], &packet].concat(), Block { answer: 20, taken: 0, eights: 0, place: 0, clock: Clock::default() }),
        ([&packet[..], &detail].concat(), answer(20, 1, 0, PACKET, (1, 1))),
        ([&packet[..], &detail, &packet, &detail].concat(), answer(20, 1, 0, PACKET, (1, 1))),
    ];
    for (bytes, expected) in cases {
        let mut calls = fresh();
        let first = block(&mut calls, Clock::default(), &bytes);
        assert_eq!(first, expected);
        assert_eq!(calls.machine.device(0).expect("the first device").told()[1], (4, 0), "nothing of it happens");
        // To call again at that record is 20 again; what stands behind it can be called.
        assert_eq!(block(&mut calls, first.clock, &bytes[first.place..]), Block { answer: 20, taken: 0, place: 0, ..expected });
        assert_eq!(block(&mut calls, first.clock, &out).answer, 0);
        assert_eq!(calls.rows().0[3], expected.taken + 1);
    }
    for length in 1..detail.len() {
        let mut calls = fresh();
        let cut = block(&mut calls, Clock::default(), &[&packet[..], &detail[..length]].concat());
        assert_eq!(cut, answer(13, 1, 0, PACKET, (1, 1)), "{length} bytes");
        assert_eq!(block(&mut calls, cut.clock, &detail), answer(20, 0, 0, 0, (1, 1)));
    }
}

/// 8 is taken, and told apart. 01's starred case: SPLIT, keepalive, packet.
#[test]
fn eight() {
    let bytes = records(|t| {
        t.packet(1, &SPLIT);
        t.event(2, 0, 0);
        t.packet(3, &ACK);
        t.packet(4, &ACK);
    });
    assert_eq!(block(&mut fresh(), Clock::default(), &bytes), answer(0, 4, 1, bytes.len(), (4, 4)));
}

/// 12, 13 and 20 come before the record's own call, so before 1 and 2.
#[test]
fn order() {
    let mut finished = fresh();
    assert_eq!(finished.finish(), 0);
    let mut refused = Calls::<Machine>::new(Rows([0; 12]), 0, false);
    for (calls, own) in [(&mut finished, 2), (&mut refused, 1)] {
        let detail = records(|t| t.detail(0, 1, 0, 2, 64));
        let packet = records(|t| t.packet(1, &ACK));
        for (bytes, number) in [(&[3][..], 12), (&[0][..], 13), (&detail[..6], 13), (&detail, 20), (&packet, own)] {
            let stopped = Block { answer: number, taken: 0, eights: 0, place: 0, clock: Clock::default() };
            assert_eq!(block(calls, Clock::default(), bytes), stopped);
        }
    }
}
