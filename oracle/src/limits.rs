//! Traces that ask for one row more than the program has room for, log by log (docs/SIZES.md).

use crate::traces::written;

/// So many steps behind each other, each from its number.
fn each(count: usize, step: impl Fn(usize) -> String) -> String {
    (0..count).map(step).collect::<Vec<_>>().join("; ")
}

/// A control transfer with no data; its request, and for SET_ADDRESS its value, in hex.
fn transfer(address: u8, request: u8, value: usize) -> String {
    format!("SETUP {address} 0; DATA0 =00 {request:02X} {value:02X} 00 00 00 00 00; ACK; IN {address} 0; DATA1 *0; ACK")
}

/// Two transfers, each of whose rows has an item, since the item before is the other's.
fn interleaved() -> String {
    let setup = |a: u8| format!("SETUP {a} 0; DATA0 =00 09 01 00 00 00 00 00; ACK");
    let status = |a: u8| format!("IN {a} 0; DATA1 *0; ACK");
    [setup(0), setup(1), status(0), status(1)].join("; ")
}

/// An endpoint that comes with no group: a split's token, and a SPLIT that takes its place.
fn added(i: usize) -> String {
    format!("SPLIT start bulk; OUT {} {}; SPLIT start bulk", i / 15, i % 15 + 1)
}

/// Thirty groups that an event ends: a row, an item and three links each.
fn ended(_: usize) -> String {
    each(30, |i| format!("IN {} {}", i / 15, i % 15 + 1)) + "; event 7"
}

/// Traces by the log that they fill.
pub fn limits() -> Vec<(&'static str, Vec<u8>)> {
    let again = |text: &'static str| move |_: usize| text.to_string();
    let texts = [
        ("bytes", each(9, again("long 1000"))),
        ("devices", each(64, |i| transfer(0, 5, i))),
        ("endpoints", each(126, added)),
        ("packets", each(513, again("SOF 0"))),
        ("events", each(129, again("event 0"))),
        ("transactions", each(385, again("SPLIT start bulk"))),
        ("groups", each(97, again("PING 0 1"))),
        ("state-bytes", format!("{}; {}", each(40, added), each(72, again("PING 0 1")))),
        ("items", format!("{}; {}; OUT 0 1", each(128, again("event 7")), each(16, |_| interleaved()))),
        ("links", format!("{}; {}", each(6, ended), each(12, again("OUT 0 1; DATA0 *8; ACK")))),
        ("requests", each(65, |_| transfer(0, 9, 1))),
    ];
    texts.into_iter().map(|(log, text)| (log, written(&text))).collect()
}

#[cfg(test)]
mod tests {
    use super::*;
    use crate::calls::{LOGS, Rows};
    use crate::decoder::machine::Machine;
    use crate::trace::{HEADER, Reader, play};

    /// A record of the last step, which has six at most, or finish is refused for want of room in that log, and all before it fit.
    #[test]
    fn each_fills_its_log() {
        for (name, trace) in limits() {
            let log = LOGS.iter().position(|log| *log == name).expect("a log");
            let (mut reader, mut places) = (Reader::new(&trace), vec![HEADER]);
            while reader.next().is_some() {
                places.push(reader.at);
            }
            let mut alone = Rows::LARGEST;
            alone.0[log] = Rows::PROGRAM.0[log];
            let refused = |room| play::<Machine>(&trace, room, 0, &mut ()).refused.map(|r| (r.answer, r.at));
            assert!(places.iter().rev().take(7).any(|at| refused(Rows::PROGRAM) == Some((7, *at))), "{name}");
            assert_eq!(refused(alone), refused(Rows::PROGRAM), "{name}");
        }
    }
}
