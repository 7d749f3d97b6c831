//! The training set: the mistakes that people make (00; 01, "Where trainees slip"). Of each a trace on which it shows, the right listing, and
//! that of a decoder which makes the mistake. docs/TRAINING.md explains them; the lines that it quotes are held to the listings.

use std::fs;

use crate::calls::{Mechanism, Rows};
use crate::listing::{BUFFER, listing};
use crate::packets::data;
use crate::trace::Writer;
use crate::traces::{check_files, expected, packet, write_files};
use crate::usb::PID;

/// The decoders that make the mistakes (changes/slips.txt).
mod slips {
    crate::decoder_module!(payload_seen, "/mutant_payload_seen.rs");
    crate::decoder_module!(malformed_closes, "/mutant_malformed_closes.rs");
    crate::decoder_module!(isochronous_closes, "/mutant_isochronous_closes.rs");
    crate::decoder_module!(setup_inside_plain, "/mutant_setup_inside_plain.rs");
    crate::decoder_module!(suspended_cleared, "/mutant_suspended_cleared.rs");
    crate::decoder_module!(item_every_end, "/mutant_item_every_end.rs");
    crate::decoder_module!(unknown_done, "/mutant_unknown_done.rs");
}

pub struct Mistake {
    pub name: &'static str,
    speed: Speed,
    /// What is on the wire; `Mistake::trace` says how it is written.
    script: &'static str,
    by: fn(&[u8]) -> String,
}

/// The mistakes, in the order of the page: the four of the request, then 01's three.
pub const MISTAKES: &[Mistake] = &[
    Mistake {
        name: "payload-seen",
        speed: Speed::Full,
        // A download of 192 bytes (DFU_DNLOAD); the second piece is refused once, the third is never sent.
        script: "SETUP 5 0; DATA0 =21 01 00 00 00 00 C0 00; ACK; OUT 5 0; DATA1 0..64; ACK; \
                 OUT 5 0; DATA0 64..128; NAK; frame; OUT 5 0; DATA0 64..128; ACK",
        by: listed::<slips::payload_seen::machine::Machine>,
    },
    Mistake {
        name: "malformed-closes",
        speed: Speed::Full,
        // The handshake of the second piece is damaged, so the host sends the piece again.
        script: "OUT 5 1; DATA0 0..64; ACK; OUT 5 1; DATA1 64..128; bad; frame; OUT 5 1; DATA1 64..128; ACK",
        by: listed::<slips::malformed_closes::machine::Machine>,
    },
    Mistake {
        name: "isochronous-closes",
        speed: Speed::Full,
        // One packet a frame; the second is short. A detail may be given for address 0 before any packet.
        script: "detail 0 1 1 1 64; IN 0 1; DATA0 0..64; frame; IN 0 1; DATA0 64..74; frame; IN 0 1; DATA0 74..138",
        by: listed::<slips::isochronous_closes::machine::Machine>,
    },
    Mistake {
        name: "setup-inside",
        speed: Speed::Full,
        // The host asks for the first 8 bytes of the device descriptor, leaves out the status stage, and asks for all 18.
        script: "SETUP 0 0; DATA0 =80 06 00 01 00 00 08 00; ACK; IN 0 0; DATA1 =12 01 00 02 00 00 00 40; ACK; frame; \
                 SETUP 0 0; DATA0 =80 06 00 01 00 00 12 00; ACK; \
                 IN 0 0; DATA1 =12 01 00 02 00 00 00 40 09 12 01 00 00 01 00 00 00 01; ACK; OUT 0 0; DATA1 *0; ACK",
        by: listed::<slips::setup_inside_plain::machine::Machine>,
    },
    Mistake {
        name: "suspended-cleared",
        speed: Speed::Low,
        // The probe reports a keepalive (code 30) and the idle line behind it (code 16) between an IN and its data.
        script: "IN 5 1; event 0 30; event 7 16; DATA1 *8; ACK",
        by: listed::<slips::suspended_cleared::machine::Machine>,
    },
    Mistake {
        name: "item-every-end",
        speed: Speed::Full,
        // A request without data (DFU_CLRSTATUS), on a bus where nothing else goes on.
        script: "SETUP 5 0; DATA0 =21 04 00 00 00 00 00 00; ACK; IN 5 0; DATA1 *0; ACK",
        by: listed::<slips::item_every_end::machine::Machine>,
    },
    Mistake {
        name: "unknown-done",
        speed: Speed::Full,
        // Three tries, and the device never answers.
        script: "OUT 5 1; DATA0 0..64; frame; OUT 5 1; DATA0 0..64; frame; OUT 5 1; DATA0 0..64",
        by: listed::<slips::unknown_done::machine::Machine>,
    },
];

fn listed<M: Mechanism>(trace: &[u8]) -> String {
    listing::<M>(trace, BUFFER, Rows::PROGRAM, 0)
}

/// The speed of a bus, for the times of a trace.
#[derive(Copy, Clone)]
enum Speed {
    Low,
    Full,
}

impl Speed {
    /// The nanoseconds of so many bit times (USB 2.0, 7.1.11: 1.5 and 12 Mb/s).
    fn time(self, bits: u32) -> u32 {
        match self {
            Speed::Low => bits * 2000 / 3,
            Speed::Full => bits * 1000 / 12,
        }
    }

    /// The bit times of a frame, which is 1 ms.
    fn frame(self) -> u32 {
        match self {
            Speed::Low => 1500,
            Speed::Full => 12000,
        }
    }
}

/// Bit times of the SYNC before a packet and of the EOP behind it (7.1.10, 7.1.13), and between two packets of a transaction (7.1.18).
const SYNC: u32 = 8;
const EOP: u32 = 3;
const TURN: u32 = 4;

impl Mistake {
    /// The script as a trace. Words are those of src/traces.rs, and: `DATA0 A..B`, bytes A to B of an image whose byte i is i; `event KIND CODE`;
    /// `frame`, which waits for the next frame. Each packet begins where one on a bus would, bits that are stuffed left out;
    /// an event takes as long as an EOP, which is what a keepalive is.
    pub fn trace(&self) -> Vec<u8> {
        let mut trace = Writer::default();
        let mut bits = 0;
        for step in self.script.split(';') {
            let words: Vec<&str> = step.split_whitespace().collect();
            let number = |i: usize| words[i].parse::<u16>().expect(step);
            let ticks = self.speed.time(bits);
            match words[0] {
                "frame" => bits = bits.next_multiple_of(self.speed.frame()),
                "detail" => trace.detail(number(1) as u8, number(2) as u8, number(3) as u8, number(4) as u8, number(5)),
                "event" => {
                    trace.event(ticks, number(1) as u8, number(2) as u8);
                    bits += EOP;
                }
                _ => {
                    let bytes = image(&words).unwrap_or_else(|| packet(&words));
                    trace.packet(ticks, &bytes);
                    bits += SYNC + 8 * bytes.len() as u32 + EOP + TURN;
                }
            }
        }
        trace.bytes
    }

    /// The right listing, which the proved program must print too.
    pub fn right(&self) -> String {
        expected(&self.trace())
    }

    /// The listing of the decoder that makes the mistake.
    pub fn student(&self) -> String {
        (self.by)(&self.trace())
    }
}

/// A data packet with a part of the image.
fn image(words: &[&str]) -> Option<Vec<u8>> {
    let (from, to) = words.get(1)?.split_once("..")?;
    let range = from.parse::<u8>().ok()?..to.parse().ok()?;
    Some(data(if words[0] == "DATA0" { PID::DATA0 } else { PID::DATA1 }, &range.collect::<Vec<u8>>()))
}

/// The first line in which two listings differ: its number from 1 on, and the line of each; `(none)` where a listing has ended.
pub fn first_difference<'a>(right: &'a str, student: &'a str) -> Option<(usize, &'a str, &'a str)> {
    let line = |text: &'a str, i: usize| text.lines().nth(i);
    let last = right.lines().count().max(student.lines().count());
    let place = (0..last).find(|&i| line(right, i) != line(student, i))?;
    Some((place + 1, line(right, place).unwrap_or("(none)"), line(student, place).unwrap_or("(none)")))
}

/// How the page quotes, in an indented block: a line of one listing that the other has not; or, with its number, the first line that differs.
const RIGHT: &str = "    right    ";
const STUDENT: &str = "    student  ";
const FIRST: &str = "line ";

/// The lines of a listing begin with one of these. What the page has as code in a sentence, and begins with one, must begin a line of a listing.
const KINDS: [&str; 11] =
    ["device", "endpoint", "packet", "event", "transaction", "group", "state", "item", "link", "request", "details"];

/// A mistake's part of the page.
struct Part {
    name: &'static str,
    right: String,
    student: String,
}

impl Part {
    fn of(mistake: &Mistake) -> Part {
        Part { name: mistake.name, right: mistake.right(), student: mistake.student() }
    }

    /// A line of the page as it must be.
    fn held(&self, line: &str) -> Result<String, String> {
        let (mark, own, other) = match line {
            _ if line.starts_with(RIGHT) => (RIGHT, &self.right, &self.student),
            _ if line.starts_with(STUDENT) => (STUDENT, &self.student, &self.right),
            _ => return self.spoken(line),
        };
        let rest = &line[mark.len()..];
        if rest.starts_with(FIRST) {
            let (number, first, _) =
                first_difference(own, other).ok_or(format!("{}: two listings that are the same", self.name))?;
            return Ok(format!("{mark}{FIRST}{number}: {first}"));
        }
        if !own.lines().any(|l| l == rest) || other.lines().any(|l| l == rest) {
            return Err(format!("{}: not in that listing alone: {rest}", self.name));
        }
        Ok(line.to_string())
    }

    /// A line of sentences: each piece of code in it that looks like a line of a listing, or the beginning of one, is one.
    fn spoken(&self, line: &str) -> Result<String, String> {
        for code in line.split('`').skip(1).step_by(2) {
            let kind = code.split_once(' ').map(|(kind, _)| kind);
            let begins = |l: &str| l.strip_prefix(code).is_some_and(|rest| rest.is_empty() || rest.starts_with(' '));
            if kind.is_some_and(|k| KINDS.contains(&k)) && !self.right.lines().chain(self.student.lines()).any(begins) {
                return Err(format!("{}: no such line: {code}", self.name));
            }
        }
        Ok(line.to_string())
    }
}

/// The page with the first lines that differ as they are. An error where another line that it quotes is not in its listing, and where a mistake has
/// not one heading, with its name as code, and behind it its two first lines.
pub fn quoted(page: &str) -> Result<String, String> {
    let mut out = String::new();
    let mut part: Option<Part> = None;
    let mut firsts = Vec::new();
    for line in page.lines() {
        if line.starts_with("## ") {
            part = MISTAKES.iter().find(|m| line.contains(&format!("`{}`", m.name))).map(Part::of);
        }
        let held = part.as_ref().map_or(Ok(line.to_string()), |part| part.held(line))?;
        for mark in [RIGHT, STUDENT] {
            if line.starts_with(&format!("{mark}{FIRST}")) {
                firsts.push((part.as_ref().map(|p| p.name), mark));
            }
        }
        out += &format!("{held}\n");
    }
    if firsts != MISTAKES.iter().flat_map(|m| [(Some(m.name), RIGHT), (Some(m.name), STUDENT)]).collect::<Vec<_>>() {
        return Err("not each mistake has its two first lines, in the order of the set".to_string());
    }
    Ok(out)
}

fn files() -> Vec<(String, Vec<u8>)> {
    let three = |m: &Mistake| {
        [("utl", m.trace()), ("right", m.right().into_bytes()), ("student", m.student().into_bytes())]
            .map(|(ending, bytes)| (format!("{}.{ending}", m.name), bytes))
    };
    MISTAKES.iter().flat_map(three).collect()
}

/// Writes NAME.utl, NAME.right and NAME.student for every mistake, and into the page the first lines that differ.
pub fn write(folder: &str, page: &str) -> Result<(), String> {
    write_files(folder, &files())?;
    let text = fs::read_to_string(page).map_err(|e| format!("{page}: {e}"))?;
    fs::write(page, quoted(&text).map_err(|e| format!("{page}: {e}"))?).map_err(|e| format!("{page}: {e}"))?;
    println!("{} mistakes written", MISTAKES.len());
    Ok(())
}

/// Compares what stands in the folder, and what the page quotes, with what would be written.
pub fn check(folder: &str, page: &str) -> Result<(), String> {
    check_files(folder, &files())?;
    let text = fs::read_to_string(page).map_err(|e| format!("{page}: {e}"))?;
    let now = quoted(&text).map_err(|e| format!("{page}: {e}"))?;
    if let Some((number, _, line)) = first_difference(&text, &now) {
        return Err(format!("{page}, line {number} should be: {}", line.trim_start()));
    }
    println!("{} mistakes: as the oracle gives them, and as the page has them", MISTAKES.len());
    Ok(())
}

#[cfg(test)]
mod tests {
    use super::*;

    crate::decoder_module!(setup_inside, "/mutant_setup_inside.rs");

    /// Why the set has a slip of its own for a SETUP: the other one needs a split.
    #[test]
    fn setup_inside_needs_a_split() {
        let mistake = MISTAKES.iter().find(|m| m.name == "setup-inside").expect("a mistake of the set");
        assert_eq!(listed::<setup_inside::machine::Machine>(&mistake.trace()), mistake.right());
    }
}
