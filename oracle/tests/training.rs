//! The training set: that each mistake shows, and how; that its traces are what a bench could see; that its page can't go stale.

use oracle::trace::{Clock, Reader, Record};
use oracle::training::{MISTAKES, Mistake, first_difference, quoted};
use oracle::usb::validate_packet;

fn mistake(name: &str) -> &'static Mistake {
    MISTAKES.iter().find(|m| m.name == name).expect("a mistake of the set")
}

/// The item, link and request lines of a listing that the other one has not.
fn alone<'a>(listing: &'a str, other: &str) -> Vec<&'a str> {
    let kind = |l: &&str| ["item ", "link ", "request "].iter().any(|kind| l.starts_with(kind));
    listing.lines().filter(kind).filter(|line| !other.lines().any(|l| l == *line)).collect()
}

/// What differs, reckoned by hand: of the right listing, of the student's.
const DIFFERENCES: &[(&str, &[&str], &[&str])] = &[
    ("payload-seen", &["link D 3 3 64"], &["link D 3 2 64", "link D 3 3 128"]),
    ("malformed-closes", &["link D 3 1 64"], &["link T 3 1", "link D 3 2 64"]),
    ("isochronous-closes", &[], &["item 1 2", "link G 3 2", "link E 3 1"]),
    (
        "setup-inside",
        &["item 1 2", "link G 3 2", "link E 3 1", "request 0 3 8006000100001200 18 max 64"],
        &["request 0 3 8006000100001200 26 max 64"],
    ),
    (
        "suspended-cleared",
        &["link T 3 3", "link D 3 1 0"],
        &["item 3 3", "item 4 5", "link T 1 3", "link G 1 0", "link T 1 4", "link G 1 1", "link E 1 4"],
    ),
    ("item-every-end", &[], &["item 1 1", "link E 3 1"]),
    ("unknown-done", &[], &["link D 3 0 0", "link D 3 1 64", "link D 3 2 128"]),
];

#[test]
fn each_mistake_shows() {
    assert!(MISTAKES.iter().map(|m| m.name).eq(DIFFERENCES.iter().map(|d| d.0)));
    for (name, right, student) in DIFFERENCES {
        let mistake = mistake(name);
        assert_eq!(alone(&mistake.right(), &mistake.student()), *right, "{name}");
        assert_eq!(alone(&mistake.student(), &mistake.right()), *student, "{name}");
    }
}

/// Every packet but the damaged handshake is valid, and each record comes after the one before, within three frames.
#[test]
fn a_bench_could_see_them() {
    for mistake in MISTAKES {
        let (trace, mut clock, mut last) = (mistake.trace(), Clock::default(), None);
        let mut reader = Reader::new(&trace);
        let mut malformed = Vec::new();
        while let Some(record) = reader.next() {
            let ticks = match record.expect("a record") {
                Record::Packet { ticks, bytes } => {
                    malformed.extend(validate_packet(bytes).is_err().then_some(bytes));
                    ticks
                }
                Record::Event { ticks, .. } => ticks,
                Record::Detail { .. } => continue,
            };
            let time = clock.time(ticks);
            assert!(last < Some(time) && time < 3_000_000, "{}: {last:?}, {time}", mistake.name);
            last = Some(time);
        }
        let damaged: &[&[u8]] = if mistake.name == "malformed-closes" { &[&[0xD3]] } else { &[] };
        assert_eq!(malformed, damaged, "{}", mistake.name);
    }
}

/// Full speed: SYNC, 3 bytes and EOP are 35 bits, 4 more to the next packet, so 39 bits of 83.3 ns.
#[test]
fn times() {
    let right = mistake("isochronous-closes").right();
    let packets: Vec<&str> = right.lines().filter(|l| l.starts_with("packet ")).collect();
    let expected = [
        "packet 0 0 0",
        "packet 1 3 3250",
        "packet 2 70 1000000",
        "packet 3 73 1003250",
        "packet 4 86 2000000",
        "packet 5 89 2003250",
    ];
    assert_eq!(packets, expected);
}

#[test]
fn first_differences() {
    assert_eq!(first_difference("a\nb\n", "a\nb\n"), None);
    assert_eq!(first_difference("a\nb\nd\n", "a\nc\nd\n"), Some((2, "b", "c")));
    assert_eq!(first_difference("a\n", "a\nb\n"), Some((2, "(none)", "b")));
}

/// A page with a heading and the first lines of each mistake, and the text behind that of the first.
fn page(text: &str) -> String {
    let part = |(i, m): (usize, &Mistake)| {
        format!("## `{}`\n    right    line 1: x\n    student  line 1: y\n{}", m.name, if i == 0 { text } else { "" })
    };
    MISTAKES.iter().enumerate().map(part).collect()
}

#[test]
fn first_lines_are_put_in() {
    let now = quoted(&page("")).expect("a page");
    assert!(now.starts_with("## `payload-seen`\n    right    line 32: link T 3 3\n    student  line 32: link D 3 2 64\n"));
    assert_eq!(quoted(&now), Ok(now));
}

#[test]
fn a_wrong_page_is_found() {
    for text in
        ["    right    link D 3 3 64\n", "    student  link D 3 3 128\n", "So `link T 3 2` and `link D 3 3` and `C0 00`.\n"]
    {
        assert!(quoted(&page(text)).is_ok(), "{text}");
    }
    let in_both = "    right    link T 3 2\n";
    let in_the_other = "    right    link D 3 3 128\n";
    let in_none = "    student  link D 3 3 12\n";
    let no_beginning = "So `link D 3 3 12`.\n";
    let twice = "    right    line 1: x\n";
    for text in [in_both, in_the_other, in_none, no_beginning, twice] {
        assert!(quoted(&page(text)).is_err(), "{text}");
    }
    assert!(quoted(&page("").replace("`unknown-done`", "`unknown`")).is_err());
    assert!(quoted(&page("").replace("    student  line 1: y\n## `malformed", "## `malformed")).is_err());
}
