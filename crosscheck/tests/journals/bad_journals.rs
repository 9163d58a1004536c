//! Each cause of `bad journal at N`, "N the kind byte's offset, decimal". A guest record has 19
//! bytes, an endpoint 6, a start 33, requests 22, 30, 38 and 74, an access 14, a reset 2, a fetch 3.

use crate::support::*;
use crosscheck::config::Configuration;
use crosscheck::numbers::{Endpoint, Guest};
use crosscheck::record::{journal_of, start, Record};

/// The bytes of `two_guests` up to the start, and through it.
const LISTS: usize = 2 * 19 + 3 * 6;
const STARTED: usize = LISTS + 33;

const GUEST: Record = Record::Guest { share: 0, first: 0, last: 0 };
const RESET: Record = Record::Reset { guest: G0 };

fn started() -> Vec<Record> {
    records(&two_guests(), &[])
}

/// The lines of records with the damage after them.
fn lines_after(mut before: Vec<Record>, damage: Record) -> Vec<String> {
    before.push(damage);
    lines_of_bytes(&journal_of(&before))
}

fn endpoint(number: u32) -> Record {
    Record::Endpoint { endpoint: Endpoint(number), owner: G0 }
}

/// "A journal read to its end, an empty one too, prints `E` last."
#[test]
fn an_empty_journal_and_one_without_a_start() {
    assert_eq!(lines_of_bytes(&[]), ["E"]);
    assert_eq!(lines_of_bytes(&journal_of(&[GUEST])), ["E"]);
    assert_eq!(lines_of_bytes(&journal_of(&[endpoint(1), GUEST])), ["E"]);
}

/// "An unknown kind", first of all, after whole records, and before and after the start.
#[test]
fn an_unknown_kind() {
    for kind in [0x00, 0x05, 0x10, 0x15, 0x20, 0x24, 0x7f, 0xff] {
        let raw = Record::Raw(vec![kind]);
        assert_eq!(lines_of_bytes(&[kind]), ["bad journal at 0"]);
        assert_eq!(lines_after(vec![GUEST], raw.clone()), ["bad journal at 19"]);
        let bad = format!("bad journal at {STARTED}");
        assert_eq!(lines_after(started(), raw), ["S 0", &bad]);
    }
}

/// "and stops": nothing after the bad record is read or printed.
#[test]
fn nothing_follows_a_bad_record() {
    let mut journal = started();
    journal.extend([RESET, Record::Raw(vec![0]), RESET]);
    let bad = format!("bad journal at {}", STARTED + 2);
    assert_eq!(lines_of_bytes(&journal_of(&journal)), ["S 0", "Z 0", &bad]);
}

/// "a cut body", cut at every place, of every kind; at its last byte the record is whole.
#[test]
fn a_cut_body() {
    let calls = [
        (Record::attach(G0, D1, E8), 22),
        (Record::unmap(G0, D1, (0, 0xfff)), 30),
        (Record::map(G0, D1, (0, 0xfff), W0, READ), 38),
        (Record::probe(G0, Endpoint(9)), 74),
        (Record::read(E8, 0), 14),
        (RESET, 2),
        (Record::Fetch { guest: G0, asked: 1 }, 3),
    ];
    for (call, length) in calls {
        let whole = journal_of(&[&started()[..], &[call]].concat());
        assert_eq!(whole.len(), STARTED + length);
        let bad = format!("bad journal at {STARTED}");
        for cut in STARTED + 1..whole.len() {
            assert_eq!(lines_of_bytes(&whole[..cut]), ["S 0", &bad]);
        }
        let lines = lines_of_bytes(&whole);
        assert_eq!((lines[0].as_str(), lines.last().map(String::as_str)), ("S 0", Some("E")));
    }
}

/// The same of the records before the start, and of the start itself.
#[test]
fn a_cut_body_in_the_set_up() {
    let whole = journal_of(&started());
    let starts = [0, 19, 38, 44, 50, 56];
    assert_eq!((starts[5], whole.len()), (LISTS, STARTED));
    for cut in 0..whole.len() {
        let expected = match starts.iter().rev().find(|start| **start <= cut) {
            Some(start) if *start < cut => format!("bad journal at {start}"),
            _ => "E".to_string(),
        };
        assert_eq!(lines_of_bytes(&whole[..cut]), [expected], "cut at {cut}");
    }
    assert_eq!(lines_of_bytes(&whole), ["S 0", "E"]);
}

/// "a fifth guest"; four are taken, good or not.
#[test]
fn a_fifth_guest() {
    assert_eq!(lines_of_bytes(&journal_of(&vec![GUEST; 4])), ["E"]);
    assert_eq!(lines_of_bytes(&journal_of(&vec![GUEST; 5])), ["bad journal at 76"]);
    // Cut short it is bad at the same place.
    assert_eq!(lines_of_bytes(&journal_of(&vec![GUEST; 5])[..80]), ["bad journal at 76"]);
}

/// "a 33rd endpoint"; 32 are taken.
#[test]
fn a_33rd_endpoint() {
    let mut configuration = two_guests();
    configuration.endpoints.clear();
    let mut journal = records(&configuration, &[]);
    for number in 0..32 {
        journal.insert(2, endpoint(number));
    }
    assert_eq!(lines_of_bytes(&journal_of(&journal)), ["S 0", "E"]);
    journal.insert(2, endpoint(32));
    // Two guests and 32 endpoints stand before the 33rd.
    assert_eq!(lines_of_bytes(&journal_of(&journal)), ["bad journal at 230"]);
}

/// "0x01 or 0x02 after start, a second start".
#[test]
fn set_up_records_after_the_start() {
    let bad = format!("bad journal at {STARTED}");
    for late in [GUEST, endpoint(77), start(&two_guests())] {
        assert_eq!(lines_after(started(), late), ["S 0", &bad]);
    }
}

/// A refused start is a start too.
#[test]
fn set_up_records_after_a_refused_start() {
    let refused = Configuration { page_size_mask: 0, ..two_guests() };
    let bad = format!("bad journal at {STARTED}");
    for late in [GUEST, endpoint(77), start(&two_guests())] {
        assert_eq!(lines_after(records(&refused, &[]), late), ["S 5", &bad]);
    }
}

/// "a call before start", of each kind, first of all and after the lists.
#[test]
fn a_call_before_the_start() {
    let calls = [
        Record::attach(G0, D1, E8),
        Record::unmap(G0, D1, (0, 0xfff)),
        Record::map(G0, D1, (0, 0xfff), W0, READ),
        Record::probe(G0, E8),
        Record::read(E8, 0),
        RESET,
        Record::Fetch { guest: G0, asked: 1 },
    ];
    for call in calls {
        assert_eq!(lines_after(Vec::new(), call.clone()), ["bad journal at 0"]);
        assert_eq!(lines_after(vec![GUEST, endpoint(8)], call), ["bad journal at 25"]);
    }
}

/// "a last byte of 0x21 or 0x23 out of range", after a refused start as well, and with nothing
/// printed for the record or logged by it.
#[test]
fn a_last_byte_out_of_range() {
    let refused = Configuration { page_size_mask: 0, ..two_guests() };
    let bad = format!("bad journal at {STARTED}");
    let access = |last: u8| [&[0x21, 8, 0, 0, 0][..], &[0; 8], &[last]].concat();
    let fetch = |guest: u8, last: u8| vec![0x23, guest, last];
    let damages = [access(2), access(255), fetch(0, 17), fetch(9, 17), fetch(0, 255)];
    for damage in damages.map(Record::Raw) {
        assert_eq!(lines_after(started(), damage.clone()), ["S 0", &bad]);
        assert_eq!(lines_after(records(&refused, &[]), damage), ["S 5", &bad]);
    }
    assert_eq!(lines_after(started(), Record::Raw(access(1))), ["S 0", "A 7", "E"]);
    assert_eq!(lines_after(started(), Record::Raw(fetch(0, 16))), ["S 0", "F 0 0", "E"]);
    assert_eq!(lines_after(started(), Record::Fetch { guest: Guest(9), asked: 16 })[1], "F 1");
}
