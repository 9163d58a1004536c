//! The generator's journals: the same for the same seed, pairs that are pairs, every answer met.

use crosscheck::answers::{Inval, Range, Status};
use crosscheck::compare::{play, Played};
use crosscheck::coverage::{Coverage, GROUPS};
use crosscheck::generate::{case, Case};
use crosscheck::journal;
use crosscheck::long_journal::LongJournal;
use crosscheck::numbers::Guest;
use crosscheck::record::{journal_of, Record};
use crosscheck::requests::{ATTACH, DETACH, MAP, PROBE, UNMAP};
use std::collections::HashMap;

fn journals_of(case: Case) -> Vec<Vec<u8>> {
    match case {
        Case::Single(journal) => vec![journal],
        Case::Pair { journals, .. } => journals.into(),
    }
}

/// The record lengths of the journal's layout, kind byte included; none for an unknown kind.
fn record_length(kind: u8) -> Option<usize> {
    match kind {
        journal::GUEST => Some(19),
        journal::ENDPOINT => Some(6),
        journal::START => Some(33),
        journal::REGION => Some(22),
        journal::REQUEST_20 => Some(22),
        journal::REQUEST_28 => Some(30),
        journal::REQUEST_36 => Some(38),
        journal::REQUEST_72 => Some(74),
        journal::ACCESS => Some(14),
        journal::RESET => Some(2),
        journal::FETCH => Some(3),
        _ => None,
    }
}

/// The whole records at a journal's front, and the bytes after them.
fn split(mut journal: &[u8]) -> (Vec<&[u8]>, &[u8]) {
    let mut records = Vec::new();
    while let Some(length) = journal.first().and_then(|kind| record_length(*kind)) {
        if length > journal.len() {
            break;
        }
        let (record, rest) = journal.split_at(length);
        records.push(record);
        journal = rest;
    }
    (records, journal)
}

/// The set-up records, and the guest's own calls and its endpoints' accesses, in order.
fn set_up_and_own_calls(journal: &[u8], guest: Guest) -> (Vec<&[u8]>, Vec<&[u8]>) {
    let mut owners: HashMap<&[u8], u8> = HashMap::new();
    let (mut set_up, mut own) = (Vec::new(), Vec::new());
    let (records, rest) = split(journal);
    assert!(rest.is_empty(), "a pair's journals are whole");
    for record in records {
        let caller = match record[0] {
            journal::GUEST | journal::ENDPOINT | journal::START | journal::REGION => {
                if record[0] == journal::ENDPOINT {
                    owners.insert(&record[1..5], record[5]);
                }
                set_up.push(record);
                continue;
            }
            journal::ACCESS => owners.get(&record[1..5]).copied(),
            _ => Some(record[1]),
        };
        if caller == Some(guest.0) {
            own.push(record);
        }
    }
    (set_up, own)
}

/// Whether accesses of this guest's devices go through and are blocked, both.
fn has_accesses(played: &Played, guest: Guest) -> bool {
    let own = || played.lines.iter().filter(|line| line.owner == Some(guest));
    let begins = |start: &str| own().filter(|line| line.text.starts_with(start)).count() > 100;
    begins("A 0 ") && begins("A 7") && begins("A 8")
}

#[test]
fn a_seed_and_an_index_make_one_case() {
    for index in 0..200 {
        assert_eq!(journals_of(case(5, index)), journals_of(case(5, index)));
    }
    let of_seed = |seed| (0..200).map(|index| journals_of(case(seed, index))).collect::<Vec<_>>();
    assert_ne!(of_seed(5), of_seed(6));
}

/// The second program finds its own state sound before every call after an accepted start, so
/// number 2 never comes; and a refused start leaves a state that is not sound.
#[test]
fn calls_keep_the_state_sound() {
    for journal in (0..400).flat_map(|index| journals_of(case(8, index))) {
        let played = play(&journal);
        let Some(start) = played.lines.iter().position(|line| line.text.starts_with("S ")) else {
            continue;
        };
        let accepted = played.lines[start].text == "S 0";
        let calls = &played.lines[start + 1..];
        let unsound =
            calls.iter().any(|line| ["R 2 0 -", "A 2", "Z 2", "F 2"].contains(&&*line.text));
        assert!(!(accepted && unsound));
        assert_eq!(played.device.is_sound(), accepted);
    }
}

#[test]
fn pairs_share_the_set_up_and_one_guests_calls() {
    let (mut pairs, mut different, mut calls) = (0, 0, 0);
    for index in 0..1600 {
        let Case::Pair { guest, journals } = case(7, index) else {
            continue;
        };
        let first = set_up_and_own_calls(&journals[0], guest);
        let second = set_up_and_own_calls(&journals[1], guest);
        assert_eq!(first, second, "case {index}");
        assert_eq!(play(&journals[0]).texts()[0], "S 0");
        pairs += 1;
        different += usize::from(journals[0] != journals[1]);
        calls += first.1.len();
    }
    assert!((150..=250).contains(&pairs), "one case in eight is a pair, not {pairs} of 1600");
    assert!(different * 10 >= pairs * 9, "{different} of {pairs} pairs differ");
    assert!(calls >= 10 * pairs, "{calls} own calls in {pairs} pairs");
}

/// A guest's lines and holdings do not depend on the others' calls.
#[test]
fn pairs_agree_in_the_second_program() {
    for index in 0..1600 {
        let Case::Pair { guest, journals } = case(8, index) else {
            continue;
        };
        let [first, second] = journals.map(|journal| play(&journal));
        let (one, other) = (first.output(), second.output());
        assert_eq!(first.own(guest, &one), second.own(guest, &other), "case {index}");
        assert_eq!(first.device.holdings(guest), second.device.holdings(guest), "case {index}");
    }
}

/// Most bytes are met as the guest of requests, resets and fetches; and each of the higher
/// bits, beside a number that could be in use, in guests and in owners.
#[test]
fn any_byte_is_a_guest_or_an_owner() {
    let (mut guests, mut owners) = ([0u32; 256], [0u32; 256]);
    for journal in (0..3000).flat_map(|index| journals_of(case(10, index))) {
        for record in split(&journal).0 {
            match record[0] {
                journal::ENDPOINT => owners[usize::from(record[5])] += 1,
                journal::GUEST | journal::START | journal::REGION | journal::ACCESS => {}
                _ => guests[usize::from(record[1])] += 1,
            }
        }
    }
    let met = guests.iter().filter(|count| **count > 0).count();
    assert!(met >= 200, "{met} bytes of guests: {guests:?}");
    for bit in 2..8 {
        let with_bit = |counts: &[u32]| (0..4).map(|guest| counts[guest | 1 << bit]).sum::<u32>();
        assert!(with_bit(&guests) >= 50, "bit {bit} of guests: {guests:?}");
        assert!(with_bit(&owners) >= 3, "bit {bit} of owners: {owners:?}");
    }
}

/// Every number and every status that a journal can reach comes at least fifty times, and every case
/// of regions ten times.
#[test]
fn every_answer_is_met_often() {
    let mut coverage = Coverage::default();
    for index in 0..2000 {
        for journal in journals_of(case(9, index)) {
            coverage.add_played(&journal, &play(&journal));
        }
    }
    let numbers: [(&str, &[u8]); 5] = [
        ("S", &[0, 5]),
        ("R", &[0, 1, 3, 4]),
        ("Z", &[0, 1]),
        ("F", &[0, 1]),
        ("A", &[0, 2, 6, 7, 8]),
    ];
    for (letter, numbers) in numbers {
        for &number in numbers {
            let count = coverage.number(letter, number);
            assert!(count >= 50, "{letter} {number} came {count} times");
        }
    }
    let statuses: [(u8, &[u8]); 5] = [
        (ATTACH, &[0, 2, 4, 5, 6]),
        (DETACH, &[0, 4, 6]),
        (MAP, &[0, 4, 5, 6, 7, 8]),
        (UNMAP, &[0, 4, 5, 6]),
        (PROBE, &[0, 6]),
    ];
    for (request_type, statuses) in statuses {
        for &status in statuses {
            let count = coverage.status(request_type, status);
            assert!(count >= 50, "type {request_type} was answered {status} {count} times");
        }
    }
    let invals = [Inval::Fields, Inval::Records, Inval::Regions].map(Status::Inval);
    let ranges = [Range::Virtual, Range::PhysInWindow, Range::PhysOutside].map(Status::Range);
    for status in invals.into_iter().chain(ranges) {
        let count = coverage.map_status(status);
        assert!(count >= 50, "MAP was answered {status:?} {count} times");
    }
    assert_eq!(coverage.properties(), coverage.status(PROBE, 0) + coverage.status(PROBE, 6));
    assert!(coverage.bad_journals() >= 50, "{} bad journals", coverage.bad_journals());
    let cases = GROUPS.iter().flat_map(|(_, cases)| cases.iter());
    for case in cases {
        let count = coverage.regions().count(case);
        assert!(count >= 10, "regions: {case} came {count} times");
    }
}

/// Six in ten of the journals that have regions, which may stand anywhere after their endpoint.
#[test]
fn most_set_ups_with_regions_are_accepted() {
    let (mut with_regions, mut accepted, mut mixed) = (0, 0, 0);
    for journal in (0..1000).flat_map(|index| journals_of(case(12, index))) {
        let kinds: Vec<u8> = split(&journal).0.iter().map(|record| record[0]).collect();
        let first = kinds.iter().position(|kind| *kind == journal::REGION);
        let Some(first) = first else { continue };
        with_regions += 1;
        accepted += usize::from(play(&journal).texts()[0] == "S 0");
        mixed += usize::from(kinds[first..].contains(&journal::ENDPOINT));
    }
    let counts = (with_regions, accepted, mixed);
    assert!(with_regions > 300 && accepted * 10 > with_regions * 6 && mixed > 50, "{counts:?}");
}

/// A long journal is read to its end, and has about as many live records as were asked for.
#[test]
fn long_journals_are_sound_and_keep_their_live_records() {
    for live in [0, 16, 256] {
        let records: Vec<Record> = LongJournal::new(live, 3).take(30_000).collect();
        let again: Vec<Record> = LongJournal::new(live, 3).take(30_000).collect();
        assert_eq!(records, again);
        let played = play(&journal_of(&records));
        assert_eq!(played.texts().first(), Some(&"S 0"));
        assert_eq!(played.texts().last(), Some(&"E"));
        let held = |guest| played.device.holdings(Guest(guest)).mappings.len();
        let held: usize = (0..4).map(held).sum();
        assert!(held.abs_diff(live as usize) <= 1 + live as usize / 4, "{held} for {live}");
        let hits = played.texts().iter().filter(|text| text.starts_with("A 0 ")).count();
        let range = if live > 0 { 5000..30_000 } else { 500..5000 };
        assert!(range.contains(&hits), "{hits} hits with {live} live records");
        assert!((0..4).all(|guest| has_accesses(&played, Guest(guest))));
    }
}
