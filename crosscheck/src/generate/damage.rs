//! Damaged journals: records where they may not be, and bytes cut, changed or added.

mod regions;

use super::{edges, flood, mixed, refused};
use crate::journal;
use crate::numbers::{Domain, Endpoint, Guest};
use crate::random::Random;
use crate::record::{journal_of, Record};

/// A guest and an endpoint record that no set-up needs.
const GUEST: Record = Record::Guest { share: 0, first: 9, last: 9 };
const ENDPOINT: Record = Record::Endpoint { endpoint: Endpoint(0x7777_7777), owner: Guest(0) };

/// A journal with one damage, to its records or to its bytes.
pub fn journal(random: &mut Random) -> Vec<u8> {
    let mut records = match random.below(8) {
        0 | 1 => edges::journal(random),
        2..=4 => refused::journal(random),
        5 => flood::journal(random),
        _ => mixed(random),
    };
    if random.chance(60) {
        damage_records(random, &mut records);
        return journal_of(&records);
    }
    let mut bytes = journal_of(&records);
    damage_bytes(random, &mut bytes);
    bytes
}

/// Puts a record where it makes the journal bad, or takes the start away.
fn damage_records(random: &mut Random, records: &mut Vec<Record>) {
    let start = records.iter().position(|record| matches!(record, Record::Start { .. }));
    let start = start.expect("every journal made here has a start");
    let place = match random.below(8) {
        // Before or at the start.
        0..=2 => random.place(start + 1),
        // Anywhere after it.
        _ => start + 1 + random.place(records.len() - start),
    };
    let damage = match random.below(18) {
        0 => return too_many(random, records, GUEST, 5),
        1 => return too_many(random, records, ENDPOINT, 33),
        2 => {
            records.remove(start);
            return;
        }
        3..=6 => set_up_record(random, &records[..start]),
        7 | 8 => return regions::fifth(random, records, start),
        9 | 10 => return regions::early(random, records, start),
        11 => call(random),
        12 | 13 => {
            Record::Raw(vec![random.pick(&[0, 4, 5, 0x10, 0x14, 0x15, 0x20, 0x24, 0x80, 0xff])])
        }
        _ => bad_last_byte(random),
    };
    records.insert(place, damage);
}

/// Enough records like this one before the start that there is one more than can be.
fn too_many(random: &mut Random, records: &mut Vec<Record>, like: Record, limit: usize) {
    let same = |record: &Record| std::mem::discriminant(record) == std::mem::discriminant(&like);
    let there = records.iter().filter(|record| same(record)).count();
    for _ in there..limit {
        let first_call = records.iter().position(|record| record.is_call());
        // The start stands right before the first call, so this place is not after it.
        let place = random.place(first_call.unwrap_or(records.len()));
        records.insert(place, like.clone());
    }
}

/// A record that only comes before the start, where these stand, or a start.
fn set_up_record(random: &mut Random, before: &[Record]) -> Record {
    match random.below(6) {
        0 => GUEST,
        1 => ENDPOINT,
        2..=4 => regions::any(random, before),
        _ => Record::Start { mask: 1, input: (0, u64::MAX), domains: (0, 9) },
    }
}

/// A call, bad where it comes before the start.
fn call(random: &mut Random) -> Record {
    let guest = Guest(random.below(4) as u8);
    match random.below(6) {
        0 => Record::attach(guest, Domain(1), Endpoint(8)),
        1 => Record::map(guest, Domain(1), (0, 0xfff), 0x8000_0000, 3),
        2 => Record::read(Endpoint(8), 0),
        3 => Record::Reset { guest },
        4 => Record::probe(guest, Endpoint(8)),
        _ => Record::Fetch { guest, asked: 3 },
    }
}

/// An access or a fetch whose last byte is out of range.
fn bad_last_byte(random: &mut Random) -> Record {
    let (call, last) = match random.below(2) {
        0 => (Record::read(Endpoint(8), 0x1000), random.pick(&[2, 3, 0x80, 0xff])),
        _ => (Record::Fetch { guest: Guest(0), asked: 0 }, random.pick(&[17, 18, 0x80, 0xff])),
    };
    let mut bytes = journal_of(&[call]);
    bytes.pop();
    bytes.push(last);
    Record::Raw(bytes)
}

/// Cuts the journal, or changes, removes or adds a few bytes.
fn damage_bytes(random: &mut Random, bytes: &mut Vec<u8>) {
    let place = random.place(bytes.len());
    match random.below(5) {
        0 | 1 => bytes.truncate(place),
        2 => {
            for _ in 0..1 + random.below(4) {
                let place = random.place(bytes.len());
                bytes[place] ^= 1 << random.below(8);
            }
        }
        3 => {
            bytes.remove(place);
        }
        _ => bytes.insert(
            place,
            random.pick(&[journal::GUEST, journal::REGION, journal::FETCH, 0, 0xff]),
        ),
    }
}
