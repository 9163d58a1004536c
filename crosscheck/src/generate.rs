//! Seeded journals: sound ones, ones on the edges, damaged ones, and pairs.

mod addresses;
mod calls;
mod damage;
mod edges;
mod flood;
mod layouts;
mod pairs;
mod refused;
mod regions;
mod setup;

use crate::config::Configuration;
use crate::numbers::{Endpoint, Guest};
use crate::random::Random;
use crate::record::{self, Record};
use calls::CallMaker;

/// One case of a seeded run.
pub enum Case {
    Single(Vec<u8>),
    /// Two journals with one set-up, in which this guest's own calls are the same.
    Pair {
        guest: Guest,
        journals: [Vec<u8>; 2],
    },
}

/// The case at this index of a seeded run; one in eight is a pair.
pub fn case(seed: u64, index: u64) -> Case {
    let random = &mut Random::for_case(seed, index);
    if random.below(8) == 0 {
        return pairs::pair(random);
    }
    let records = match random.below(16) {
        0..=4 => mixed(random),
        5..=8 => edges::journal(random),
        9 => flood::journal(random),
        10 | 11 => refused::journal(random),
        _ => return Case::Single(damage::journal(random)),
    };
    Case::Single(record::journal_of(&records))
}

/// A sound set-up and a run of calls of all its guests, few or, now and then, very many.
fn mixed(random: &mut Random) -> Vec<Record> {
    let mut configuration = setup::sound(random);
    let count = match random.below(50) {
        0 => 2000 + random.below(3000),
        1..=9 => 100 + random.below(200),
        _ => random.below(60),
    };
    if count > 1000 {
        // A long run is worth its time where there is room to work in.
        let guest_count = 1 + random.below(4);
        configuration = flood::roomy(random, guest_count);
    }
    let guests = guests(&configuration);
    let mut records = set_up(random, &configuration);
    let mut maker = CallMaker::new(&configuration);
    records.extend(maker.opening(random, &guests));
    for _ in 0..count {
        let guest = any_guest(random, &configuration);
        records.push(maker.call(random, guest));
    }
    records.extend(maker.closing(&guests));
    records
}

/// The records of a set-up; the lists may be mixed.
fn set_up(random: &mut Random, configuration: &Configuration) -> Vec<Record> {
    let mut records = record::lists(configuration);
    if random.chance(30) {
        records = mixed_lists(random, configuration);
    }
    records.push(record::start(configuration));
    records
}

/// The records of guests and of endpoints mixed, each in their own order, and an endpoint's regions
/// in theirs anywhere after it.
fn mixed_lists(random: &mut Random, configuration: &Configuration) -> Vec<Record> {
    let mut guests = record::lists(configuration);
    let mut endpoints = guests.split_off(configuration.guests.len());
    endpoints.truncate(configuration.endpoints.len());
    let mut records = merge(random, guests, endpoints);
    for entry in &configuration.endpoints {
        let named = records.iter().position(|record| record.names(entry.endpoint));
        let after = named.map_or(records.len(), |place| place + 1);
        let rest = records.split_off(after);
        records.extend(merge(random, rest, record::regions(entry).collect()));
    }
    records
}

/// Two runs of records mixed into one, each keeping its order.
fn merge(random: &mut Random, one: Vec<Record>, other: Vec<Record>) -> Vec<Record> {
    let mut merged = Vec::with_capacity(one.len() + other.len());
    let (mut one, mut other) = (one.into_iter(), other.into_iter());
    while one.len() + other.len() > 0 {
        let from_one = random.place(one.len() + other.len()) < one.len();
        merged.extend(if from_one { one.next() } else { other.next() });
    }
    merged
}

/// The numbers of the guests in use.
fn guests(configuration: &Configuration) -> Vec<Guest> {
    (0..configuration.guests.len() as u8).map(Guest).collect()
}

/// The endpoints a guest owns.
fn owned(configuration: &Configuration, guest: Guest) -> Vec<Endpoint> {
    let listed = configuration.endpoints.iter();
    listed.filter(|entry| entry.owner == guest).map(|entry| entry.endpoint).collect()
}

/// A guest in use, or now and then a number that none has.
fn any_guest(random: &mut Random, configuration: &Configuration) -> Guest {
    let count = configuration.guests.len() as u8;
    if count == 0 || random.chance(4) {
        return no_guest(random, count);
    }
    Guest(random.below(u64::from(count)) as u8)
}

/// A number not below the guest count: near it, one in use with a higher bit set, or any.
fn no_guest(random: &mut Random, count: u8) -> Guest {
    let in_use = random.below(u64::from(count.max(1))) as u8;
    let with_a_bit = in_use | 1 << (2 + random.below(6));
    let any = count + random.below(256 - u64::from(count)) as u8;
    Guest(random.pick(&[count, count.max(4), 255, with_a_bit, with_a_bit, any]))
}
