//! Starts that are refused, each for one cause, and the calls that run on after them.

use super::{any_guest, no_guest, regions, set_up, setup};
use crate::config::{Configuration, GuestShare, ListedEndpoint};
use crate::generate::calls::CallMaker;
use crate::numbers::{Endpoint, Guest};
use crate::random::Random;
use crate::record::Record;
use std::ops::RangeInclusive;

/// A start whose configuration is not good, then a few calls.
pub fn journal(random: &mut Random) -> Vec<Record> {
    let good = setup::sound(random);
    let mut configuration = good.clone();
    match random.below(20) {
        0 => no_guests(random, &mut configuration),
        1 => reversed_window(random, &mut configuration),
        2 | 3 => touching_windows(random, &mut configuration),
        4 | 5 => too_large_shares(random, &mut configuration),
        6 => configuration.page_size_mask = 0,
        7 => configuration.input_range = reversed(random, 0, u64::MAX),
        8 => configuration.domain_range = reversed(random, 0, u32::MAX),
        9..=11 => owner_not_in_use(random, &mut configuration),
        12..=18 => regions::spoil(random, &mut configuration),
        _ => endpoint_twice(random, &mut configuration),
    }
    let mut records = set_up(random, &configuration);
    let mut maker = CallMaker::new(&good);
    for _ in 0..random.below(16) {
        let guest = any_guest(random, &good);
        records.push(maker.call(random, guest));
    }
    records
}

/// A range whose start is past its end, by one or by all of the space from zero to the top.
fn reversed<T: Clone + From<u8>>(random: &mut Random, zero: T, top: T) -> RangeInclusive<T> {
    let (start, end) = random.pick(&[(1.into(), zero.clone()), (5.into(), 4.into()), (top, zero)]);
    RangeInclusive::new(start, end)
}

/// No guest at all, with endpoints that nobody can own or with none.
fn no_guests(random: &mut Random, configuration: &mut Configuration) {
    configuration.guests.clear();
    if random.chance(70) {
        configuration.endpoints.clear();
    }
}

/// A window whose first address is past its last.
fn reversed_window(random: &mut Random, configuration: &mut Configuration) {
    let place = random.place(configuration.guests.len());
    configuration.guests[place].window = reversed(random, 0, u64::MAX);
}

/// Two windows that have one address, or all of one of them, in common.
fn touching_windows(random: &mut Random, configuration: &mut Configuration) {
    let other = random.pick(&configuration.guests).window;
    let window =
        random.pick(&[*other.start()..=*other.start(), *other.end()..=*other.end(), other]);
    if configuration.guests.len() == 4 {
        configuration.guests.truncate(1);
        configuration.endpoints.clear();
        configuration.guests[0].window = window.clone();
    }
    configuration.guests.push(GuestShare { share: 0, window });
}

/// Shares that sum to one record more than the table has, or past what sixteen bits hold.
fn too_large_shares(random: &mut Random, configuration: &mut Configuration) {
    let place = random.place(configuration.guests.len());
    let others = configuration.shares_sum() - u32::from(configuration.guests[place].share);
    let largest = u32::from(u16::MAX);
    let share = random.pick(&[257 - others, 257 - others, largest, largest + 1 - others]);
    configuration.guests[place].share = share.min(largest) as u16;
}

/// An endpoint owned by a guest that is not there.
fn owner_not_in_use(random: &mut Random, configuration: &mut Configuration) {
    let owner = no_guest(random, configuration.guests.len() as u8);
    configuration.endpoints.truncate(31);
    let endpoint = Endpoint(0x7777_7777);
    configuration.endpoints.push(ListedEndpoint::new(endpoint, owner));
}

/// The same endpoint number twice, for one owner or for two.
fn endpoint_twice(random: &mut Random, configuration: &mut Configuration) {
    configuration.endpoints.truncate(30);
    let endpoint = Endpoint(0x7777_7777);
    for _ in 0..2 {
        let owner = Guest(random.below(configuration.guests.len() as u64) as u8);
        configuration.endpoints.push(ListedEndpoint::new(endpoint, owner));
    }
    random.shuffle(&mut configuration.endpoints);
}
