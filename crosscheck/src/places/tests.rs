//! The test over flat places against the one over lists: on devices that journals leave, on these
//! with some numbers changed, and on each clause that holds of lists by their form.
//!
//! The other clauses, each broken once, are among the tests of `sound`, which ask both.

use super::{table_of, State, ENDPOINT_REGION_WORDS, RECORD_WORDS, TABLE_WORDS};
use crate::device::Device;
use crate::generate::{case, Case};
use crate::journal;
use crate::long_journal::{LongJournal, MOST_LIVE};
use crate::random::Random;
use crate::record::journal_of;
use crate::sound::tests::sound_device;
use crate::sound::SoundnessTest;
use changes::change;
use lists::device_of;

mod changes;
mod lists;

/// Both tests give the same, which is given back.
fn both(state: &State, table: &[u64]) -> bool {
    let sound = state.is_sound(table);
    let by_lists = device_of(state, table).is_some_and(|device| device.is_sound());
    assert_eq!(sound, by_lists, "{state:?}, table {table:?}");
    sound
}

/// The device as a journal leaves it.
fn device_after(journal: &[u8]) -> Device {
    journal::run(journal, SoundnessTest::SetUpAlone, |_| Ok(())).expect("bytes can be read")
}

/// A device with so many live records and some faults.
fn long_device(live: u32) -> Device {
    let records: Vec<_> = LongJournal::new(live, 1).take(1000).collect();
    device_after(&journal_of(&records))
}

/// Devices that journals of all kinds leave, as they are and with numbers changed.
#[test]
fn both_tests_give_the_same() {
    let random = &mut Random::new(5);
    let journals = (0..400).filter_map(|index| match case(31, index) {
        Case::Single(journal) => Some(journal),
        Case::Pair { .. } => None,
    });
    let mut devices: Vec<Device> = journals.map(|journal| device_after(&journal)).collect();
    devices.extend([1, 16, MOST_LIVE].map(long_device));
    let (mut sound, mut changed_sound, mut changed_unsound) = (0, 0, 0);
    for device in &devices {
        let (state, table) = (State::of(device), table_of(device));
        assert_eq!(both(&state, &table), device.is_sound());
        sound += usize::from(device.is_sound());
        for _ in 0..100 {
            let (mut state, mut table) = (state, table.clone());
            change(random, &mut state, &mut table);
            *(if both(&state, &table) { &mut changed_sound } else { &mut changed_unsound }) += 1;
        }
    }
    let counts = (sound, changed_sound, changed_unsound);
    assert!(sound > 100 && changed_sound > 1000 && changed_unsound > 1000, "{counts:?}");
}

/// Whether both tests take the sound device of the tests of `sound` after this change. It has two
/// guests, four endpoints with 2, 0, 4 and 1 regions, the last of them unattached, four records, two
/// faults of guest 0 and as many as there are places of guest 1.
fn taken(change: impl FnOnce(&mut State, &mut Vec<u64>)) -> bool {
    let device = sound_device();
    let (mut state, mut table) = (State::of(&device), table_of(&device));
    assert!(both(&state, &table));
    change(&mut state, &mut table);
    both(&state, &table)
}

fn refused(change: impl FnOnce(&mut State)) {
    assert!(!taken(|state, _| change(state)));
}

fn refused_table(change: impl FnOnce(&mut Vec<u64>)) {
    assert!(!taken(|_, table| change(table)));
}

#[test]
fn a_table_has_1280_words() {
    refused_table(|table| table.truncate(TABLE_WORDS - 1));
    refused_table(|table| table.push(0));
    refused_table(Vec::clear);
}

#[test]
fn counts_are_within_the_places() {
    refused(|state| state.settings.guests = 5);
    refused(|state| state.listed = 33);
    refused(|state| state.live = 257);
    refused(|state| state.live = usize::MAX);
    refused(|state| state.logged[1] = 17);
    refused(|state| state.logged[0] = usize::MAX);
}

#[test]
fn words_after_the_live_records_are_zero() {
    refused_table(|table| table[4 * RECORD_WORDS] = 1);
    refused_table(|table| table[4 * RECORD_WORDS + 1] = 1 << 63);
    refused_table(|table| table[TABLE_WORDS - 1] = 1);
    refused(|state| state.live = 3);
    refused(|state| state.live = 5);
}

#[test]
fn a_records_words_are_no_wider_than_its_numbers() {
    refused_table(|table| table[3 * RECORD_WORDS] += 1 << 40);
    refused_table(|table| table[4] += 1 << 32);
}

#[test]
fn places_of_guests_not_in_use_are_zero() {
    for guest in [2, 3] {
        refused(|state| state.settings.shares[guest] = 1);
        refused(|state| state.settings.firsts[guest] = 1);
        refused(|state| state.settings.lasts[guest] = 1);
        refused(|state| state.logged[guest] = 1);
        refused(|state| state.lost[guest] = 1);
    }
}

#[test]
fn places_of_endpoints_not_listed_are_zero() {
    for place in [4, 31] {
        refused(|state| state.endpoints[place] = 100);
        refused(|state| state.owners[place] = 1);
        refused(|state| state.attached[place] = 1);
        refused(|state| state.domains[place] = 1);
    }
}

/// Every word that is in use by no region, of a listed endpoint and of one that is not.
#[test]
fn words_of_regions_not_in_use_are_zero() {
    for (place, count) in [(0, 2), (1, 0), (2, 4), (3, 1)] {
        for word in 1 + 3 * count..ENDPOINT_REGION_WORDS {
            refused(|state| state.regions[ENDPOINT_REGION_WORDS * place + word] = 1);
        }
    }
    for word in 4 * ENDPOINT_REGION_WORDS..32 * ENDPOINT_REGION_WORDS {
        refused(|state| state.regions[word] = 1 << 63);
    }
}

/// One more or less, where that makes a word not in use other than zero or two regions meet.
#[test]
fn a_count_of_regions_is_theirs() {
    let count = |place: usize| ENDPOINT_REGION_WORDS * place;
    refused(|state| state.regions[count(0)] = 1);
    refused(|state| state.regions[count(2)] = 3);
    refused(|state| state.regions[count(2)] = 5);
    refused(|state| state.regions[count(1)] = u64::MAX);
    refused(|state| state.regions[count(1)] = 1 << 32);
    refused(|state| state.regions[count(1)] = 2);
    assert!(taken(|state, _| state.regions[count(1)] = 1), "reserved, from 0 to 0");
}

/// A subtype is looked at in full width.
#[test]
fn a_regions_words_are_no_wider_than_its_numbers() {
    refused(|state| state.regions[1] += 1 << 8);
    refused(|state| state.regions[4] += 1 << 32);
}

#[test]
fn an_endpoint_is_attached_or_holds_0() {
    refused(|state| state.attached[0] = 2);
    refused(|state| state.attached[3] = 255);
    refused(|state| state.domains[3] = 1);
    assert!(taken(|state, _| (state.attached[3], state.domains[3]) = (1, 2)));
}

#[test]
fn a_lost_count_stops_at_65535() {
    refused(|state| state.lost[0] = 65_536);
    assert!(taken(|state, _| state.lost[0] = 65_535));
}

#[test]
fn places_of_faults_not_held_are_zero() {
    for place in [2, 15, 32, 63] {
        refused(|state| state.reasons[place] = 1);
        refused(|state| state.flags[place] = 0x101);
        refused(|state| state.sources[place] = 8);
        refused(|state| state.addresses[place] = 1);
    }
    refused(|state| state.logged[0] = 1);
    refused(|state| state.logged[0] = 3);
}

/// Reason 1 or 2; READ or WRITE, and ADDRESS; any address.
#[test]
fn a_fault_has_its_form() {
    for place in [0, 1, 16, 31] {
        for reason in [0, 3, 255] {
            refused(|state| state.reasons[place] = reason);
        }
        for flags in [0, 1, 2, 0x100, 0x103, 0x201, 0x8000_0101] {
            refused(|state| state.flags[place] = flags);
        }
        assert!(taken(|state, _| state.reasons[place] = 1));
        assert!(taken(|state, _| state.flags[place] = 0x102));
        assert!(taken(|state, _| state.addresses[place] = u64::MAX));
    }
}
