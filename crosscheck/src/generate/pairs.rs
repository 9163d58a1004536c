//! Two journals in which one guest's own calls are the same and the others' calls differ.

use super::{flood, guests, merge, no_guest, set_up, setup, Case};
use crate::config::Configuration;
use crate::numbers::Guest;
use crate::random::Random;
use crate::record;
use crate::record::Record;

/// A pair over one good set-up of two to four guests.
pub fn pair(random: &mut Random) -> Case {
    let count = 2 + random.below(3);
    let configuration = match random.below(2) {
        0 => flood::roomy(random, count),
        _ => setup::sound_for(random, count),
    };
    let guest = Guest(random.below(count) as u8);
    let set_up = set_up(random, &configuration);
    let own = own_calls(random, &configuration, guest);
    let journals = [0, 1].map(|_| {
        let others = others_calls(random, &configuration, guest);
        let mut records = set_up.clone();
        records.extend(merge(random, own.clone(), others));
        record::journal_of(&records)
    });
    Case::Pair { guest, journals }
}

/// Calls of the one guest, at times a flood.
fn own_calls(random: &mut Random, configuration: &Configuration, guest: Guest) -> Vec<Record> {
    let mut records = flood::work(random, configuration, &[guest], 80);
    if random.chance(25) && can_flood(configuration, guest) {
        records.extend(flood::flood(random, configuration, guest));
    }
    records
}

/// None at all, or work, a flood, or both, of the other guests, and calls that are nobody's.
fn others_calls(random: &mut Random, configuration: &Configuration, guest: Guest) -> Vec<Record> {
    let mut others = guests(configuration);
    others.retain(|other| *other != guest);
    let style = random.below(5);
    let mut records = Vec::new();
    if style == 0 {
        return records;
    }
    if style != 1 {
        records = flood::work(random, configuration, &others, 80);
    }
    let flooder = random.pick(&others);
    if style < 4 && can_flood(configuration, flooder) {
        let flood = flood::flood(random, configuration, flooder);
        records = merge(random, records, flood);
    }
    let nobody = no_guest(random, configuration.guests.len() as u8);
    let nobodys = flood::work(random, configuration, &[nobody], 10);
    merge(random, records, nobodys)
}

/// A flood needs an endpoint to attach, and pages few enough to count.
fn can_flood(configuration: &Configuration, guest: Guest) -> bool {
    let small_pages = configuration.page_size_mask.trailing_zeros() < 32;
    small_pages && !super::owned(configuration, guest).is_empty()
}
