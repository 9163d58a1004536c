//! One guest that fills its share and its log beside the work of the others.

use super::calls::CallMaker;
use super::{addresses, guests, merge, owned, regions, set_up, setup};
use crate::config::{Configuration, ListedEndpoint};
use crate::numbers::{Domain, Endpoint, Guest};
use crate::random::Random;
use crate::record::Record;

/// A sound journal in which one guest floods and the others work.
pub fn journal(random: &mut Random) -> Vec<Record> {
    let count = 1 + random.below(4);
    let configuration = roomy(random, count);
    let flooder = Guest(random.below(count) as u8);
    let mut workers = guests(&configuration);
    workers.retain(|guest| *guest != flooder);
    let flood = flood(random, &configuration, flooder);
    let work = work(random, &configuration, &workers, 60);
    let mut records = set_up(random, &configuration);
    records.extend(merge(random, flood, work));
    records.push(Record::Fetch { guest: flooder, asked: 16 });
    records
}

/// A good configuration in which every guest has an endpoint and room for what it may hold.
pub fn roomy(random: &mut Random, count: u64) -> Configuration {
    let mut configuration = setup::sound_for(random, count);
    configuration.page_size_mask = random.pick(&[0x1000, 0x1000, 1, 0x10, 0x4020_1000]);
    configuration.input_range = 0..=u64::MAX;
    configuration.endpoints = (0..2 * count)
        .map(|place| ListedEndpoint::new(Endpoint(8 + place as u32), Guest((place % count) as u8)))
        .collect();
    regions::add(random, &mut configuration);
    configuration
}

/// As many MAPs as the guest's share takes and some more, many faults, and perhaps room freed.
pub fn flood(random: &mut Random, configuration: &Configuration, guest: Guest) -> Vec<Record> {
    let endpoint = owned(configuration, guest)[0];
    let domain = Domain(*configuration.domain_range.start());
    let own = &configuration.guests[guest.place()];
    // A range has at least two addresses, even with a granularity of 1.
    let size = addresses::page(configuration).max(2);
    let phys = addresses::page_from(configuration, *own.window.start());
    let mut maps: Vec<Record> = (0..u64::from(own.share) + random.below(4))
        .map(|place| (place * size, place * size + size - 1))
        .map(|virt| Record::map(guest, domain, virt, phys, 3))
        .collect();
    random.shuffle(&mut maps);
    let mut records = vec![Record::attach(guest, domain, endpoint)];
    records.append(&mut maps);
    records.extend((0..random.below(40)).map(|place| Record::write(endpoint, u64::MAX - place)));
    records.extend(match random.below(4) {
        0 => Some(Record::unmap(guest, domain, (0, u64::MAX))),
        1 => Some(Record::Reset { guest }),
        2 => Some(Record::detach(guest, domain, endpoint)),
        _ => None,
    });
    records.push(Record::attach(guest, domain, endpoint));
    records.push(Record::map(guest, domain, (0, size - 1), phys, 1));
    records
}

/// At most this many calls of these guests, after an opening.
pub fn work(
    random: &mut Random,
    configuration: &Configuration,
    workers: &[Guest],
    most: u64,
) -> Vec<Record> {
    let mut maker = CallMaker::new(configuration);
    let mut records = maker.opening(random, workers);
    for _ in 0..random.below(most) {
        if !workers.is_empty() {
            let guest = random.pick(workers);
            records.push(maker.call(random, guest));
        }
    }
    records.extend(maker.closing(workers));
    records
}
