//! Edges of reserved regions: MAPs that end right before a region, in it or after it, and endpoints
//! that are moved to domains with records.

use super::{Script, GUEST};
use crate::config::{Configuration, ListedEndpoint};
use crate::generate::{addresses, regions, setup};
use crate::numbers::{Domain, Endpoint};
use crate::random::Random;
use crate::record::Record;
use crate::regions::Region;

/// Three endpoints of one guest, most of them with regions, that share two domains, domain 0 at times;
/// with a share of 0 or more.
pub fn kept_off(random: &mut Random) -> Script {
    let mut configuration = setup::plain();
    configuration.page_size_mask = random.pick(&[1, 0x1000, 0x1000]);
    configuration.domain_range = random.pick(&[0..=2, 1..=15]);
    configuration.guests[0].share = random.pick(&[0, 1, 4, 8]);
    let page = addresses::page(&configuration).max(0x10);
    configuration.endpoints = (8..11).map(|number| listed(random, number, page)).collect();
    let mut calls = Vec::new();
    for _ in 0..10 + random.below(50) {
        calls.push(call(random, &configuration));
    }
    calls.extend((8..11).map(|number| Record::probe(GUEST, Endpoint(number))));
    (configuration, calls)
}

fn listed(random: &mut Random, number: u32, page: u64) -> ListedEndpoint {
    let mut entry = ListedEndpoint::new(Endpoint(number), GUEST);
    if random.chance(80) {
        entry.regions = regions::good(random, page, 0);
    }
    entry
}

/// ATTACH, DETACH, MAP, UNMAP of everything, PROBE, or an access near a region.
fn call(random: &mut Random, configuration: &Configuration) -> Record {
    let entry = random.pick(&configuration.endpoints);
    let domain = Domain(configuration.domain_range.start() + random.below(2) as u32);
    let end = *random.pick(&configuration.guests).window.start();
    match random.below(16) {
        0..=5 => Record::attach(GUEST, domain, entry.endpoint),
        6 => Record::detach(GUEST, domain, entry.endpoint),
        7..=12 => {
            let listed = configuration.endpoints.iter();
            let regions: Vec<Region> = listed.flat_map(|entry| entry.regions.clone()).collect();
            let virt = beside(random, addresses::page(configuration), &regions);
            Record::map(GUEST, domain, virt, end, 3)
        }
        13 => Record::unmap(GUEST, domain, (0, u64::MAX)),
        14 => Record::probe(GUEST, entry.endpoint),
        _ => {
            let near = entry.regions.first().map_or(0, |region| region.start);
            Record::read(entry.endpoint, near.wrapping_sub(random.below(2)))
        }
    }
}

/// Whole pages that end right before some region, begin with its last address, begin right after it,
/// or have it inside; with a granularity of 1 to the address.
fn beside(random: &mut Random, page: u64, regions: &[Region]) -> (u64, u64) {
    let down = |address: u64| address / page * page;
    let up = |address: u64| down(address).wrapping_add(page - 1);
    let pages = random.pick(&[2, 2, 3]) * page;
    let Some(region) = (!regions.is_empty()).then(|| random.pick(regions)) else {
        return (pages, 2 * pages - 1);
    };
    match random.below(5) {
        0 => (down(region.start.wrapping_sub(pages)), up(region.start.wrapping_sub(1))),
        1 => (down(region.start.wrapping_sub(pages)), up(region.start)),
        2 => (down(region.end), up(region.end.saturating_add(pages))),
        3 => (down(region.end.wrapping_add(page)), up(region.end.saturating_add(pages))),
        _ => (down(region.start), up(region.end.saturating_add(1))),
    }
}
