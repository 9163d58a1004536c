//! Reserved regions for a set-up's endpoints: good ones of every shape, and ones that are not good.

use super::addresses;
use crate::config::{Configuration, ListedEndpoint};
use crate::numbers::{Endpoint, Guest};
use crate::random::Random;
use crate::regions::{Region, MOST_REGIONS, MSI, RESERVED};

/// Half of the set-ups get no region; in the others some endpoints get good ones, at times the same
/// as the endpoint before.
pub fn add(random: &mut Random, configuration: &mut Configuration) {
    if random.chance(50) {
        return;
    }
    let page = addresses::page(configuration);
    let first = addresses::first_page(configuration);
    let mut last = Vec::new();
    for entry in configuration.endpoints.iter_mut() {
        if random.chance(30) {
            if last.is_empty() || random.chance(75) {
                last = good(random, page, first);
            }
            entry.regions = last.clone();
        }
    }
}

/// One to four good regions, in any order and now and then the whole space: a run of small ones,
/// adjacent or with gaps, from among the pages that the calls use or from further off.
pub fn good(random: &mut Random, page: u64, first: u64) -> Vec<Region> {
    if random.below(24) == 0 {
        return vec![region(random.pick(&[RESERVED, MSI]), 0, u64::MAX)];
    }
    let near = first.wrapping_add(random.below(12).wrapping_mul(page));
    let inside = near.wrapping_add(random.below(page));
    let mut next = Some(random.pick(&[near, near, inside, inside, 0xfee0_0000, u64::MAX - 3, 0]));
    let mut regions = Vec::new();
    for _ in 0..random.pick(&[1, 1, 1, 2, 2, 3, MOST_REGIONS, MOST_REGIONS]) {
        let more = random.pick(&[0, 0, 1, page / 2, page - 1]);
        let Some(start) = next else { break };
        let end = start.saturating_add(more);
        regions.push(region(RESERVED, start, end));
        next = end.checked_add(random.pick(&[1, 1, 2, page, page.saturating_mul(3)]));
    }
    if random.chance(50) {
        let place = random.place(regions.len());
        regions[place].subtype = MSI;
    }
    random.shuffle(&mut regions);
    regions
}

/// Makes some endpoint's regions not good by one clause; without endpoints there is one first.
pub fn spoil(random: &mut Random, configuration: &mut Configuration) {
    if configuration.endpoints.is_empty() {
        let entry = ListedEndpoint::new(Endpoint(0x7777_7777), Guest(0));
        configuration.endpoints.push(entry);
    }
    let page = addresses::page(configuration);
    let place = random.place(configuration.endpoints.len());
    let mut regions = good(random, page, 0);
    regions.truncate(MOST_REGIONS - 1);
    let other = random.pick(&regions);
    let bad = match random.below(8) {
        0 => region(RESERVED, other.start, other.start),
        1 => region(RESERVED, other.end, other.end.saturating_add(page)),
        2 => region(RESERVED, 0, u64::MAX),
        3 | 4 => region(random.pick(&[2, 3, 0x80, 0x81, 255]), 1 << 40, 1 << 41),
        5 => region(RESERVED, (1 << 40) + 1, 1 << 40),
        6 => region(random.pick(&[RESERVED, MSI]), u64::MAX, random.below(2)),
        _ => {
            let place = random.place(regions.len());
            regions.iter_mut().for_each(|region| region.subtype = RESERVED);
            regions[place].subtype = MSI;
            region(MSI, 1 << 40, 1 << 41)
        }
    };
    regions.push(bad);
    random.shuffle(&mut regions);
    configuration.endpoints[place].regions = regions;
}

fn region(subtype: u8, start: u64, end: u64) -> Region {
    Region { subtype, start, end }
}
