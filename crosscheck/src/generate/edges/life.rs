//! Edges in the life of records, domains and logs.

use super::{Script, DOMAIN, ENDPOINT, GUEST};
use crate::config::{Configuration, GuestShare, ListedEndpoint};
use crate::generate::{flood, guests, setup};
use crate::numbers::{Domain, Endpoint, Guest};
use crate::random::Random;
use crate::record::Record;

/// Shares that sum to 256, or to 257, which is refused, with every share filled and passed.
pub fn shares_of_256(random: &mut Random) -> Script {
    let count = 1 + random.below(4);
    let mut configuration = flood::roomy(random, count);
    let mut left = random.pick(&[256, 256, 257]);
    for guest in configuration.guests.iter_mut() {
        guest.share = random.below(left + 1) as u16;
        left -= u64::from(guest.share);
    }
    configuration.guests[0].share += left as u16;
    let floods = guests(&configuration).into_iter();
    let calls = floods.flat_map(|guest| flood::flood(random, &configuration, guest)).collect();
    (configuration, calls)
}

/// A share of 0, or no endpoint at all: both are good, and every MAP is refused.
pub fn nothing_to_hold(random: &mut Random) -> Script {
    let mut configuration = setup::plain();
    match random.below(3) {
        0 => configuration.guests[0].share = 0,
        1 => configuration.endpoints.clear(),
        _ => {
            configuration.guests[0].share = 0;
            configuration.guests.push(GuestShare { share: 256, window: 0..=0x7fff_ffff });
        }
    }
    let calls = vec![
        Record::attach(GUEST, DOMAIN, ENDPOINT),
        Record::map(GUEST, DOMAIN, (0, 0xfff), 0x8000_0000, 3),
        Record::read(ENDPOINT, 0),
        Record::unmap(GUEST, DOMAIN, (0, 0xfff)),
        Record::detach(GUEST, DOMAIN, ENDPOINT),
        Record::write(ENDPOINT, 0),
        Record::Fetch { guest: GUEST, asked: random.below(4) as u8 },
        Record::Reset { guest: GUEST },
        Record::Fetch { guest: GUEST, asked: 16 },
    ];
    (configuration, calls)
}

/// Two guests with two endpoints each, which share domain numbers but no domain.
fn two_guests() -> Configuration {
    let mut configuration = setup::plain();
    configuration.guests.push(GuestShare { share: 3, window: 0x9000_0000..=0x9fff_ffff });
    for (endpoint, owner) in [(9, 1), (10, 0), (11, 1)] {
        let endpoint = Endpoint(endpoint);
        configuration.endpoints.push(ListedEndpoint::new(endpoint, Guest(owner)));
    }
    configuration
}

/// Endpoints attached again, moved and detached over three domains, with every domain looked
/// at after each step; endpoints are named by guests that do not own them too.
pub fn moves(random: &mut Random) -> Script {
    let configuration = two_guests();
    let mut calls = Vec::new();
    for _ in 0..10 + random.below(60) {
        let guest = Guest(random.below(2) as u8);
        let own = Endpoint(random.pick(&[8, 10]) + u32::from(guest.0));
        let domain = Domain(1 + random.below(3) as u32);
        let start = 0x1000 * random.below(3);
        let phys = *configuration.guests[guest.place()].window.start();
        calls.push(match random.below(12) {
            0..=3 => Record::attach(guest, domain, own),
            4 => Record::detach(guest, domain, own),
            5 => Record::attach(guest, domain, Endpoint(8 + random.below(5) as u32)),
            6 => Record::detach(guest, domain, Endpoint(8 + random.below(5) as u32)),
            7 => Record::read(own, start),
            8 if random.chance(30) => Record::Reset { guest },
            _ => Record::map(guest, domain, (start, start + 0xfff), phys, 3),
        });
        if random.chance(30) {
            let looks = (8..12).map(Endpoint).map(|endpoint| Record::write(endpoint, start));
            calls.extend(looks);
            calls.push(Record::Fetch { guest, asked: 16 });
        }
    }
    (configuration, calls)
}

/// Short ranges with a granularity of 1, unmapped by ranges that may cut through them.
pub fn straddlers(random: &mut Random) -> Script {
    let mut configuration = setup::plain();
    configuration.page_size_mask = 1;
    configuration.guests[0].share = random.pick(&[2, 4, 16]);
    let mut calls = vec![Record::attach(GUEST, DOMAIN, ENDPOINT)];
    for _ in 0..1 + random.below(24) {
        let start = random.below(24);
        let virt = (start, start + 1 + random.below(6));
        if random.chance(60) {
            let phys = 0x8000_0000 + 0x100 * random.below(16);
            calls.push(Record::map(GUEST, DOMAIN, virt, phys, 3));
            continue;
        }
        let virt = (start, start + random.below(16));
        calls.push(Record::unmap(GUEST, DOMAIN, virt));
        calls.extend((0..32).step_by(3).map(|address| Record::read(ENDPOINT, address)));
    }
    calls.extend((0..32).map(|address| Record::read(ENDPOINT, address)));
    (configuration, calls)
}

/// More faults than a log holds, fetched in any number of pieces, of two guests.
pub fn full_log(random: &mut Random) -> Script {
    let configuration = two_guests();
    let mut calls = vec![
        Record::attach(GUEST, DOMAIN, ENDPOINT),
        Record::map(GUEST, DOMAIN, (0, 0xfff), 0x8000_0000, random.below(4) as u32),
    ];
    for _ in 0..1 + random.below(6) {
        for _ in 0..random.below(24) {
            let endpoint = Endpoint(8 + random.below(3) as u32);
            let address = random.below(0x1800);
            let write = random.chance(50);
            let access = if write { Record::write } else { Record::read };
            calls.push(access(endpoint, address));
        }
        for _ in 0..random.below(4) {
            let guest = Guest(random.below(2) as u8);
            calls.push(Record::Fetch { guest, asked: random.below(17) as u8 });
        }
        if random.chance(10) {
            calls.push(Record::Reset { guest: GUEST });
        }
    }
    for guest in [Guest(0), Guest(0), Guest(1), Guest(1)] {
        calls.push(Record::Fetch { guest, asked: 16 });
    }
    (configuration, calls)
}
