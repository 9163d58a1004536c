//! The states that calls are timed on: 32 endpoints, all of them attached.

use crosscheck::config::{Configuration, GuestShare, ListedEndpoint};
use crosscheck::faults::LOG_PLACES;
use crosscheck::numbers::{Domain, Endpoint, Guest};
use crosscheck::record::Record;
use crosscheck::regions::Region;

const ENDPOINTS: u32 = 32;
const WINDOW: u64 = 0x1000_0000;
const PAGE: u64 = 0x1000;

/// How the endpoints and the live records are spread.
#[derive(Clone, Copy)]
pub struct Setting {
    pub guests: u32,
    /// The domains of each guest.
    pub domains: u32,
    /// The reserved regions of each endpoint.
    pub regions: u64,
}

/// Four guests with four domains each, in which their endpoints stand two by two.
pub const SPREAD: Setting = Setting { guests: 4, domains: 4, regions: 0 };

/// All endpoints and all records in one domain.
pub const ONE_DOMAIN: Setting = Setting { guests: 1, domains: 1, regions: 0 };

impl Setting {
    pub fn configuration(&self) -> Configuration {
        let guest = |guest| {
            let first = window(guest);
            GuestShare { share: 256 / self.guests as u16, window: first..=first + (WINDOW - 1) }
        };
        let entry = |place| ListedEndpoint {
            regions: (0..self.regions).map(region).collect(),
            ..ListedEndpoint::new(endpoint(place), self.owner(place))
        };
        Configuration {
            guests: (0..self.guests).map(guest).collect(),
            endpoints: (0..ENDPOINTS).map(entry).collect(),
            page_size_mask: PAGE,
            input_range: 0..=0xffff_ffff,
            domain_range: 1..=15,
        }
    }

    /// The calls that lead from set-up to the state with so many live records.
    pub fn calls(&self, live: u32) -> Vec<Record> {
        let attach = |place| Record::attach(self.owner(place), self.domain(place), endpoint(place));
        (0..ENDPOINTS).map(attach).chain((0..live).map(|slot| self.map(slot))).collect()
    }

    /// Reads of pages that no record has, by all endpoints in turn: enough to fill every log.
    pub fn misses(&self) -> Vec<Record> {
        let miss = |place: u32| Record::read(endpoint(place % ENDPOINTS), PAGE + u64::from(place));
        (0..self.guests * LOG_PLACES as u32).map(miss).collect()
    }

    /// Reads of the live records, each through an endpoint of its domain.
    pub fn hits(&self, live: u32) -> Vec<Record> {
        let hit = |slot: u32| {
            let place = slot % (self.guests * self.domains);
            Record::read(endpoint(place), self.first_address(slot) + u64::from(slot))
        };
        (0..live).map(hit).collect()
    }

    /// The records of a domain have every other page.
    fn map(&self, slot: u32) -> Record {
        let start = self.first_address(slot);
        let phys = window(slot % self.guests) + PAGE * u64::from(slot);
        Record::map(self.owner(slot), self.domain(slot), (start, start + PAGE - 1), phys, 3)
    }

    fn first_address(&self, slot: u32) -> u64 {
        2 * PAGE * u64::from(slot / (self.guests * self.domains))
    }

    fn owner(&self, place: u32) -> Guest {
        Guest((place % self.guests) as u8)
    }

    fn domain(&self, place: u32) -> Domain {
        Domain(1 + place / self.guests % self.domains)
    }
}

/// A read by an endpoint that is not listed.
pub fn unlisted() -> Record {
    Record::read(endpoint(ENDPOINTS), PAGE)
}

/// A page between two records of a domain, or past them; the first one is MSI.
fn region(place: u64) -> Region {
    let start = PAGE * (8 * place + 1);
    Region { subtype: (place == 0).into(), start, end: start + PAGE - 1 }
}

fn endpoint(place: u32) -> Endpoint {
    Endpoint(8 + place)
}

fn window(guest: u32) -> u64 {
    0x8000_0000 + u64::from(guest) * WINDOW
}
