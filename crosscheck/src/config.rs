//! The configuration a set-up takes, and when it is good.

use crate::numbers::{Endpoint, Guest};
use crate::regions::{self, Region};
use std::ops::RangeInclusive;

/// The most guests, endpoints and records there can be.
pub const MOST_GUESTS: usize = 4;
pub const MOST_ENDPOINTS: usize = 32;
pub const MOST_RECORDS: u32 = 256;

/// What one guest may hold: a number of records, and physical addresses in one window.
#[derive(Clone, Debug, PartialEq, Eq)]
pub struct GuestShare {
    pub share: u16,
    pub window: RangeInclusive<u64>,
}

/// One entry of the endpoint list with its entry of the owner list, and the endpoint's reserved
/// regions in set-up order.
#[derive(Clone, Debug, PartialEq, Eq)]
pub struct ListedEndpoint {
    pub endpoint: Endpoint,
    pub owner: Guest,
    pub regions: Vec<Region>,
}

impl ListedEndpoint {
    /// An endpoint without regions.
    pub fn new(endpoint: Endpoint, owner: Guest) -> Self {
        ListedEndpoint { endpoint, owner, regions: Vec::new() }
    }
}

#[derive(Clone, Debug, PartialEq, Eq)]
pub struct Configuration {
    pub guests: Vec<GuestShare>,
    pub endpoints: Vec<ListedEndpoint>,
    pub page_size_mask: u64,
    pub input_range: RangeInclusive<u64>,
    pub domain_range: RangeInclusive<u32>,
}

impl Configuration {
    /// The configuration with every number zero, which a refused set-up leaves.
    pub fn zeroed() -> Self {
        Configuration {
            guests: Vec::new(),
            endpoints: Vec::new(),
            page_size_mask: 0,
            input_range: 0..=0,
            domain_range: 0..=0,
        }
    }

    /// Whether every condition on a configuration holds.
    pub fn is_good(&self) -> bool {
        (1..=MOST_GUESTS).contains(&self.guests.len())
            && self.windows_are_good()
            && self.shares_sum() <= MOST_RECORDS
            && self.page_size_mask != 0
            && self.input_range.start() <= self.input_range.end()
            && self.domain_range.start() <= self.domain_range.end()
            && self.endpoints_are_good()
    }

    /// The page granularity g: the lowest set bit of the mask, which is not zero.
    pub fn granularity(&self) -> u64 {
        1 << self.page_size_mask.trailing_zeros()
    }

    /// The records all guests together may hold.
    pub fn shares_sum(&self) -> u32 {
        self.guests.iter().map(|guest| u32::from(guest.share)).sum()
    }

    /// Each window has first <= last, and no two share an address.
    fn windows_are_good(&self) -> bool {
        self.guests.iter().enumerate().all(|(place, GuestShare { window, .. })| {
            window.start() <= window.end()
                && self.guests[..place].iter().all(|other| apart(window, &other.window))
        })
    }

    /// At most 32 endpoints, each listed once, owned by a guest in use, and with good regions.
    fn endpoints_are_good(&self) -> bool {
        let listed = &self.endpoints;
        listed.len() <= MOST_ENDPOINTS
            && listed.iter().enumerate().all(|(place, entry)| {
                let earlier = listed[..place].iter().map(|other| other.endpoint);
                entry.owner.place() < self.guests.len()
                    && !is_among(entry.endpoint, earlier)
                    && regions::are_good(&entry.regions)
            })
    }
}

/// Whether the endpoint is one of these. Looks at all of them, which is faster than to stop at the
/// first: the comparisons are made several at a time.
pub(crate) fn is_among(endpoint: Endpoint, others: impl Iterator<Item = Endpoint>) -> bool {
    others.fold(false, |found, other| found | (other == endpoint))
}

/// Whether two windows have no address in common.
fn apart(one: &RangeInclusive<u64>, other: &RangeInclusive<u64>) -> bool {
    one.end() < other.start() || other.end() < one.start()
}
