//! The shared mapping table: live records in ascending order of guest, domain, virt_start.

use crate::numbers::{Domain, Guest};
use std::ops::{Range, RangeInclusive};

/// One live record; virt_end is the last address it covers.
#[derive(Clone, Debug, PartialEq, Eq)]
pub struct Mapping {
    pub guest: Guest,
    pub domain: Domain,
    pub virt_start: u64,
    pub virt_end: u64,
    pub phys_start: u64,
    pub flags: u32,
}

impl Mapping {
    fn covers(&self, address: u64) -> bool {
        self.virt_start <= address && address <= self.virt_end
    }

    fn overlaps(&self, range: &RangeInclusive<u64>) -> bool {
        self.virt_start <= *range.end() && *range.start() <= self.virt_end
    }

    fn is_inside(&self, range: &RangeInclusive<u64>) -> bool {
        range.contains(&self.virt_start) && range.contains(&self.virt_end)
    }

    /// Partly inside and partly outside the range.
    fn straddles(&self, range: &RangeInclusive<u64>) -> bool {
        self.overlaps(range) && !self.is_inside(range)
    }
}

#[derive(Clone, Debug, Default, PartialEq, Eq)]
pub struct MappingTable {
    pub(crate) records: Vec<Mapping>,
}

impl MappingTable {
    /// The records of one guest, in table order.
    pub fn of_guest(&self, guest: Guest) -> &[Mapping] {
        let first = self.records.partition_point(|record| record.guest < guest);
        let after = self.records.partition_point(|record| record.guest <= guest);
        &self.records[first..after]
    }

    /// The record of this domain that covers the address, if there is one.
    pub fn covering(&self, guest: Guest, domain: Domain, address: u64) -> Option<&Mapping> {
        let records = self.of_domain(guest, domain);
        records.iter().find(|record| record.covers(address))
    }

    /// Whether some record of this domain has an address in the range.
    pub fn overlaps(&self, guest: Guest, domain: Domain, range: &RangeInclusive<u64>) -> bool {
        let records = self.of_domain(guest, domain);
        records.iter().any(|record| record.overlaps(range))
    }

    /// Whether some record of this domain lies partly inside the range and partly outside.
    pub fn straddles(&self, guest: Guest, domain: Domain, range: &RangeInclusive<u64>) -> bool {
        let records = self.of_domain(guest, domain);
        records.iter().any(|record| record.straddles(range))
    }

    /// Puts a record at its place in the order.
    pub fn insert(&mut self, mapping: Mapping) {
        let key = |record: &Mapping| (record.guest, record.domain, record.virt_start);
        let place = self.records.partition_point(|record| key(record) < key(&mapping));
        self.records.insert(place, mapping);
    }

    /// Takes away every record of this domain that lies inside the range.
    pub fn remove_inside(&mut self, guest: Guest, domain: Domain, range: &RangeInclusive<u64>) {
        self.records.retain(|record| {
            (record.guest, record.domain) != (guest, domain) || !record.is_inside(range)
        });
    }

    /// Takes away every record of this domain.
    pub fn remove_domain(&mut self, guest: Guest, domain: Domain) {
        let places = self.places_of(guest, domain);
        self.records.drain(places);
    }

    /// Takes away every record of this guest.
    pub fn remove_guest(&mut self, guest: Guest) {
        self.records.retain(|record| record.guest != guest);
    }

    fn of_domain(&self, guest: Guest, domain: Domain) -> &[Mapping] {
        &self.records[self.places_of(guest, domain)]
    }

    /// Where the records of one guest and domain stand: together, because the table is ordered.
    fn places_of(&self, guest: Guest, domain: Domain) -> Range<usize> {
        let wanted = (guest, domain);
        let key = |record: &Mapping| (record.guest, record.domain);
        let first = self.records.partition_point(|record| key(record) < wanted);
        let after = self.records.partition_point(|record| key(record) <= wanted);
        first..after
    }
}
