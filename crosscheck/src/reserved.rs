//! Mappings keep off the reserved regions of the endpoints in their domain: what MAP, ATTACH and the
//! test of soundness ask of it.

use crate::device::Device;
use crate::numbers::Domain;
use crate::table::Mapping;

impl Device {
    /// Whether a region of some endpoint in the mapping's domain has one of its addresses.
    pub(crate) fn meets_a_region(&self, mapping: &Mapping) -> bool {
        let listed = self.configuration.endpoints.iter().zip(&self.attached);
        let mut regions = listed
            .filter(|(entry, _)| entry.owner == mapping.guest)
            .filter(|(_, attached)| **attached == Some(mapping.domain))
            .flat_map(|(entry, _)| &entry.regions);
        regions.any(|region| region.meets(mapping.virt_start, mapping.virt_end))
    }

    /// Whether no record of its owner's domain has an address of a region of the endpoint at this
    /// place, be it in that domain or not.
    pub(crate) fn records_keep_off(&self, place: usize, domain: Domain) -> bool {
        let entry = &self.configuration.endpoints[place];
        let mut regions = entry.regions.iter();
        regions
            .all(|region| !self.table.overlaps(entry.owner, domain, &(region.start..=region.end)))
    }

    /// Whether every record keeps off the regions of the endpoints in its domain.
    pub(crate) fn all_records_keep_off(&self) -> bool {
        let mut places = self.attached.iter().enumerate();
        places.all(|(place, attached)| {
            attached.is_none_or(|domain| self.records_keep_off(place, domain))
        })
    }
}
