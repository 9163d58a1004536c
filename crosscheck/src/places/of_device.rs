//! The flat places of a device's state and table.

use super::{DomainRange, InputRange, Settings, State, FAULT_PLACES, RECORD_WORDS, TABLE_WORDS};
use super::{ALL_REGION_WORDS, ENDPOINT_REGION_WORDS};
use crate::config::{Configuration, MOST_ENDPOINTS, MOST_GUESTS};
use crate::device::Device;
use crate::faults::LOG_PLACES;

impl State {
    /// The state of a device. What its lists have beyond the places is told by the counts alone.
    pub fn of(device: &Device) -> Self {
        let configuration = &device.configuration;
        let mut state = State {
            settings: Settings::of(configuration),
            listed: configuration.endpoints.len(),
            endpoints: [0; MOST_ENDPOINTS],
            owners: [0; MOST_ENDPOINTS],
            attached: [0; MOST_ENDPOINTS],
            domains: [0; MOST_ENDPOINTS],
            regions: [0; ALL_REGION_WORDS],
            live: device.table.records.len(),
            logged: [0; MOST_GUESTS],
            lost: [0; MOST_GUESTS],
            reasons: [0; FAULT_PLACES],
            flags: [0; FAULT_PLACES],
            sources: [0; FAULT_PLACES],
            addresses: [0; FAULT_PLACES],
        };
        state.put_endpoints(device);
        state.put_regions(configuration);
        state.put_logs(device);
        state
    }

    fn put_endpoints(&mut self, device: &Device) {
        let listed = device.configuration.endpoints.iter().zip(&device.attached);
        for (place, (entry, attached)) in listed.take(MOST_ENDPOINTS).enumerate() {
            self.endpoints[place] = entry.endpoint.0;
            self.owners[place] = entry.owner.0;
            self.attached[place] = attached.is_some().into();
            self.domains[place] = attached.map_or(0, |domain| domain.0);
        }
    }

    fn put_regions(&mut self, configuration: &Configuration) {
        let places = self.regions.chunks_exact_mut(ENDPOINT_REGION_WORDS);
        for (words, entry) in places.zip(&configuration.endpoints) {
            let (count, words) = words.split_first_mut().expect("an endpoint has words");
            *count = entry.regions.len() as u64;
            for (words, region) in words.chunks_exact_mut(3).zip(&entry.regions) {
                words.copy_from_slice(&[region.subtype.into(), region.start, region.end]);
            }
        }
    }

    fn put_logs(&mut self, device: &Device) {
        for (guest, log) in device.logs.iter().take(MOST_GUESTS).enumerate() {
            self.logged[guest] = log.faults.len();
            self.lost[guest] = log.lost().into();
            let places = LOG_PLACES * guest..LOG_PLACES * (guest + 1);
            for (place, fault) in places.zip(&log.faults) {
                self.reasons[place] = fault.reason as u8;
                self.flags[place] = fault.direction.fault_flags();
                self.sources[place] = fault.endpoint.0;
                self.addresses[place] = fault.address;
            }
        }
    }
}

impl Settings {
    /// The settings of a configuration.
    pub fn of(configuration: &Configuration) -> Self {
        let (input, domains) = (&configuration.input_range, &configuration.domain_range);
        let mut settings = Settings {
            guests: configuration.guests.len(),
            shares: [0; MOST_GUESTS],
            firsts: [0; MOST_GUESTS],
            lasts: [0; MOST_GUESTS],
            mask: configuration.page_size_mask,
            input: InputRange { start: *input.start(), end: *input.end() },
            domains: DomainRange { start: *domains.start(), end: *domains.end() },
        };
        for (place, guest) in configuration.guests.iter().take(MOST_GUESTS).enumerate() {
            settings.shares[place] = guest.share.into();
            settings.firsts[place] = *guest.window.start();
            settings.lasts[place] = *guest.window.end();
        }
        settings
    }
}

/// The words of a device's table, zero after the live records.
pub fn table_of(device: &Device) -> Vec<u64> {
    let mut table = vec![0; TABLE_WORDS];
    for (words, record) in table.chunks_exact_mut(RECORD_WORDS).zip(&device.table.records) {
        words.copy_from_slice(&[
            u64::from(record.guest.0) << 32 | u64::from(record.domain.0),
            record.virt_start,
            record.virt_end,
            record.phys_start,
            record.flags.into(),
        ]);
    }
    table
}
