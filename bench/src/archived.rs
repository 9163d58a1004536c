//! A device of the archive: the state that its calls hand on, and the table that they are lent.

use crate::entries;
use crosscheck::config::{Configuration, ListedEndpoint};
use crosscheck::faults::Direction;
use crosscheck::numbers::{Endpoint, Guest};
use crosscheck::places::{Settings, State, ENDPOINT_REGION_WORDS, TABLE_WORDS};

pub struct Archived {
    state: State,
    table: Vec<u64>,
}

impl Archived {
    /// Sets up; the number must be 0.
    pub fn set_up(configuration: &Configuration) -> Self {
        let listed = &configuration.endpoints;
        let endpoints: Vec<u32> = listed.iter().map(|entry| entry.endpoint.0).collect();
        let owners: Vec<u8> = listed.iter().map(|entry| entry.owner.0).collect();
        let regions = region_words(listed);
        let mut table = vec![0; TABLE_WORDS];
        // SAFETY: each pointer is lent with the length of its list.
        let given = unsafe {
            entries::viommu_set_up(
                Settings::of(configuration),
                endpoints.as_ptr(),
                endpoints.len(),
                owners.as_ptr(),
                owners.len(),
                regions.as_ptr(),
                regions.len(),
                table.as_mut_ptr(),
                table.len(),
            )
        };
        assert_eq!(given.number, 0, "set-up is refused");
        Archived { state: given.state, table }
    }

    /// A request's number, used length and status byte.
    pub fn request(&mut self, guest: Guest, readable: &[u8]) -> (u8, u64, u8) {
        let mut writable = [0; 4];
        // SAFETY: each pointer is lent with the length of its list.
        let given = unsafe {
            entries::viommu_request(
                self.state,
                self.table.as_mut_ptr(),
                self.table.len(),
                entries::Guest(guest.0),
                readable.as_ptr(),
                readable.len(),
                writable.as_mut_ptr(),
                writable.len(),
            )
        };
        self.state = given.state;
        (given.number, given.used as u64, writable[0])
    }

    /// An access's number and address.
    pub fn access(&mut self, endpoint: Endpoint, address: u64, direction: Direction) -> (u8, u64) {
        // SAFETY: the table is lent with its length.
        let given = unsafe {
            entries::viommu_access(
                self.state,
                self.table.as_ptr(),
                self.table.len(),
                entries::Endpoint(endpoint.0),
                address,
                (direction == Direction::Write).into(),
            )
        };
        self.state = given.state;
        (given.number, given.address)
    }

    /// A fetch's number and count.
    pub fn fetch(&mut self, guest: Guest, buffer: &mut [u8]) -> (u8, u64) {
        // SAFETY: each pointer is lent with the length of its list.
        let given = unsafe {
            entries::viommu_fetch(
                self.state,
                self.table.as_ptr(),
                self.table.len(),
                entries::Guest(guest.0),
                buffer.as_mut_ptr(),
                buffer.len(),
            )
        };
        self.state = given.state;
        (given.number, given.count as u64)
    }

    /// The state by itself.
    pub fn state(&self) -> State {
        self.state
    }

    /// The table's words.
    pub fn table(&self) -> &[u64] {
        &self.table
    }

    /// The records that are live.
    pub fn live(&self) -> usize {
        self.state.live
    }

    /// The faults that all logs hold.
    pub fn logged(&self) -> usize {
        self.state.logged.iter().sum()
    }
}

/// The words of the endpoints' regions, as set-up is lent them: as many for each endpoint.
fn region_words(listed: &[ListedEndpoint]) -> Vec<u64> {
    let mut words = Vec::new();
    for (place, entry) in listed.iter().enumerate() {
        words.push(entry.regions.len() as u64);
        for region in &entry.regions {
            words.extend([region.subtype.into(), region.start, region.end]);
        }
        words.resize(ENDPOINT_REGION_WORDS * (place + 1), 0);
    }
    words
}
