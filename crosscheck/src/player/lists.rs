//! The guests, endpoints and regions that a journal names before its start.

use crate::config::{GuestShare, ListedEndpoint, MOST_ENDPOINTS, MOST_GUESTS};
use crate::fields::Fields;
use crate::numbers::{Endpoint, Guest};
use crate::regions::{Region, MOST_REGIONS};

#[derive(Default)]
pub struct Lists {
    pub guests: Vec<GuestShare>,
    pub endpoints: Vec<ListedEndpoint>,
}

impl Lists {
    /// Share 2, window 8 + 8; bad as a fifth guest.
    pub fn guest(&mut self, mut fields: Fields) -> bool {
        let taken = self.guests.len() < MOST_GUESTS;
        if taken {
            let share = fields.u16();
            let window = fields.u64()..=fields.u64();
            self.guests.push(GuestShare { share, window });
        }
        taken
    }

    /// Number 4, owner 1; bad as a 33rd endpoint.
    pub fn endpoint(&mut self, mut fields: Fields) -> bool {
        let taken = self.endpoints.len() < MOST_ENDPOINTS;
        if taken {
            let endpoint = Endpoint(fields.u32());
            let owner = Guest(fields.u8());
            self.endpoints.push(ListedEndpoint::new(endpoint, owner));
        }
        taken
    }

    /// Endpoint 4, subtype 1, start 8, end 8; bad for a number that no endpoint has been named by,
    /// and as that number's fifth region. Where two endpoints have the number, the first has its
    /// regions.
    pub fn region(&mut self, mut fields: Fields) -> bool {
        let endpoint = Endpoint(fields.u32());
        let region = Region { subtype: fields.u8(), start: fields.u64(), end: fields.u64() };
        let named = self.endpoints.iter_mut().find(|entry| entry.endpoint == endpoint);
        match named.filter(|entry| entry.regions.len() < MOST_REGIONS) {
            Some(entry) => {
                entry.regions.push(region);
                true
            }
            None => false,
        }
    }
}
