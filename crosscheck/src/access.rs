//! The decision on one device access.

use crate::answers::Refusal;
use crate::device::Device;
use crate::faults::{Direction, Fault, Reason};
use crate::numbers::{Domain, Endpoint, Guest};

impl Device {
    /// Gives the address the access lands at, or logs a fault for the endpoint's owner.
    pub fn access(
        &mut self,
        endpoint: Endpoint,
        address: u64,
        direction: Direction,
    ) -> Result<u64, Refusal> {
        self.check_sound()?;
        let place = self.place_of(endpoint).ok_or(Refusal::EndpointNotListed)?;
        let owner = self.configuration.endpoints[place].owner;
        let (reason, refusal) = match self.attached[place] {
            None => (Reason::Domain, Refusal::Unattached),
            Some(domain) => match self.translate(owner, domain, address, direction) {
                Some(landing) => return Ok(landing),
                None => (Reason::Mapping, Refusal::NoMapping),
            },
        };
        self.logs[owner.place()].push(Fault { reason, direction, endpoint, address });
        Err(refusal)
    }

    /// The physical address, if a record of the domain covers this one and has the flag.
    fn translate(
        &self,
        owner: Guest,
        domain: Domain,
        address: u64,
        direction: Direction,
    ) -> Option<u64> {
        let mapping = self.table.covering(owner, domain, address)?;
        let permitted = mapping.flags & direction.flag() != 0;
        permitted.then(|| address - mapping.virt_start + mapping.phys_start)
    }
}
