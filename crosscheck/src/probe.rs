//! PROBE: an endpoint's reserved regions, told as properties.

use crate::answers::Status;
use crate::device::Device;
use crate::fields::Fields;
use crate::numbers::{Endpoint, Guest};
use crate::regions::Region;

/// The bytes of all properties, and of one.
pub const PROPERTIES_BYTES: usize = 128;
const PROPERTY_BYTES: usize = 24;
/// The type of a property that tells a region, and the bytes after its type and length.
const REGION_PROPERTY: u16 = 1;
const REGION_BYTES: u16 = 20;

impl Device {
    /// Endpoint 4, the rest ignored. Writes a property for each region of the guest's endpoint, in
    /// set-up order; all other bytes are zero, all of them where it has no such endpoint.
    pub(crate) fn probe(
        &self,
        guest: Guest,
        mut fields: Fields,
        properties: &mut [u8],
    ) -> Result<(), Status> {
        properties.fill(0);
        let place = self.own_endpoint(guest, Endpoint(fields.u32()))?;
        let regions = &self.configuration.endpoints[place].regions;
        for (bytes, region) in properties.chunks_exact_mut(PROPERTY_BYTES).zip(regions) {
            bytes.copy_from_slice(&property(region));
        }
        Ok(())
    }
}

/// Type 2, length 2, subtype 1, three zeros, start 8, end 8.
fn property(region: &Region) -> [u8; PROPERTY_BYTES] {
    let mut bytes = [0; PROPERTY_BYTES];
    bytes[0..2].copy_from_slice(&REGION_PROPERTY.to_le_bytes());
    bytes[2..4].copy_from_slice(&REGION_BYTES.to_le_bytes());
    bytes[4] = region.subtype;
    bytes[8..16].copy_from_slice(&region.start.to_le_bytes());
    bytes[16..24].copy_from_slice(&region.end.to_le_bytes());
    bytes
}
