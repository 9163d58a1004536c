//! Reserved regions: addresses that an endpoint is set up to keep its mappings off.

/// The most regions an endpoint can have.
pub const MOST_REGIONS: usize = 4;
/// The subtypes: addresses that are just reserved, and the doorbell of MSIs.
pub const RESERVED: u8 = 0;
pub const MSI: u8 = 1;

/// The addresses from start to end, both included.
#[derive(Clone, Copy, Debug, PartialEq, Eq)]
pub struct Region {
    pub subtype: u8,
    pub start: u64,
    pub end: u64,
}

impl Region {
    /// A known subtype, and at least one address.
    fn is_good(&self) -> bool {
        self.subtype <= MSI && self.start <= self.end
    }

    /// Whether a good region has an address in common with these, start <= end.
    pub fn meets(&self, start: u64, end: u64) -> bool {
        self.start <= end && start <= self.end
    }
}

/// Whether the regions of one endpoint are good: at most four, each good by itself, at most one of
/// them MSI, and no address in two of them.
pub fn are_good(regions: &[Region]) -> bool {
    let of_msi = regions.iter().filter(|region| region.subtype == MSI).count();
    regions.len() <= MOST_REGIONS
        && regions.iter().all(Region::is_good)
        && of_msi <= 1
        && regions.iter().enumerate().all(|(place, region)| {
            !regions[..place].iter().any(|other| other.meets(region.start, region.end))
        })
}
