//! Reserved regions that are good, and records that keep off them.

use super::{is_sound, mapping, refused, refused_record, region, sound_device, G0, PAGE};
use crate::device::Device;
use crate::numbers::Domain;
use crate::regions::{Region, MSI, RESERVED};

/// As `refused`, with the change made to the regions of endpoint 8, an MSI one and a reserved one.
fn refused_regions(change: impl FnOnce(&mut Vec<Region>)) {
    refused(|device| change(&mut device.configuration.endpoints[0].regions));
}

/// At most four, of a known subtype, with start <= end, one MSI at most, and no address in two.
#[test]
fn an_endpoints_regions_are_good() {
    refused(|device| device.configuration.endpoints[2].regions.push(region(RESERVED, 18)));
    refused_regions(|regions| regions[0].subtype = 2);
    refused_regions(|regions| regions[1].subtype = 255);
    refused_regions(|regions| regions[0].end = regions[0].start - 1);
    refused_regions(|regions| regions[1].start = u64::MAX);
    refused_regions(|regions| regions[1].subtype = MSI);
    refused_regions(|regions| regions[1].end += 1);
    refused_regions(|regions| regions[0].start -= 1);
    refused_regions(|regions| regions.push(Region { subtype: RESERVED, start: 0, end: u64::MAX }));
}

/// The region's one address is the first or the last of a record of the domain, or the record lies
/// inside the region; every region of every endpoint in the domain counts.
#[test]
fn records_keep_off_the_regions_in_their_domain() {
    let address = |address| Region { subtype: RESERVED, start: address, end: address };
    refused_regions(|regions| regions[0] = address(PAGE));
    refused_regions(|regions| regions[1] = address(4 * PAGE - 1));
    refused_regions(|regions| regions[1] = Region { subtype: RESERVED, start: 0, end: 5 * PAGE });
    refused(|device| device.configuration.endpoints[2].regions[3] = region(RESERVED, 1));
    refused(|device| device.attached[3] = Some(Domain(1)));
    refused(|device| device.table.records.insert(2, mapping(G0, 1, (4, 7))));
    refused_record(2, |record| *record = mapping(G0, 2, (15, 17)));
}

/// A region right before or after a record, one in another domain of the guest or in another guest's
/// domain of the same number, and one of an unattached endpoint, which holds domain 0 but is not in it.
#[test]
fn records_may_have_other_regions() {
    let taken = |change: &dyn Fn(&mut Device)| {
        let mut device = sound_device();
        change(&mut device);
        assert!(is_sound(&device));
    };
    taken(&|device| device.configuration.endpoints[0].regions[1] = region(RESERVED, 0));
    taken(&|device| device.configuration.endpoints[0].regions[1] = region(RESERVED, 4));
    taken(&|device| device.configuration.endpoints[2].regions[0] = region(RESERVED, 3));
    taken(&|device| device.configuration.endpoints[1].regions = vec![region(MSI, 1)]);
    taken(&|device| device.attached[3] = Some(Domain(2)));
    taken(&|device| {
        device.configuration.domain_range = 0..=15;
        device.attached[1] = Some(Domain(0));
        device.table.records[3].domain = Domain(0);
    });
}

/// Adjacent regions, one of a single address, one that is all of the space, equal regions of two
/// endpoints, and none at all.
#[test]
fn good_regions_are_taken() {
    let taken = |regions: &[Region]| {
        let mut device = sound_device();
        device.configuration.endpoints[3].regions = regions.to_vec();
        assert!(is_sound(&device), "{regions:?}");
    };
    taken(&[]);
    taken(&[region(RESERVED, 3), region(MSI, 4), region(RESERVED, 2), region(RESERVED, 5)]);
    taken(&[Region { subtype: MSI, start: u64::MAX, end: u64::MAX }]);
    taken(&[Region { subtype: RESERVED, start: 0, end: u64::MAX }]);
    taken(&[region(MSI, 8), region(RESERVED, 7)]);
}
