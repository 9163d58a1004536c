//! A sound device, and each clause broken once; the test over flat places is asked too.

use crate::answers::Refusal;
use crate::config::{Configuration, GuestShare, ListedEndpoint, MOST_RECORDS};
use crate::device::Device;
use crate::faults::{Direction, Fault, Reason, LOG_PLACES};
use crate::numbers::{Domain, Endpoint, Guest};
use crate::places::{table_of, State};
use crate::regions::{Region, MSI, RESERVED};
use crate::sound::SoundnessTest;
use crate::table::Mapping;
use std::ops::RangeInclusive;

mod regions;

const PAGE: u64 = 0x1000;
const G0: Guest = Guest(0);
const G1: Guest = Guest(1);

fn configuration() -> Configuration {
    let entry = |endpoint, owner| ListedEndpoint::new(Endpoint(endpoint), owner);
    let with_regions = |endpoint, owner, regions: &[Region]| ListedEndpoint {
        regions: regions.to_vec(),
        ..entry(endpoint, owner)
    };
    Configuration {
        guests: vec![
            GuestShare { share: 3, window: 0x8000_0000..=0x8fff_ffff },
            GuestShare { share: 2, window: 0x9000_0000..=0x9fff_ffff },
        ],
        endpoints: vec![
            with_regions(8, G0, &[region(MSI, 8), region(RESERVED, 7)]),
            entry(9, G1),
            with_regions(10, G0, &[12, 10, 14, 16].map(|page| region(RESERVED, page))),
            with_regions(11, G1, &[region(RESERVED, 2)]),
        ],
        page_size_mask: 0x3000,
        input_range: 0x1000..=0xf_ffff,
        domain_range: 1..=15,
    }
}

/// The region of this page.
fn region(subtype: u8, page: u64) -> Region {
    Region { subtype, start: page * PAGE, end: page * PAGE + PAGE - 1 }
}

/// The record of these pages, in the guest's window.
fn mapping(guest: Guest, domain: u32, pages: (u64, u64)) -> Mapping {
    Mapping {
        guest,
        domain: Domain(domain),
        virt_start: pages.0 * PAGE,
        virt_end: pages.1 * PAGE + PAGE - 1,
        phys_start: 0x8000_0000 + u64::from(guest.0) * 0x1000_0000,
        flags: 3,
    }
}

fn fault(endpoint: u32) -> Fault {
    Fault {
        reason: Reason::Mapping,
        direction: Direction::Read,
        endpoint: Endpoint(endpoint),
        address: 0,
    }
}

/// Guest 0 uses domains 1 and 2, guest 1 domain 1; endpoint 11 is unattached; both logs hold
/// faults, that of guest 1 as many as there are places.
pub fn sound_device() -> Device {
    let mut device = Device::set_up(configuration()).expect("a good configuration");
    device.attached = vec![Some(Domain(1)), Some(Domain(1)), Some(Domain(2)), None];
    device.table.records = vec![
        mapping(G0, 1, (1, 2)),
        mapping(G0, 1, (3, 3)),
        mapping(G0, 2, (1, 1)),
        mapping(G1, 1, (2, 2)),
    ];
    device.logs[0].faults.extend([fault(8), fault(10)]);
    device.logs[1].faults.extend((0..LOG_PLACES).map(|_| fault(9)));
    device
}

/// Whether the device is sound, as the test over the flat places of its lists says too.
fn is_sound(device: &Device) -> bool {
    let sound = device.is_sound();
    assert_eq!(State::of(device).is_sound(&table_of(device)), sound);
    sound
}

/// After the change the device is not sound, and every kind of call is refused with 2.
fn refused(change: impl FnOnce(&mut Device)) {
    let mut device = sound_device();
    assert!(is_sound(&device));
    change(&mut device);
    assert!(!is_sound(&device));
    every_call_is_refused(device);
}

fn every_call_is_refused(mut device: Device) {
    let refusal = Refusal::NotSound;
    assert_eq!(device.request(G0, &[], &mut []), Err(refusal));
    assert_eq!(device.access(Endpoint(8), PAGE, Direction::Read), Err(refusal));
    assert_eq!(device.reset(G0), Err(refusal));
    assert_eq!(device.fetch(G0, &mut []), Err(refusal));
}

/// As above, with the change made to the record at this place.
fn refused_record(place: usize, change: impl FnOnce(&mut Mapping)) {
    refused(|device| change(&mut device.table.records[place]));
}

#[test]
fn the_sound_device_is_served() {
    let mut device = sound_device();
    assert_eq!(device.fetch(G0, &mut []), Ok(0));
    assert_eq!(device.access(Endpoint(8), PAGE, Direction::Read), Ok(0x8000_0000));
    assert_eq!(device.reset(G0), Ok(()));
    assert!(is_sound(&device));
}

/// Each change makes the configuration bad by one clause.
#[test]
fn the_configuration_is_good() {
    refused(|device| device.configuration.guests[1].window = 0x8fff_ffff..=0x9fff_ffff);
    refused(|device| device.configuration.guests[0].window = RangeInclusive::new(1, 0));
    refused(|device| device.configuration.guests[1].share = 254);
    refused(|device| device.configuration.page_size_mask = 0);
    refused(|device| device.configuration.input_range = RangeInclusive::new(2, 1));
    refused(|device| device.configuration.domain_range = RangeInclusive::new(2, 1));
    refused(|device| device.configuration.endpoints[3].owner = Guest(2));
    refused(|device| device.configuration.endpoints[3].endpoint = Endpoint(8));
}

/// A guest count of 0 or 5 is not good. With 0 a call under a guest's number is answered 1 first.
#[test]
fn one_to_four_guests() {
    let mut none = sound_device();
    none.configuration.guests.clear();
    assert!(!is_sound(&none));
    assert_eq!(none.fetch(G0, &mut []), Err(Refusal::NoSuchGuest));
    assert_eq!(none.access(Endpoint(8), PAGE, Direction::Read), Err(Refusal::NotSound));
    refused(|device| {
        for first in [0, 0x1000, 0x2000] {
            let window = first..=first + 0xfff;
            device.configuration.guests.push(GuestShare { share: 0, window });
            device.logs.push(Default::default());
        }
    });
}

#[test]
fn at_most_32_endpoints() {
    refused(|device| {
        for endpoint in 12..41 {
            let entry = ListedEndpoint::new(Endpoint(endpoint), G0);
            device.configuration.endpoints.push(entry);
            device.attached.push(None);
        }
    });
}

/// Flat places cannot lack one of these.
#[test]
fn an_attachment_for_each_endpoint_and_a_log_for_each_guest() {
    let (mut unattached, mut logless) = (sound_device(), sound_device());
    unattached.attached.truncate(3);
    every_call_is_refused(unattached);
    logless.logs.truncate(1);
    every_call_is_refused(logless);
}

#[test]
fn at_most_256_records() {
    let pages = |count: u64| (1..=count).map(|page| mapping(G1, 1, (page, page))).collect();
    let mut device = sound_device();
    device.configuration.guests[0].share = 0;
    device.configuration.guests[1].share = 256;
    device.configuration.input_range = 0..=0xfff_ffff;
    device.table.records = pages(u64::from(MOST_RECORDS));
    assert!(is_sound(&device));
    device.table.records = pages(u64::from(MOST_RECORDS) + 1);
    assert!(!is_sound(&device));
}

/// By guest, then by domain, then by virt_start.
#[test]
fn records_stand_in_order() {
    for place in 0..3 {
        refused(|device| device.table.records.swap(place, place + 1));
    }
}

#[test]
fn records_of_a_domain_do_not_overlap() {
    refused_record(1, |record| *record = mapping(G0, 1, (2, 3)));
    refused_record(0, |record| *record = mapping(G0, 1, (1, 4)));
    refused_record(1, |record| *record = mapping(G0, 1, (1, 2)));
}

#[test]
fn no_guest_holds_more_than_its_share() {
    refused(|device| device.configuration.guests[0].share = 2);
    refused(|device| device.configuration.guests[1].share = 0);
}

/// Step 1: the guest's domain exists; another guest's of the same number is not it.
#[test]
fn a_record_has_a_domain_that_exists() {
    refused(|device| device.attached[2] = None);
    refused_record(2, |record| record.domain = Domain(3));
    refused(|device| device.attached[1] = None);
    refused_record(3, |record| record.guest = Guest(2));
}

/// Step 2.
#[test]
fn a_record_has_known_flags_only() {
    refused_record(1, |record| record.flags = 4);
    refused_record(3, |record| record.flags = 0x8000_0000);
}

/// Step 3; a granularity of 1 shows it alone.
#[test]
fn a_record_ends_after_it_starts() {
    refused(|device| {
        device.configuration.page_size_mask = 1;
        device.table.records[0].virt_end = device.table.records[0].virt_start;
    });
    refused_record(3, |record| record.virt_end = record.virt_start - 1);
}

/// Step 4.
#[test]
fn a_record_has_whole_pages() {
    refused_record(0, |record| record.virt_start += 1);
    refused_record(0, |record| record.virt_start += 0x800);
    refused_record(2, |record| record.virt_end -= 1);
    refused_record(3, |record| record.virt_end += 0x800);
    refused_record(0, |record| record.phys_start += 1);
    refused_record(3, |record| record.phys_start += 0x800);
}

/// Step 5.
#[test]
fn a_record_lies_in_the_input_range() {
    refused_record(0, |record| record.virt_start = 0);
    refused_record(3, |record| record.virt_end = 0x10_0fff);
}

/// Step 6, also where the physical end would pass 2^64 and come back into the window.
#[test]
fn a_record_lands_in_the_window() {
    refused_record(0, |record| record.phys_start -= PAGE);
    refused_record(3, |record| record.phys_start = 0xa000_0000);
    for (place, phys_start) in [(0, 0x7fff_ffff), (3, 0x9fff_f001)] {
        refused(|device| {
            device.configuration.page_size_mask = 1;
            device.table.records[place].phys_start = phys_start;
        });
    }
    refused(|device| {
        device.configuration.page_size_mask = 1;
        device.configuration.guests[1].window = 0x9000_0000..=u64::MAX;
        device.table.records[3].phys_start = u64::MAX - 0xffe;
    });
}

#[test]
fn an_attached_endpoints_domain_is_in_the_range() {
    refused(|device| device.attached[3] = Some(Domain(0)));
    refused(|device| device.attached[3] = Some(Domain(16)));
}

#[test]
fn a_log_holds_at_most_16_faults() {
    refused(|device| device.logs[1].faults.push_back(fault(9)));
}

#[test]
fn a_fault_names_an_endpoint_of_its_guest() {
    refused(|device| device.logs[0].faults[1] = fault(9));
    refused(|device| device.logs[1].faults[15] = fault(12));
}

/// Trust leaves the test out after an accepted set-up, and never after a refused one.
#[test]
fn trust_skips_the_test() {
    let mut device = sound_device().with_test(SoundnessTest::SetUpAlone);
    device.attached[3] = Some(Domain(16));
    assert_eq!(device.fetch(G0, &mut []), Ok(0));
    assert!(!is_sound(&Device::zeroed()));
}
