//! Configurations that are not good, each for one cause, and the calls after a refused start.

use crate::support::*;
use crosscheck::config::{Configuration, GuestShare, ListedEndpoint};
use crosscheck::numbers::{Endpoint, Guest};
use crosscheck::record::Record;
use std::ops::RangeInclusive;

/// The start's line for `two_guests` changed this way.
fn start_line(change: impl Fn(&mut Configuration)) -> String {
    let mut configuration = two_guests();
    change(&mut configuration);
    lines(&configuration, &[]).swap_remove(0)
}

/// "the guest count is 1 to 4": none is not good, one and four are.
#[test]
fn the_guest_count() {
    assert_eq!(start_line(|_| ()), "S 0");
    let without_guests = |configuration: &mut Configuration| {
        configuration.guests.clear();
        configuration.endpoints.clear();
    };
    assert_eq!(start_line(without_guests), "S 5");
    let one = |configuration: &mut Configuration| {
        configuration.guests.truncate(1);
        configuration.endpoints.truncate(1);
    };
    assert_eq!(start_line(one), "S 0");
    let four = |configuration: &mut Configuration| {
        configuration.guests.push(GuestShare { share: 0, window: 0..=0 });
        configuration.guests.push(GuestShare { share: 0, window: TOP..=TOP });
    };
    assert_eq!(start_line(four), "S 0");
}

/// "each window's first <= last; no two windows share an address".
#[test]
fn the_windows() {
    let second = |first, last| {
        start_line(move |configuration| {
            configuration.guests[1].window = RangeInclusive::new(first, last)
        })
    };
    assert_eq!(second(0x9000_0000, 0x8fff_ffff), "S 5");
    assert_eq!(second(TOP, 0), "S 5");
    assert_eq!(second(0x9000_0000, 0x9000_0000), "S 0");
    assert_eq!(second(0x8fff_ffff, 0x9fff_ffff), "S 5");
    assert_eq!(second(0, 0x8000_0000), "S 5");
    assert_eq!(second(0, 0x7fff_ffff), "S 0");
    assert_eq!(second(0x8800_0000, 0x8800_0000), "S 5");
    assert_eq!(second(0, TOP), "S 5");
    assert_eq!(second(0x9000_0000, TOP), "S 0");
}

/// The first and the last of three windows are compared too.
#[test]
fn windows_that_are_not_neighbours_in_the_list() {
    let third = |first| {
        start_line(move |configuration| {
            let window = first..=0xafff_ffff;
            configuration.guests.swap(0, 1);
            configuration.guests.push(GuestShare { share: 0, window });
        })
    };
    assert_eq!(third(0xa000_0000), "S 0");
    assert_eq!(third(0x9fff_ffff), "S 5");
}

/// "the mask is not zero; both ranges have start <= end".
#[test]
fn the_mask_and_the_ranges() {
    assert_eq!(start_line(|configuration| configuration.page_size_mask = 0), "S 5");
    assert_eq!(start_line(|configuration| configuration.page_size_mask = 1 << 63), "S 0");
    assert_eq!(
        start_line(|configuration| configuration.input_range = RangeInclusive::new(5, 4)),
        "S 5"
    );
    assert_eq!(start_line(|configuration| configuration.input_range = 5..=5), "S 0");
    assert_eq!(
        start_line(|configuration| configuration.domain_range = RangeInclusive::new(5, 4)),
        "S 5"
    );
    assert_eq!(start_line(|configuration| configuration.domain_range = 5..=5), "S 0");
}

/// "shares sum to at most 256": the sum is a whole number, however large each share is.
#[test]
fn the_shares() {
    let shares = |first, second| {
        start_line(move |configuration| {
            configuration.guests[0].share = first;
            configuration.guests[1].share = second;
        })
    };
    assert_eq!(shares(0, 0), "S 0");
    assert_eq!(shares(256, 0), "S 0");
    assert_eq!(shares(128, 128), "S 0");
    assert_eq!(shares(128, 129), "S 5");
    assert_eq!(shares(257, 0), "S 5");
    // 65,535 + 1 would be 0 in sixteen bits.
    assert_eq!(shares(65_535, 1), "S 5");
}

/// "owners are below the guest count; no endpoint number appears twice".
#[test]
fn the_endpoints() {
    let more = |endpoint, owner| {
        start_line(move |configuration| {
            let entry = ListedEndpoint::new(Endpoint(endpoint), Guest(owner));
            configuration.endpoints.push(entry);
        })
    };
    assert_eq!(more(11, 1), "S 0");
    assert_eq!(more(11, 2), "S 5");
    assert_eq!(more(11, 255), "S 5");
    assert_eq!(more(8, 0), "S 5");
    assert_eq!(more(8, 1), "S 5");
    assert_eq!(more(10, 0), "S 5");
}

/// "After a refused start the calls run on and print their 1 or 2": the state has every number
/// zero, so no guest number is below the guest count, and it is not sound.
#[test]
fn calls_after_a_refused_start() {
    let configuration = Configuration { page_size_mask: 0, ..two_guests() };
    let calls = [
        Record::attach(G0, D1, E8),
        Record::map(G0, D1, (0x1000, 0x1fff), W0, READ),
        Record::unmap(G1, D1, (0x1000, 0x1fff)),
        Record::Request { guest: G0, readable: vec![9; 20] },
        Record::read(E8, 0x1000),
        Record::write(Endpoint(99), 0),
        Record::Reset { guest: G0 },
        Record::Fetch { guest: G0, asked: 16 },
        Record::Fetch { guest: G0, asked: 0 },
    ];
    let request = "R 1 0 -";
    let expected =
        ["S 5", request, request, request, request, "A 2", "A 2", "Z 1", "F 1", "F 1", "E"];
    assert_eq!(lines(&configuration, &calls), expected);
}
