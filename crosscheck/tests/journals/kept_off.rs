//! Mappings kept off reserved regions, by MAP and by ATTACH. The quotes are of document 02.

use crate::support::*;
use crosscheck::config::Configuration;
use crosscheck::numbers::Domain;
use crosscheck::record::Record;
use crosscheck::regions::{Region, RESERVED};
use crosscheck::requests::ATTACH;

/// `two_guests` with one region of endpoint 10.
fn region_of_10(start: u64, end: u64) -> Configuration {
    let mut configuration = two_guests();
    configuration.endpoints[2].regions = vec![Region { subtype: RESERVED, start, end }];
    configuration
}

fn map(page: u64) -> Record {
    map_in(D1, page)
}

fn map_in(domain: Domain, page: u64) -> Record {
    Record::map(G0, domain, (page * 0x1000, page * 0x1000 + 0xfff), W0 + page * 0x1000, READ)
}

fn attach_8() -> (Record, &'static str) {
    (Record::attach(G0, D1, E8), OK)
}

fn attach_10(domain: Domain) -> Record {
    Record::attach(G0, domain, E10)
}

/// MAP: "overlapping a region of any endpoint in the domain is INVAL", to the address.
#[test]
fn map_beside_a_region() {
    let mut configuration = region_of_10(0x100, 0x1ff);
    configuration.page_size_mask = 1;
    let map = |first, last| Record::map(G0, D1, (first, last), W0, READ);
    expect(
        &configuration,
        &[
            attach_8(),
            (attach_10(D1), OK),
            (map(0xff, 0x100), INVAL),
            (map(0x1ff, 0x200), INVAL),
            (map(0x120, 0x130), INVAL),
            (map(0, 0x300), INVAL),
            (map(0xf0, 0xff), OK),
            (map(0x200, 0x210), OK),
        ],
    );
}

/// "a step between 7 and 8": INVAL before NOMEM, after FAULT, RANGE and NOENT.
#[test]
fn the_place_of_maps_step() {
    let mut configuration = region_of_10(0x5800, 0x5800);
    configuration.guests[0].share = 0;
    expect(
        &configuration,
        &[
            (attach_10(D1), OK),
            (map(5), INVAL),
            (map(6), NOMEM),
            (map_in(D2, 5), NOENT),
            (Record::map(G0, D1, (0x5000, 0x5ffe), W0, READ), RANGE),
            (Record::map(G0, D1, (0x5000, 0x5fff), W1, READ), FAULT),
        ],
    );
}

/// "any endpoint in the domain": not one that has left, is elsewhere, or is another guest's.
#[test]
fn endpoints_in_the_domain_alone() {
    let mut configuration = region_of_10(0x1000, 0x1fff);
    configuration.endpoints[1].regions = vec![Region { subtype: RESERVED, start: 0, end: TOP }];
    expect(
        &configuration,
        &[
            attach_8(),
            (Record::attach(G1, D1, E9), OK),
            (attach_10(D1), OK),
            (map(1), INVAL),
            (attach_10(D2), OK),
            (map_in(D2, 1), INVAL),
            (map(1), OK),
            (map_in(D2, 2), OK),
        ],
    );
}

/// An unattached endpoint holds domain 0 and is not in it.
#[test]
fn an_unattached_endpoint_is_in_no_domain() {
    let zero = Domain(0);
    let configuration = Configuration { domain_range: 0..=15, ..region_of_10(0, TOP) };
    expect(
        &configuration,
        &[
            (Record::attach(G0, zero, E8), OK),
            (map_in(zero, 1), OK),
            (attach_10(zero), UNSUPP),
            (Record::read(E10, 0x1000), "A 7"),
            (Record::unmap(G0, zero, (0, TOP)), OK),
            (attach_10(zero), OK),
            (map_in(zero, 1), INVAL),
        ],
    );
}

/// ATTACH: "is UNSUPP, after the RANGE step, and changes nothing": the endpoint stays in the domain
/// that it is alone in, with its record.
#[test]
fn unsupp_changes_nothing() {
    expect(
        &region_of_10(0x1800, 0x1800),
        &[
            attach_8(),
            (map(1), OK),
            (attach_10(D1), UNSUPP),
            (Record::read(E10, 0x1000), "A 7"),
            (attach_10(D2), OK),
            (map_in(D2, 2), OK),
            (attach_10(D1), UNSUPP),
            (Record::read(E10, 0x2000), "A 0 0000000080002000"),
            (attach_10(Domain(16)), RANGE),
            (Record::attachment(ATTACH, G0, D1, E10, 1), INVAL),
            (Record::attach(G1, D1, E10), NOENT),
            (attach_10(D2), OK),
            (Record::read(E10, 0x2000), "A 0 0000000080002000"),
        ],
    );
}

/// "whose records overlap the endpoint's regions": not its neighbours', nor another domain's.
#[test]
fn attach_beside_records() {
    for (start, end, status) in
        [(0xfff, 0xfff, OK), (0x1000, 0x1000, UNSUPP), (0x1fff, 0x1fff, UNSUPP), (0x2000, TOP, OK)]
    {
        expect(
            &region_of_10(start, end),
            &[attach_8(), (map(1), OK), (attach_10(D2), OK), (attach_10(D1), status)],
        );
    }
}
