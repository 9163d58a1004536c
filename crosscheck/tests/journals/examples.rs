//! P1 to P10 of "Shown on the definitions": "Mask 1, one attached endpoint, share 2, wide
//! ranges."

use crate::support::*;
use crosscheck::config::{Configuration, GuestShare, ListedEndpoint};
use crosscheck::record::Record;

fn wide() -> Configuration {
    Configuration {
        guests: vec![GuestShare { share: 2, window: 0..=TOP }],
        endpoints: vec![ListedEndpoint::new(E8, G0)],
        page_size_mask: 1,
        input_range: 0..=TOP,
        domain_range: 0..=u32::MAX,
    }
}

/// MAP of a range that lands 0x100 higher, for reads.
fn map(first: u64, last: u64) -> Record {
    Record::map(G0, D1, (first, last), first + 0x100, READ)
}

fn unmap(first: u64, last: u64) -> Record {
    Record::unmap(G0, D1, (first, last))
}

fn read(address: u64) -> Record {
    Record::read(E8, address)
}

/// The calls after the sole endpoint is attached.
fn expect_attached(calls: &[(Record, &str)]) {
    let mut all = vec![(Record::attach(G0, D1, E8), OK)];
    all.extend_from_slice(calls);
    expect(&wide(), &all);
}

#[test]
fn p1_unmap_of_nothing_is_ok() {
    expect_attached(&[(unmap(0, 4), OK), (read(0), "A 8")]);
}

#[test]
fn p2_unmap_of_the_same_range_takes_it() {
    expect_attached(&[
        (map(0, 9), OK),
        (read(9), "A 0 0000000000000109"),
        (unmap(0, 9), OK),
        (read(0), "A 8"),
        (read(9), "A 8"),
    ]);
}

#[test]
fn p3_unmap_over_two_takes_both() {
    expect_attached(&[
        (map(0, 4), OK),
        (map(5, 9), OK),
        (read(4), "A 0 0000000000000104"),
        (read(5), "A 0 0000000000000105"),
        (unmap(0, 9), OK),
        (read(4), "A 8"),
        (read(5), "A 8"),
    ]);
}

#[test]
fn p4_unmap_of_a_part_is_range_and_keeps_it() {
    expect_attached(&[
        (map(0, 9), OK),
        (unmap(0, 4), RANGE),
        (read(0), "A 0 0000000000000100"),
        (read(9), "A 0 0000000000000109"),
    ]);
}

#[test]
fn p5_unmap_of_the_first_of_two_takes_it_alone() {
    expect_attached(&[
        (map(0, 4), OK),
        (map(5, 9), OK),
        (unmap(0, 4), OK),
        (read(4), "A 8"),
        (read(5), "A 0 0000000000000105"),
    ]);
}

#[test]
fn p6_unmap_of_a_wider_range_takes_it() {
    expect_attached(&[(map(0, 4), OK), (unmap(0, 9), OK), (read(0), "A 8"), (read(4), "A 8")]);
}

#[test]
fn p7_unmap_over_two_with_a_gap_takes_both() {
    expect_attached(&[
        (map(0, 4), OK),
        (map(10, 14), OK),
        (unmap(0, 14), OK),
        (read(4), "A 8"),
        (read(10), "A 8"),
    ]);
}

#[test]
fn p8_a_third_map_is_nomem() {
    expect_attached(&[
        (map(0, 4), OK),
        (map(5, 9), OK),
        (map(10, 14), NOMEM),
        (read(9), "A 0 0000000000000109"),
        (read(10), "A 8"),
    ]);
}

#[test]
fn p9_a_range_that_ends_where_it_starts_is_range() {
    expect_attached(&[(map(3, 3), RANGE), (read(3), "A 8")]);
}

#[test]
fn p10_attaching_again_to_the_same_domain_keeps_the_records() {
    expect_attached(&[
        (map(0, 9), OK),
        (Record::attach(G0, D1, E8), OK),
        (read(5), "A 0 0000000000000105"),
    ]);
}
