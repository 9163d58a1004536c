//! Reserved regions of a set-up: good ones, ones that are not, and region records that make a
//! journal bad. The quotes are of document 02.

use crate::support::*;
use crosscheck::numbers::Endpoint;
use crosscheck::record::{journal_of, lists, start, Record};
use crosscheck::regions::{Region, MSI, RESERVED};

/// The bytes of `two_guests` up to the start.
const LISTS: usize = 2 * 19 + 3 * 6;
/// The bytes of a region record: the kind, "endpoint 4, subtype 1, start 8, end 8".
const REGION: usize = 22;

fn region(subtype: u8, start: u64, end: u64) -> Region {
    Region { subtype, start, end }
}

/// The region of this page.
fn page(number: u64) -> Region {
    region(RESERVED, number * 0x1000, number * 0x1000 + 0xfff)
}

/// The start's line where endpoint 8 and endpoint 10 have these regions.
fn start_line(of_8: &[Region], of_10: &[Region]) -> String {
    let mut configuration = two_guests();
    configuration.endpoints[0].regions = of_8.to_vec();
    configuration.endpoints[2].regions = of_10.to_vec();
    lines(&configuration, &[]).swap_remove(0)
}

/// "up to four reserved regions, at most one of them MSI, none overlapping".
#[test]
fn good_regions() {
    let four = [page(1), page(3), region(MSI, 0xfee0_0000, 0xfeef_ffff), page(5)];
    assert_eq!(start_line(&[], &[]), "S 0");
    assert_eq!(start_line(&four, &[]), "S 0");
    assert_eq!(start_line(&[page(2), page(1)], &[page(3)]), "S 0");
    assert_eq!(start_line(&[region(MSI, 7, 7)], &[region(RESERVED, TOP, TOP)]), "S 0");
    assert_eq!(start_line(&[region(RESERVED, 0, TOP)], &[region(MSI, 0, TOP)]), "S 0");
    assert_eq!(start_line(&four, &four), "S 0");
}

/// "none overlapping (else 5)": one address in two regions is enough, wherever they stand.
#[test]
fn an_address_in_two_regions() {
    assert_eq!(start_line(&[page(1), region(RESERVED, 0x1fff, 0x1fff)], &[]), "S 5");
    assert_eq!(start_line(&[region(RESERVED, 0x1fff, 0x2000), page(1)], &[]), "S 5");
    assert_eq!(start_line(&[page(1), page(3), page(5), region(MSI, 0, 0x1000)], &[]), "S 5");
    assert_eq!(start_line(&[page(1), page(1)], &[]), "S 5");
    assert_eq!(start_line(&[], &[region(RESERVED, 0, TOP), page(1)]), "S 5");
    assert_eq!(start_line(&[page(1)], &[page(1), region(RESERVED, 0, 0xfff)]), "S 0");
}

/// "at most one of them MSI", and "a subtype above 1, or start > end, is 5".
#[test]
fn subtypes_and_ends() {
    let msi = |number| Region { subtype: MSI, ..page(number) };
    assert_eq!(start_line(&[msi(1), page(3), page(5), msi(7)], &[]), "S 5");
    assert_eq!(start_line(&[msi(1)], &[msi(1)]), "S 0");
    for subtype in [2, 128, 129, 255] {
        assert_eq!(start_line(&[page(1), Region { subtype, ..page(3) }], &[]), "S 5");
    }
    assert_eq!(start_line(&[], &[region(RESERVED, 1, 0)]), "S 5");
    assert_eq!(start_line(&[region(MSI, TOP, 0)], &[]), "S 5");
}

/// Windows, input range and granularity say nothing of regions.
#[test]
fn nothing_else_binds_a_region() {
    let odd = [region(RESERVED, 0x8000_0001, 0x9000_0001), region(MSI, TOP - 2, TOP)];
    assert_eq!(start_line(&odd, &[region(RESERVED, 1, 1)]), "S 0");
}

fn record(endpoint: Endpoint, number: u64) -> Record {
    Record::Region { endpoint, region: page(number) }
}

/// The lines of the lists of `two_guests`, these records and the start.
fn lines_with(records: &[Record]) -> Vec<String> {
    let mut journal = lists(&two_guests());
    journal.extend_from_slice(records);
    journal.push(start(&two_guests()));
    lines_of_bytes(&journal_of(&journal))
}

/// "as its fifth region a bad journal": counted for each endpoint.
#[test]
fn a_fifth_region() {
    let regions: Vec<Record> =
        (1..=4).flat_map(|number| [record(E8, number), record(E10, number)]).collect();
    assert_eq!(lines_with(&regions), ["S 0", "E"]);
    for endpoint in [E8, E10] {
        let more = [&regions[..], &[record(endpoint, 9)]].concat();
        assert_eq!(lines_with(&more), [format!("bad journal at {}", LISTS + 8 * REGION)]);
    }
}

/// A number named twice has one count of regions; four of them leave it to the start to refuse.
#[test]
fn regions_of_a_number_named_twice() {
    let again = Record::Endpoint { endpoint: E8, owner: G0 };
    let mut records = vec![record(E8, 1), record(E8, 3), again, record(E8, 5), record(E8, 7)];
    assert_eq!(lines_with(&records), ["S 5", "E"]);
    records.push(record(E8, 9));
    assert_eq!(lines_with(&records), [format!("bad journal at {}", LISTS + 4 * REGION + 6)]);
}

/// "for an endpoint not yet named".
#[test]
fn an_endpoint_not_yet_named() {
    let later = Record::Endpoint { endpoint: Endpoint(11), owner: G0 };
    let bad = format!("bad journal at {LISTS}");
    assert_eq!(lines_with(&[record(Endpoint(11), 1), later.clone()]), [bad.clone()]);
    assert_eq!(lines_with(&[record(Endpoint(0), 1)]), [bad]);
    assert_eq!(lines_with(&[later, record(Endpoint(11), 1)]), ["S 0", "E"]);
    assert_eq!(lines_of_bytes(&journal_of(&[record(E8, 1)])), ["bad journal at 0"]);
}

/// "after start", be it taken or refused, and whatever the region is.
#[test]
fn a_region_after_the_start() {
    let mut refused = two_guests();
    refused.endpoints[0].regions = vec![region(RESERVED, 1, 0)];
    for late in [record(E8, 1), record(Endpoint(99), 1)] {
        let bad = format!("bad journal at {}", LISTS + 33);
        assert_eq!(lines(&two_guests(), &[late.clone()]), ["S 0", &bad]);
        let bad = format!("bad journal at {}", LISTS + REGION + 33);
        assert_eq!(lines(&refused, &[late]), ["S 5", &bad]);
    }
}

/// A cut body, at every place.
#[test]
fn a_cut_region() {
    let mut journal = lists(&two_guests());
    journal.push(record(E8, 1));
    let whole = journal_of(&journal);
    assert_eq!(whole.len(), LISTS + REGION);
    for cut in LISTS + 1..whole.len() {
        assert_eq!(lines_of_bytes(&whole[..cut]), [format!("bad journal at {LISTS}")]);
    }
    assert_eq!(lines_of_bytes(&whole), ["E"]);
}
