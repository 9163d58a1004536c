//! Edges of ranges, windows, shares and granularity.

use crate::support::*;
use crosscheck::config::Configuration;
use crosscheck::numbers::Domain;
use crosscheck::record::Record;

fn attach() -> (Record, &'static str) {
    (Record::attach(G0, D1, E8), OK)
}

fn map(virt: (u64, u64), phys: u64) -> Record {
    Record::map(G0, D1, virt, phys, READ | WRITE)
}

/// The whole space as input, and this mask.
fn with_mask(page_size_mask: u64) -> Configuration {
    Configuration { page_size_mask, input_range: 0..=TOP, ..two_guests() }
}

/// "virt_end 2^64 - 1 with mask 0x1000 is aligned", since "virt_end + 1 may be 2^64".
#[test]
fn a_range_to_the_top_is_aligned() {
    expect(
        &with_mask(0x1000),
        &[
            attach(),
            (map((0xffff_ffff_ffff_f000, TOP), W0), OK),
            (Record::read(E8, TOP), "A 0 0000000080000fff"),
            (Record::read(E8, 0xffff_ffff_ffff_efff), "A 8"),
            (Record::unmap(G0, D1, (TOP, TOP)), RANGE),
            (Record::unmap(G0, D1, (0, TOP)), OK),
            (Record::read(E8, TOP), "A 8"),
        ],
    );
}

/// The same with a granularity of 1: step 3 asks for two addresses at least.
#[test]
fn a_range_to_the_top_with_mask_1() {
    expect(
        &with_mask(1),
        &[
            attach(),
            (map((TOP, TOP), W0), RANGE),
            (map((TOP - 1, TOP), W0 + 7), OK),
            (Record::write(E8, TOP), "A 0 0000000080000008"),
            (map((TOP - 3, TOP - 1), W0), INVAL),
            (map((TOP - 3, TOP - 2), W0), OK),
        ],
    );
}

/// With the highest bit alone, only 0 to 2^63 - 1, 2^63 to 2^64 - 1 and both are whole pages.
#[test]
fn the_widest_granularity() {
    let mut configuration = with_mask(1 << 63);
    configuration.guests.truncate(1);
    configuration.guests[0].window = 0..=TOP;
    configuration.endpoints.truncate(1);
    let half = 1 << 63;
    expect(
        &configuration,
        &[
            attach(),
            (map((0, half), 0), RANGE),
            (map((0, half - 1), half / 2), RANGE),
            (map((1, half - 1), 0), RANGE),
            (map((0, TOP), 0), OK),
            (Record::read(E8, 0xfedc_ba98_7654_3210), "A 0 fedcba9876543210"),
            (Record::unmap(G0, D1, (0, TOP)), OK),
            (map((half, TOP), 0), OK),
            (Record::read(E8, TOP), "A 0 7fffffffffffffff"),
            (map((0, TOP), 0), INVAL),
            (map((0, half - 1), half), OK),
            (Record::read(E8, 5), "A 0 8000000000000005"),
        ],
    );
}

/// "g is the lowest set bit of page_size_mask": the higher bits ask for nothing.
#[test]
fn only_the_lowest_mask_bit_counts() {
    expect(
        &with_mask(0x4020_1000),
        &[
            attach(),
            (map((0x800, 0x17ff), W0), RANGE),
            (map((0x1000, 0x17ff), W0), RANGE),
            (map((0x1800, 0x1fff), W0), RANGE),
            (map((0x1000, 0x1fff), W0 + 0x800), RANGE),
            (map((0x1000, 0x1fff), W0 + 0x1000), OK),
            (map((0x2000, 0x4fff), W0), OK),
        ],
    );
}

/// "The standard aligns virt_start, phys_start and virt_end + 1. Answer RANGE": in step 4, so an
/// address outside the window is RANGE too.
#[test]
fn a_physical_start_is_aligned() {
    expect(
        &two_guests(),
        &[
            attach(),
            (map((0x1000, 0x1fff), W0 + 0x123), RANGE),
            (map((0x1000, 0x1fff), W0 + 0xfff), RANGE),
            (map((0x1000, 0x1fff), 0x7000_0001), RANGE),
            (map((0x1000, 0x1fff), 0x7000_0000), FAULT),
            (map((0x1000, 0x2fff), 0x8fff_e001), RANGE),
            (map((0x1000, 0x1fff), TOP), RANGE),
            (Record::read(E8, 0x1001), "A 8"),
            (map((0x1000, 0x1fff), W0 + 0x1000), OK),
            (Record::read(E8, 0x1001), "A 0 0000000080001001"),
        ],
    );
}

/// With a granularity of 1 every physical address is aligned, and the window ends to the address.
#[test]
fn any_physical_start_with_mask_1() {
    expect(
        &with_mask(1),
        &[
            attach(),
            (map((0x1000, 0x2fff), 0x8fff_e001), FAULT),
            (map((0x1000, 0x1fff), W0 - 1), FAULT),
            (map((0x1000, 0x1fff), W0 + 0x123), OK),
            (Record::read(E8, 0x1001), "A 0 0000000080000124"),
        ],
    );
}

/// A window may start within a page, which then can't be mapped: its start is RANGE, the page's
/// FAULT.
#[test]
fn a_window_that_starts_within_a_page() {
    let mut configuration = two_guests();
    configuration.guests[0].window = 0x8000_0800..=0x8fff_ffff;
    expect(
        &configuration,
        &[
            attach(),
            (map((0x1000, 0x1fff), 0x8000_0800), RANGE),
            (map((0x1000, 0x1fff), 0x8000_0000), FAULT),
            (map((0x1000, 0x1fff), 0x8000_1000), OK),
        ],
    );
}

/// "phys_end equal to the window's end passes, one page more is FAULT".
#[test]
fn the_end_of_the_window() {
    expect(
        &two_guests(),
        &[
            attach(),
            (map((0x1000, 0x2fff), 0x8fff_f000), FAULT),
            (Record::read(E8, 0x1000), "A 8"),
            (map((0x1000, 0x2fff), 0x8fff_e000), OK),
            (Record::read(E8, 0x2fff), "A 0 000000008fffffff"),
        ],
    );
}

/// Step 6 asks the same of phys_start, and another guest's window is not the guest's.
#[test]
fn the_start_of_the_window() {
    expect(
        &two_guests(),
        &[
            attach(),
            (map((0x1000, 0x1fff), W0 - 0x1000), FAULT),
            (map((0x1000, 0x1fff), W1), FAULT),
            (map((0x1000, 0x1fff), W0), OK),
            (Record::read(E8, 0x1000), "A 0 0000000080000000"),
        ],
    );
}

/// "phys_start + virt_end - virt_start wrapping past 2^64 back into the window: step 6 says
/// FAULT."
#[test]
fn a_physical_sum_past_the_top() {
    let mut configuration = with_mask(0x1000);
    configuration.guests[0].window = 0..=0x8fff_ffff;
    configuration.guests[1].window = 0x9000_0000..=TOP;
    let map_g1 = |virt, phys| Record::map(G1, D1, virt, phys, READ);
    expect(
        &configuration,
        &[
            (Record::attach(G1, D1, E9), OK),
            // 0xfffffffffffff000 + 0x1fff wraps to 0xfff, in guest 0's window.
            (map_g1((0, 0x1fff), 0xffff_ffff_ffff_f000), FAULT),
            // 0x90001000 + 2^64 - 1 wraps to 0x90000fff, in its own window.
            (map_g1((0, TOP), 0x9000_1000), FAULT),
            (map_g1((0, 0xfff), 0xffff_ffff_ffff_f000), OK),
            (Record::read(E9, 0xfff), "A 0 ffffffffffffffff"),
        ],
    );
}

/// Step 5: "any address outside the input range".
#[test]
fn the_ends_of_the_input_range() {
    let configuration = Configuration { input_range: 0x1000..=0x3fff, ..two_guests() };
    expect(
        &configuration,
        &[
            attach(),
            (map((0, 0xfff), W0), RANGE),
            (map((0, 0x1fff), W0), RANGE),
            (map((0x3000, 0x4fff), W0), RANGE),
            (map((0x4000, 0x4fff), W0), RANGE),
            (map((0x1000, 0x3fff), W0), OK),
            (Record::read(E8, 0x3fff), "A 0 0000000080002fff"),
        ],
    );
}

/// An input range that ends inside a page: the page's last address lies outside.
#[test]
fn an_input_range_that_cuts_pages() {
    let configuration = Configuration { input_range: 0xfff..=0x2ffe, ..two_guests() };
    expect(
        &configuration,
        &[
            attach(),
            (map((0x2000, 0x2fff), W0), RANGE),
            (map((0, 0xfff), W0), RANGE),
            (map((0x1000, 0x1fff), W0), OK),
        ],
    );
}

/// ATTACH: "Domain outside the range, RANGE"; the range's ends lie inside.
#[test]
fn the_ends_of_the_domain_range() {
    let configuration = Configuration { domain_range: 2..=3, ..two_guests() };
    expect(
        &configuration,
        &[
            (Record::attach(G0, Domain(1), E8), RANGE),
            (Record::attach(G0, Domain(4), E8), RANGE),
            (Record::read(E8, 0), "A 7"),
            (Record::attach(G0, Domain(3), E8), OK),
            (Record::attach(G0, Domain(2), E8), OK),
            (Record::read(E8, 0), "A 8"),
        ],
    );
}

/// "an attached one may be in domain 0 too".
#[test]
fn domain_0_is_a_domain() {
    let configuration = Configuration { domain_range: 0..=0, ..two_guests() };
    let domain = Domain(0);
    expect(
        &configuration,
        &[
            (Record::detach(G0, domain, E8), INVAL),
            (Record::map(G0, domain, (0, 0xfff), W0, READ), NOENT),
            (Record::read(E8, 0), "A 7"),
            (Record::attach(G0, domain, E8), OK),
            (Record::map(G0, domain, (0, 0xfff), W0, READ), OK),
            (Record::read(E8, 0), "A 0 0000000080000000"),
            (Record::detach(G0, domain, E8), OK),
            (Record::read(E8, 0), "A 7"),
        ],
    );
}

/// "A share of 0 and an empty endpoint list are good": MAP gets as far as step 8, and an
/// endpoint that is not listed is NOENT and 6.
#[test]
fn a_share_of_0_and_no_endpoints() {
    let mut configuration = two_guests();
    configuration.guests[0].share = 0;
    expect(&configuration, &[attach(), (map((0, 0xfff), W0), NOMEM)]);
    configuration.endpoints.clear();
    expect(&configuration, &[(Record::attach(G0, D1, E8), NOENT), (Record::read(E8, 0), "A 6")]);
}

/// "shares summing to 256 pass, 257 is 5", and a share of 256 can be filled to the last record.
#[test]
fn shares_of_256_and_257() {
    let mut configuration = two_guests();
    configuration.guests[0].share = 255;
    configuration.guests[1].share = 1;
    expect(&configuration, &[]);
    configuration.guests[1].share = 2;
    assert_eq!(lines(&configuration, &[]), ["S 5", "E"]);
    configuration.guests[0].share = 256;
    configuration.guests[1].share = 0;
    let mut calls = vec![attach()];
    calls.extend((0..256).map(|page| (map((page * 0x1000, page * 0x1000 + 0xfff), W0), OK)));
    calls.push((map((0x10_0000, 0x10_0fff), W0), NOMEM));
    calls.push((Record::unmap(G0, D1, (0x1000, 0x1fff)), OK));
    calls.push((map((0x10_0000, 0x10_0fff), W0), OK));
    expect(&configuration, &calls);
}
