//! "What each request does, first failing step wins", step by step.

use crate::support::*;
use crosscheck::numbers::{Domain, Endpoint};
use crosscheck::record::Record;
use crosscheck::requests::{ATTACH, DETACH};

const UNLISTED: Endpoint = Endpoint(99);

fn attach(domain: Domain, endpoint: Endpoint) -> Record {
    Record::attach(G0, domain, endpoint)
}

fn map(page: u64, flags: u32) -> Record {
    Record::map(G0, D1, (page * 0x1000, page * 0x1000 + 0xfff), W0 + page * 0x1000, flags)
}

/// ATTACH: "reserved not zero, INVAL", then NOENT, then RANGE.
#[test]
fn the_order_of_attach() {
    expect(
        &two_guests(),
        &[
            (Record::attachment(ATTACH, G0, Domain(99), UNLISTED, 1), INVAL),
            (Record::attachment(ATTACH, G0, D1, E8, 1 << 63), INVAL),
            (attach(Domain(99), UNLISTED), NOENT),
            (attach(Domain(99), E8), RANGE),
            (Record::read(E8, 0), "A 7"),
            (attach(D1, E8), OK),
            (Record::read(E8, 0), "A 8"),
        ],
    );
}

/// "Endpoint not listed or not this guest's, NOENT", so that nothing tells that it exists.
#[test]
fn anothers_endpoint_looks_like_an_unlisted_one() {
    expect(
        &two_guests(),
        &[
            (attach(D1, E9), NOENT),
            (attach(D1, UNLISTED), NOENT),
            (Record::attach(G1, D1, E9), OK),
            (attach(D1, E9), NOENT),
            (Record::detach(G0, D1, E9), NOENT),
            (Record::detach(G0, D1, UNLISTED), NOENT),
            (Record::read(E9, 0), "A 8"),
        ],
    );
}

/// DETACH: reserved, then the endpoint, then "Not attached to this domain, INVAL".
#[test]
fn the_order_of_detach() {
    expect(
        &two_guests(),
        &[
            (Record::attachment(DETACH, G0, D1, UNLISTED, 1), INVAL),
            (Record::detach(G0, D1, E8), INVAL),
            (attach(D1, E8), OK),
            (Record::attachment(DETACH, G0, D1, E8, 1), INVAL),
            (Record::detach(G0, D2, E8), INVAL),
            (Record::detach(G0, Domain(99), E8), INVAL),
            (Record::read(E8, 0), "A 8"),
            (Record::detach(G0, D1, E8), OK),
            (Record::read(E8, 0), "A 7"),
            (Record::detach(G0, D1, E8), INVAL),
        ],
    );
}

/// "When the last endpoint leaves a domain, all its records go", and not before.
#[test]
fn the_last_detach_takes_the_records() {
    expect(
        &two_guests(),
        &[
            (attach(D1, E8), OK),
            (attach(D1, E10), OK),
            (map(1, READ), OK),
            (Record::detach(G0, D1, E8), OK),
            (Record::read(E10, 0x1000), "A 0 0000000080001000"),
            (attach(D1, E8), OK),
            (Record::read(E8, 0x1000), "A 0 0000000080001000"),
            (Record::detach(G0, D1, E8), OK),
            (Record::detach(G0, D1, E10), OK),
            (map(1, READ), NOENT),
            (attach(D1, E8), OK),
            (Record::read(E8, 0x1000), "A 8"),
        ],
    );
}

/// ATTACH, "In another: first as DETACH from there": a sole endpoint's move takes the records
/// of the domain it leaves, and their room is free.
#[test]
fn a_move_takes_the_records_of_a_domain_left_empty() {
    expect(
        &two_guests(),
        &[
            (attach(D1, E8), OK),
            (map(1, READ), OK),
            (map(2, READ), OK),
            (attach(D2, E8), OK),
            (Record::read(E8, 0x1000), "A 8"),
            (map(1, READ), NOENT),
            (Record::map(G0, D2, (0x1000, 0x1fff), W0, READ), OK),
            (attach(D1, E8), OK),
            (Record::read(E8, 0x1000), "A 8"),
            (map(1, READ), OK),
            (map(2, READ), OK),
        ],
    );
}

/// A move leaves the records to an endpoint that stays, and a refused move changes nothing.
#[test]
fn a_move_keeps_the_records_of_a_domain_still_in_use() {
    expect(
        &two_guests(),
        &[
            (attach(D1, E8), OK),
            (attach(D1, E10), OK),
            (map(1, READ), OK),
            (attach(Domain(99), E8), RANGE),
            (Record::read(E8, 0x1000), "A 0 0000000080001000"),
            (attach(D2, E8), OK),
            (Record::read(E10, 0x1000), "A 0 0000000080001000"),
            (Record::read(E8, 0x1000), "A 8"),
            (attach(D1, E8), OK),
            (Record::read(E8, 0x1000), "A 0 0000000080001000"),
        ],
    );
}

/// MAP: each call but the last two breaks its step and every later one that it can.
#[test]
fn the_order_of_map() {
    let broken = |domain, virt, phys, flags| Record::map(G0, domain, virt, phys, flags);
    expect(
        &two_guests(),
        &[
            (attach(D1, E8), OK),
            (map(1, READ), OK),
            (map(3, READ), OK),
            // 1: the domain does not exist for this guest.
            (broken(D2, (0x2000, 0x1000), 1, 4), NOENT),
            // 2: a flag bit other than READ and WRITE.
            (broken(D1, (0x2000, 0x1000), 1, 4), INVAL),
            (broken(D1, (0x2000, 0x1000), 1, 0x8000_0001), INVAL),
            // 3, 4, 5: RANGE before FAULT.
            (broken(D1, (0x1fff, 0x1000), 0, READ), RANGE),
            (broken(D1, (0x1001, 0x1fff), 0, READ), RANGE),
            (broken(D1, (0x1000, 0x1ffe), 0, READ), RANGE),
            (broken(D1, (0x1000, 0x1fff), 1, READ), RANGE),
            (broken(D1, (0x1000, 0x1_0000_0fff), 0, READ), RANGE),
            // 6: FAULT before the overlap.
            (broken(D1, (0x1000, 0x1fff), 0, READ), FAULT),
            // 7: the overlap before the share.
            (broken(D1, (0x0000, 0x1fff), W0, READ), INVAL),
            (broken(D1, (0x1000, 0x3fff), W0, READ), INVAL),
            // 8: the share.
            (map(2, READ), NOMEM),
            (Record::read(E8, 0x2000), "A 8"),
            (Record::read(E8, 0x1000), "A 0 0000000080001000"),
        ],
    );
}

/// "Domain 1 of guest 0 has nothing to do with domain 1 of guest 1."
#[test]
fn domains_of_two_guests_are_apart() {
    let map_g1 = Record::map(G1, D1, (0x1000, 0x1fff), W1, READ);
    expect(
        &two_guests(),
        &[
            (attach(D1, E8), OK),
            (map_g1.clone(), NOENT),
            (Record::attach(G1, D1, E9), OK),
            (map(1, READ), OK),
            (map_g1, OK),
            (Record::read(E8, 0x1000), "A 0 0000000080001000"),
            (Record::read(E9, 0x1000), "A 0 0000000090000000"),
            (Record::unmap(G1, D1, (0, 0xffff)), OK),
            (Record::read(E8, 0x1000), "A 0 0000000080001000"),
            (Record::read(E9, 0x1000), "A 8"),
        ],
    );
}

/// "NOMEM has no other cause" than the guest's own share, and "Room freed is usable at once".
#[test]
fn the_share_is_the_guests_own() {
    let map_g1 = |page: u64| Record::map(G1, D1, (page * 0x1000, page * 0x1000 + 0xfff), W1, READ);
    expect(
        &two_guests(),
        &[
            (attach(D1, E8), OK),
            (attach(D2, E10), OK),
            (Record::attach(G1, D1, E9), OK),
            (map(1, READ), OK),
            (Record::map(G0, D2, (0, 0xfff), W0, READ), OK),
            (map(2, READ), NOMEM),
            (map_g1(1), OK),
            (map_g1(2), OK),
            (map_g1(3), NOMEM),
            (Record::unmap(G1, D1, (0x1000, 0x1fff)), OK),
            (map(2, READ), NOMEM),
            (map_g1(3), OK),
            (Record::unmap(G0, D2, (0, 0xfff)), OK),
            (map(2, READ), OK),
        ],
    );
}

/// "Flags 0 is taken and permits nothing"; "READ doesn't follow from WRITE", nor WRITE from
/// READ.
#[test]
fn flags_permit_what_they_say() {
    let mut configuration = two_guests();
    configuration.guests[0].share = 4;
    expect(
        &configuration,
        &[
            (attach(D1, E8), OK),
            (map(0, 0), OK),
            (map(1, READ), OK),
            (map(2, WRITE), OK),
            (map(3, READ | WRITE), OK),
            (Record::read(E8, 0), "A 8"),
            (Record::write(E8, 0), "A 8"),
            (Record::read(E8, 0x1000), "A 0 0000000080001000"),
            (Record::write(E8, 0x1000), "A 8"),
            (Record::read(E8, 0x2000), "A 8"),
            (Record::write(E8, 0x2000), "A 0 0000000080002000"),
            (Record::read(E8, 0x3000), "A 0 0000000080003000"),
            (Record::write(E8, 0x3000), "A 0 0000000080003000"),
            // The record with flags 0 is there: it overlaps.
            (map(0, READ), INVAL),
        ],
    );
}

/// UNMAP: NOENT, then INVAL, then RANGE.
#[test]
fn the_order_of_unmap() {
    expect(
        &two_guests(),
        &[
            (Record::unmapping(G0, D1, (5, 4), 1), NOENT),
            (attach(D1, E8), OK),
            (map(1, READ), OK),
            (Record::unmapping(G0, D1, (5, 4), 1), INVAL),
            (Record::unmapping(G0, D1, (0, 0xffff), 1 << 31), INVAL),
            (Record::unmap(G0, D1, (5, 4)), RANGE),
            (Record::unmap(G0, D1, (0x1fff, 0x1000)), RANGE),
            (Record::read(E8, 0x1000), "A 0 0000000080001000"),
        ],
    );
}

/// UNMAP asks for virt_end < virt_start alone and "No alignment is asked", so one address and
/// odd ends will do; a record partly outside on either side is RANGE.
#[test]
fn unmap_of_odd_ranges() {
    expect(
        &two_guests(),
        &[
            (attach(D1, E8), OK),
            (map(1, READ), OK),
            (Record::unmap(G0, D1, (0xfff, 0xfff)), OK),
            (Record::unmap(G0, D1, (0x2000, 0x2000)), OK),
            (Record::unmap(G0, D1, (0x1fff, 0x1fff)), RANGE),
            (Record::unmap(G0, D1, (0x1001, 0x2000)), RANGE),
            (Record::unmap(G0, D1, (0xfff, 0x1ffe)), RANGE),
            (Record::unmap(G0, D1, (0x1800, 0x1801)), RANGE),
            (Record::read(E8, 0x1000), "A 0 0000000080001000"),
            (Record::unmap(G0, D1, (0x7, 0x2003)), OK),
            (Record::read(E8, 0x1000), "A 8"),
        ],
    );
}

/// Slip: "UNMAP removing records until it meets one that straddles, then answering RANGE."
#[test]
fn a_straddler_keeps_every_record() {
    expect(
        &two_guests(),
        &[
            (attach(D1, E8), OK),
            (map(1, READ), OK),
            (map(2, READ), OK),
            (Record::unmap(G0, D1, (0x1000, 0x2800)), RANGE),
            (Record::unmap(G0, D1, (0x1800, 0x2fff)), RANGE),
            (Record::read(E8, 0x1fff), "A 0 0000000080001fff"),
            (Record::read(E8, 0x2000), "A 0 0000000080002000"),
        ],
    );
}

/// "some record of this guest's domain": a straddler in another domain is no hindrance.
#[test]
fn a_straddler_of_another_domain_does_not_count() {
    expect(
        &two_guests(),
        &[
            (attach(D1, E8), OK),
            (attach(D2, E10), OK),
            (map(1, READ), OK),
            (Record::map(G0, D2, (0x1000, 0x2fff), W0, READ), OK),
            (Record::unmap(G0, D1, (0x1000, 0x1fff)), OK),
            (Record::read(E8, 0x1000), "A 8"),
            (Record::read(E10, 0x1000), "A 0 0000000080000000"),
        ],
    );
}

/// "Head: type byte, three bytes ignored."
#[test]
fn three_bytes_of_the_head_are_ignored() {
    let mut record = attach(D1, E8);
    if let Record::Request { readable, .. } = &mut record {
        readable[1..4].copy_from_slice(&[0xff, 1, 0x80]);
    }
    expect(&two_guests(), &[(record, OK), (Record::read(E8, 0), "A 8")]);
}

/// "Reset of a guest: its endpoints detached, its records gone, its log empty", and nothing of
/// another guest's.
#[test]
fn a_reset_empties_one_guest() {
    expect(
        &two_guests(),
        &[
            (attach(D1, E8), OK),
            (Record::attach(G1, D1, E9), OK),
            (map(1, READ), OK),
            (map(2, READ), OK),
            (Record::map(G1, D1, (0x1000, 0x1fff), W1, READ), OK),
            (Record::write(E8, 0x1000), "A 8"),
            (Record::Reset { guest: G0 }, "Z 0"),
            (Record::Fetch { guest: G0, asked: 16 }, "F 0 0"),
            (Record::read(E8, 0x1000), "A 7"),
            (map(1, READ), NOENT),
            (attach(D1, E8), OK),
            (Record::read(E8, 0x1000), "A 8"),
            (map(1, READ), OK),
            (map(2, READ), OK),
            (Record::read(E9, 0x1000), "A 0 0000000090000000"),
        ],
    );
}
