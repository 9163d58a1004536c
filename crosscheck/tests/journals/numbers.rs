//! "Numbers a call gives back" that a good set-up can reach.

use crate::support::*;
use crosscheck::answers::{Handled, Refusal, Status};
use crosscheck::device::Device;
use crosscheck::numbers::{Endpoint, Guest};
use crosscheck::record::Record;

/// A request of these many bytes, all 0 but the type.
fn bare(guest: Guest, request_type: u8, length: usize) -> Record {
    let mut readable = vec![0; length];
    readable[0] = request_type;
    Record::Request { guest, readable }
}

/// 1: "guest number not below the guest count", before anything else about the request.
#[test]
fn a_guest_that_is_not_there() {
    let nobody = Guest(2);
    expect(
        &two_guests(),
        &[
            (Record::attach(nobody, D1, E8), "R 1 0 -"),
            (bare(nobody, 9, 20), "R 1 0 -"),
            (bare(Guest(255), 3, 20), "R 1 0 -"),
            (Record::Reset { guest: nobody }, "Z 1"),
            (Record::Reset { guest: Guest(255) }, "Z 1"),
            (Record::Fetch { guest: nobody, asked: 16 }, "F 1"),
            (Record::Fetch { guest: Guest(4), asked: 0 }, "F 1"),
        ],
    );
}

/// 3: "for types not 1 to 5", whatever the length; 4: "a part's length not the type's".
#[test]
fn types_and_lengths() {
    let mut calls = Vec::new();
    for length in [20, 28, 36, 72] {
        for request_type in [0, 6, 7, 128, 133, 255] {
            calls.push((bare(G0, request_type, length), "R 3 0 -"));
        }
    }
    for (request_type, length) in [(1, 28), (1, 36), (1, 72), (2, 28), (2, 36), (2, 72)] {
        calls.push((bare(G0, request_type, length), "R 4 0 -"));
    }
    for (request_type, length) in [(3, 20), (3, 28), (3, 72), (4, 20), (4, 36), (4, 72)] {
        calls.push((bare(G0, request_type, length), "R 4 0 -"));
    }
    for length in [20, 28, 36] {
        calls.push((bare(G0, 5, length), "R 4 0 -"));
    }
    // Of its own length each is handled: endpoint 0 is not listed, domain 0 does not exist.
    for (request_type, length) in [(1, 20), (2, 20), (3, 36), (4, 28)] {
        calls.push((bare(G0, request_type, length), NOENT));
    }
    expect(&two_guests(), &calls);
}

/// "Requests: 1, 2, 4 (below 4 bytes), 3, 4 (lengths)", beyond what a journal can hold.
#[test]
fn the_order_of_a_requests_numbers() {
    let mut device = Device::set_up(two_guests()).unwrap();
    let mut writable = [0xee; 5];
    let outcome = device.request(G0, &[9, 0, 0], &mut writable[..4]);
    assert_eq!(outcome, Err(Refusal::WrongLength));
    let outcome = device.request(G0, &[9, 0, 0, 0], &mut writable);
    assert_eq!(outcome, Err(Refusal::UnknownType));
    let mut readable = [0; 20];
    readable[0] = 1;
    assert_eq!(device.request(G0, &readable, &mut writable), Err(Refusal::WrongLength));
    assert_eq!(device.request(G0, &readable, &mut writable[..3]), Err(Refusal::WrongLength));
    assert_eq!(writable, [0xee; 5]);
    // "status then three zeros; used length 4": endpoint 0 is not listed, NOENT 6.
    let handled = Handled { used: 4, status: Status::Noent };
    assert_eq!(device.request(G0, &readable, &mut writable[..4]), Ok(handled));
    assert_eq!(writable, [6, 0, 0, 0, 0xee]);
}

/// 6: "access by an endpoint not listed", with nothing logged for anybody.
#[test]
fn an_endpoint_that_is_not_listed() {
    expect(
        &two_guests(),
        &[
            (Record::read(Endpoint(7), 0), "A 6"),
            (Record::write(Endpoint(u32::MAX), TOP), "A 6"),
            (Record::Fetch { guest: G0, asked: 16 }, "F 0 0"),
            (Record::Fetch { guest: G1, asked: 16 }, "F 0 0"),
        ],
    );
}

/// 7 is "endpoint unattached", 8 is "no mapping permits it".
#[test]
fn blocked_accesses() {
    expect(
        &two_guests(),
        &[
            (Record::read(E8, 0x1000), "A 7"),
            (Record::attach(G0, D1, E8), OK),
            (Record::read(E8, 0x1000), "A 8"),
            (Record::map(G0, D1, (0x1000, 0x1fff), W0, READ), OK),
            (Record::read(E8, 0xfff), "A 8"),
            (Record::read(E8, 0x1000), "A 0 0000000080000000"),
            (Record::read(E8, 0x1fff), "A 0 0000000080000fff"),
            (Record::read(E8, 0x2000), "A 8"),
            (Record::read(E10, 0x1000), "A 7"),
            (Record::attach(G0, D2, E10), OK),
            (Record::read(E10, 0x1000), "A 8"),
        ],
    );
}
