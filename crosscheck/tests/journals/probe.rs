//! PROBE: its bytes, its numbers and its status. The quotes are of document 02.

use crate::support::*;
use crosscheck::answers::{Handled, Refusal, Status};
use crosscheck::config::Configuration;
use crosscheck::device::Device;
use crosscheck::numbers::{Endpoint, Guest};
use crosscheck::record::Record;
use crosscheck::regions::{Region, MSI, RESERVED};

const PROBED: &str = "R 0 132 0";
const NO_SUCH: &str = "R 0 132 6";
/// The properties of MSI 0xfee00000 to 0xfeefffff, and of reserved 0x1000 to 0x1000: "type 1, length
/// 20: subtype (0 reserved, 1 MSI), three zeros, start, end".
const DOORBELL: &str = "01001400010000000000e0fe00000000ffffeffe00000000";
const ONE_ADDRESS: &str = "010014000000000000100000000000000010000000000000";

/// `two_guests` with these two regions of endpoint 8.
fn with_regions() -> Configuration {
    let mut configuration = two_guests();
    configuration.endpoints[0].regions = vec![
        Region { subtype: MSI, start: 0xfee0_0000, end: 0xfeef_ffff },
        Region { subtype: RESERVED, start: 0x1000, end: 0x1000 },
    ];
    configuration
}

/// A line of 128 bytes that begin with these properties: "Property bytes left over are zero".
fn hex(properties: &str) -> String {
    format!("{properties:0<256}")
}

/// The readable part of a PROBE.
fn readable(endpoint: Endpoint) -> Vec<u8> {
    match Record::probe(G0, endpoint) {
        Record::Request { readable, .. } => readable,
        _ => panic!("a probe is a request"),
    }
}

/// "Each, in set-up order, is a property", and "printing after an `R 0` line the 128 in hex".
#[test]
fn properties_in_set_up_order() {
    let mut configuration = with_regions();
    let calls = [Record::probe(G0, E8), Record::probe(G0, E10)];
    let both = hex(&format!("{DOORBELL}{ONE_ADDRESS}"));
    let expected = ["S 0", PROBED, &both, PROBED, &hex(""), "E"];
    assert_eq!(lines(&configuration, &calls), expected);
    configuration.endpoints[0].regions.reverse();
    let reversed = hex(&format!("{ONE_ADDRESS}{DOORBELL}"));
    assert_eq!(lines(&configuration, &calls)[2], reversed);
}

/// "with NOENT (endpoint as in ATTACH) all 128 are written zero. Used length is 132".
#[test]
fn zeros_for_an_endpoint_that_is_not_the_guests() {
    let calls = [
        Record::probe(G0, E9),
        Record::probe(G0, Endpoint(99)),
        Record::probe(G1, E8),
        Record::probe(G1, Endpoint(0)),
    ];
    let mut expected = vec!["S 0".to_string()];
    calls.iter().for_each(|_| expected.extend([NO_SUCH.to_string(), hex("")]));
    expected.push("E".to_string());
    assert_eq!(lines(&with_regions(), &calls), expected);
}

/// "readable 72 bytes (head, endpoint 4, 64 ignored)", and three bytes of the head.
#[test]
fn what_is_ignored() {
    let mut ignored = vec![0xff; 72];
    ignored[0] = 5;
    ignored[4..8].copy_from_slice(&8u32.to_le_bytes());
    let request = Record::Request { guest: G0, readable: ignored };
    let both = hex(&format!("{DOORBELL}{ONE_ADDRESS}"));
    assert_eq!(lines(&with_regions(), &[request]), ["S 0", PROBED, &both, "E"]);
}

/// "after an `R 0` line": no bytes after any other.
#[test]
fn no_bytes_after_a_refusal() {
    let bare = |request_type: u8, length: usize| {
        let mut readable = vec![0; length];
        readable[0] = request_type;
        Record::Request { guest: G0, readable }
    };
    expect(
        &with_regions(),
        &[
            (Record::probe(Guest(2), E8), "R 1 0 -"),
            (bare(6, 72), "R 3 0 -"),
            (bare(1, 72), "R 4 0 -"),
            (bare(5, 20), "R 4 0 -"),
            (bare(5, 36), "R 4 0 -"),
        ],
    );
    let refused = Configuration { page_size_mask: 0, ..with_regions() };
    assert_eq!(lines(&refused, &[Record::probe(G0, E8)]), ["S 5", "R 1 0 -", "E"]);
}

/// "writable 128 bytes of properties and a 4-byte tail", every byte of it written, whatever was there.
#[test]
fn every_byte_is_written() {
    let mut device = Device::set_up(with_regions()).unwrap();
    for (endpoint, status) in [(E8, Status::Ok), (E9, Status::Noent), (E10, Status::Ok)] {
        let mut writable = [0xee; 132];
        let outcome = device.request(G0, &readable(endpoint), &mut writable);
        assert_eq!(outcome, Ok(Handled { used: 132, status }));
        assert_eq!(writable[128..], [status.byte(), 0, 0, 0]);
        let told = if endpoint == E8 { 48 } else { 0 };
        assert!(writable[told..128].iter().all(|byte| *byte == 0));
        assert_eq!(writable[..4] == [1, 0, 20, 0], endpoint == E8);
    }
}

/// 4: "a part's length not the type's", of the writable part and of the readable, nothing written.
#[test]
fn the_lengths_of_both_parts() {
    let mut device = Device::set_up(with_regions()).unwrap();
    let mut writable = [0xee; 140];
    for length in [0, 4, 128, 131, 133] {
        let outcome = device.request(G0, &readable(E8), &mut writable[..length]);
        assert_eq!(outcome, Err(Refusal::WrongLength));
    }
    for length in [4, 8, 71] {
        let outcome = device.request(G0, &readable(E8)[..length], &mut writable[..132]);
        assert_eq!(outcome, Err(Refusal::WrongLength));
    }
    let long = [&readable(E8)[..], &[0]].concat();
    assert_eq!(device.request(G0, &long, &mut writable[..132]), Err(Refusal::WrongLength));
    // An ATTACH has a writable part of 4 bytes still.
    let attach = [1, 0, 0, 0, 1, 0, 0, 0, 8, 0, 0, 0, 0, 0, 0, 0, 0, 0, 0, 0];
    assert_eq!(device.request(G0, &attach, &mut writable[..132]), Err(Refusal::WrongLength));
    assert_eq!(writable, [0xee; 140]);
}
