//! Fault records, the log and fetches.

use crate::support::*;
use crosscheck::device::Device;
use crosscheck::faults::Direction;
use crosscheck::record::Record;

fn fetch(asked: u8) -> Record {
    Record::Fetch { guest: G0, asked }
}

/// "Fault record, 24 bytes: reason (1 domain, 2 mapping), three zeros, flags 4 (READ 1 or
/// WRITE 2, plus ADDRESS 256), endpoint 4, zero 4, address 8", all four kinds of it.
#[test]
fn the_four_kinds_of_fault() {
    let calls = [
        Record::read(E8, 0x1122_3344_5566_7788),
        Record::write(E10, TOP),
        Record::attach(G0, D1, E8),
        Record::read(E8, 1),
        Record::write(E8, 0),
        fetch(16),
    ];
    let expected = [
        "S 0",
        "A 7",
        "A 7",
        "R 0 4 0",
        "A 8",
        "A 8",
        "F 0 4",
        "010000000101000008000000000000008877665544332211",
        "01000000020100000a00000000000000ffffffffffffffff",
        "020000000101000008000000000000000100000000000000",
        "020000000201000008000000000000000000000000000000",
        "E",
    ];
    assert_eq!(lines(&two_guests(), &calls), expected);
}

/// "Log full: the new one is dropped": of seventeen faults the first sixteen are kept.
#[test]
fn a_full_log_drops_the_new_fault() {
    let mut calls: Vec<Record> = (0..17).map(|address| Record::read(E8, address)).collect();
    calls.extend([fetch(16), fetch(16)]);
    let mut expected = vec!["S 0".to_string()];
    expected.extend((0..17).map(|_| "A 7".to_string()));
    expected.push("F 0 16".to_string());
    expected.extend(
        (0..16)
            .map(|address| format!("010000000101000008000000000000000{address:x}00000000000000")),
    );
    expected.extend(["F 0 0".to_string(), "E".to_string()]);
    assert_eq!(lines(&two_guests(), &calls), expected);
}

/// "Fetch writes the oldest records ..., as many as are held and fit whole, removes them": room
/// made by a fetch takes new faults, and a fetch of none removes none.
#[test]
fn fetches_take_the_oldest_first() {
    let fault = |digit: u8| format!("01000000010100000800000000000000{digit:02x}00000000000000");
    let calls = [
        Record::read(E8, 1),
        Record::read(E8, 2),
        fetch(0),
        Record::read(E8, 3),
        fetch(2),
        Record::read(E8, 4),
        fetch(1),
        fetch(3),
        fetch(1),
    ];
    let mut expected: Vec<String> = Vec::new();
    expected.extend(["S 0", "A 7", "A 7", "F 0 0", "A 7", "F 0 2"].map(String::from));
    expected.extend([fault(1), fault(2)]);
    expected.extend(["A 7", "F 0 1"].map(String::from));
    expected.push(fault(3));
    expected.push("F 0 1".to_string());
    expected.push(fault(4));
    expected.extend(["F 0 0", "E"].map(String::from));
    assert_eq!(lines(&two_guests(), &calls), expected);
}

/// "for each guest a fault log": a fault stands in the log of the endpoint's owner.
#[test]
fn each_guest_has_its_own_log() {
    let calls = [
        Record::read(E9, 1),
        Record::read(E8, 2),
        fetch(16),
        Record::Fetch { guest: G1, asked: 16 },
    ];
    let expected = [
        "S 0",
        "A 7",
        "A 7",
        "F 0 1",
        "010000000101000008000000000000000200000000000000",
        "F 0 1",
        "010000000101000009000000000000000100000000000000",
        "E",
    ];
    assert_eq!(lines(&two_guests(), &calls), expected);
}

/// "the lost count rises by one until 65,535", a fetch leaves it, and a reset takes it to 0.
#[test]
fn the_lost_count_stops_at_65535() {
    let mut device = Device::set_up(two_guests()).unwrap();
    let lost = |device: &Device| device.holdings(G0).log.unwrap().lost();
    let fault = |device: &mut Device| device.access(E8, 0, Direction::Read).unwrap_err();
    for _ in 0..16 + 65_534 {
        fault(&mut device);
    }
    assert_eq!(lost(&device), 65_534);
    fault(&mut device);
    assert_eq!(lost(&device), 65_535);
    fault(&mut device);
    assert_eq!(lost(&device), 65_535);
    assert_eq!(device.fetch(G0, &mut [0; 48]), Ok(2));
    assert_eq!(lost(&device), 65_535);
    assert_eq!(device.reset(G0), Ok(()));
    assert_eq!(lost(&device), 0);
}

/// "as many as are held and fit whole ... Bytes after them stay."
#[test]
fn a_fetch_fills_whole_records_only() {
    let mut device = Device::set_up(two_guests()).unwrap();
    for address in 0..2 {
        device.access(E8, address, Direction::Write).unwrap_err();
    }
    let mut buffer = [0xee; 47];
    assert_eq!(device.fetch(G0, &mut buffer), Ok(1));
    assert_eq!(buffer[..8], [1, 0, 0, 0, 2, 1, 0, 0]);
    assert_eq!(buffer[24..], [0xee; 23]);
    assert_eq!(device.fetch(G0, &mut buffer[..23]), Ok(0));
    assert_eq!(device.fetch(G0, &mut buffer), Ok(1));
}
