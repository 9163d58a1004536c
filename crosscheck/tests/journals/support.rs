//! A set-up to begin from, and the lines of a journal.

use crosscheck::compare::play;
use crosscheck::config::{Configuration, GuestShare, ListedEndpoint};
use crosscheck::numbers::{Domain, Endpoint, Guest};
use crosscheck::record::{journal_of, lists, start, Record};

pub const G0: Guest = Guest(0);
pub const G1: Guest = Guest(1);
pub const E8: Endpoint = Endpoint(8);
pub const E9: Endpoint = Endpoint(9);
pub const E10: Endpoint = Endpoint(10);
pub const D1: Domain = Domain(1);
pub const D2: Domain = Domain(2);

pub const READ: u32 = 1;
pub const WRITE: u32 = 2;
/// First address of the windows of guest 0 and of guest 1.
pub const W0: u64 = 0x8000_0000;
pub const W1: u64 = 0x9000_0000;
pub const TOP: u64 = u64::MAX;

/// The lines that come most often.
pub const OK: &str = "R 0 4 0";
pub const UNSUPP: &str = "R 0 4 2";
pub const INVAL: &str = "R 0 4 4";
pub const RANGE: &str = "R 0 4 5";
pub const NOENT: &str = "R 0 4 6";
pub const FAULT: &str = "R 0 4 7";
pub const NOMEM: &str = "R 0 4 8";

/// Two guests of two records each; endpoints 8 and 10 of guest 0, 9 of guest 1.
pub fn two_guests() -> Configuration {
    Configuration {
        guests: vec![
            GuestShare { share: 2, window: W0..=0x8fff_ffff },
            GuestShare { share: 2, window: W1..=0x9fff_ffff },
        ],
        endpoints: [(E8, G0), (E9, G1), (E10, G0)]
            .map(|(endpoint, owner)| ListedEndpoint::new(endpoint, owner))
            .into(),
        page_size_mask: 0x1000,
        input_range: 0..=0xffff_ffff,
        domain_range: 1..=15,
    }
}

/// The set-up's records, the start among them, then the calls.
pub fn records(configuration: &Configuration, calls: &[Record]) -> Vec<Record> {
    let mut records = lists(configuration);
    records.push(start(configuration));
    records.extend_from_slice(calls);
    records
}

/// The lines of a journal of any bytes.
pub fn lines_of_bytes(journal: &[u8]) -> Vec<String> {
    play(journal).lines.into_iter().map(|line| line.text).collect()
}

/// The lines of a journal with this set-up and these calls.
pub fn lines(configuration: &Configuration, calls: &[Record]) -> Vec<String> {
    lines_of_bytes(&journal_of(&records(configuration, calls)))
}

/// A good set-up, the calls with the line of each, and the end.
pub fn expect(configuration: &Configuration, calls: &[(Record, &str)]) {
    let records: Vec<Record> = calls.iter().map(|(record, _)| record.clone()).collect();
    let mut expected = vec!["S 0"];
    expected.extend(calls.iter().map(|(_, line)| *line));
    expected.push("E");
    assert_eq!(lines(configuration, &records), expected);
}
