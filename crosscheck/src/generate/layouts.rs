//! Requests in unusual bytes: any type in any length, and bytes that are ignored other than zero.

use crate::numbers::{Endpoint, Guest};
use crate::random::Random;
use crate::record::Record;

/// A request of any type byte in a record of any length.
pub fn odd_request(random: &mut Random, guest: Guest) -> Record {
    let mut readable = vec![0; random.pick(&[20, 28, 36, 72])];
    for byte in readable.iter_mut() {
        *byte = random.pick(&[0, 0, 0, 1, 255]);
    }
    readable[0] = random.pick(&[0, 1, 2, 3, 4, 5, 6, 128, 255]);
    Record::Request { guest, readable }
}

/// Now and then fills the three ignored bytes of the head.
pub fn with_any_head(random: &mut Random, mut record: Record) -> Record {
    if let Record::Request { readable, .. } = &mut record {
        if random.chance(20) {
            readable[1..4].copy_from_slice(&random.number().to_le_bytes()[..3]);
        }
    }
    record
}

/// PROBE, now and then with any bytes among the 64 that are ignored.
pub fn probe(random: &mut Random, guest: Guest, endpoint: Endpoint) -> Record {
    let mut record = Record::probe(guest, endpoint);
    if let Record::Request { readable, .. } = &mut record {
        if random.chance(30) {
            let ignored = &mut readable[8..];
            ignored.chunks_mut(8).for_each(|bytes| {
                bytes.copy_from_slice(&random.number().to_le_bytes());
            });
        }
    }
    with_any_head(random, record)
}
