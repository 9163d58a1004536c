//! One call asked of either device, and its answer in the same form.

use crate::archived::Archived;
use crosscheck::device::Device;
use crosscheck::record::Record;

/// A call's number; its used length, address or count; and a request's status.
pub type Answer = (u8, u64, u8);

/// Asks the archive's device: a request, an access, or a fetch into an empty buffer.
pub fn of_archive(device: &mut Archived, call: &Record) -> Answer {
    match call {
        Record::Request { guest, readable } => device.request(*guest, readable),
        Record::Access { endpoint, address, direction } => {
            let (number, address) = device.access(*endpoint, *address, *direction);
            (number, address, 0)
        }
        Record::Fetch { guest, asked: 0 } => {
            let (number, count) = device.fetch(*guest, &mut []);
            (number, count, 0)
        }
        _ => panic!("not one of the calls timed: {call:?}"),
    }
}

/// Asks the second program's device the same.
pub fn of_second(device: &mut Device, call: &Record) -> Answer {
    let mut writable = [0; 4];
    let outcome = match call {
        Record::Request { guest, readable } => {
            device.request(*guest, readable, &mut writable).map(|handled| handled.used as u64)
        }
        Record::Access { endpoint, address, direction } => {
            device.access(*endpoint, *address, *direction)
        }
        Record::Fetch { guest, asked: 0 } => {
            device.fetch(*guest, &mut []).map(|count| count as u64)
        }
        _ => panic!("not one of the calls timed: {call:?}"),
    };
    match outcome {
        Ok(given) => (0, given, writable[0]),
        Err(refusal) => (refusal.number(), 0, writable[0]),
    }
}
