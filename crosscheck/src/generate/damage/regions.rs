//! Region records where they make a journal bad: a fifth, one for an endpoint not yet named, and one
//! after the start.

use super::ENDPOINT;
use crate::numbers::{Endpoint, Guest};
use crate::random::Random;
use crate::record::Record;
use crate::regions::{Region, MOST_REGIONS};

/// Regions of one endpoint before the start, apart from each other, until there are five. At times
/// they are shared out over two endpoints of one number.
pub fn fifth(random: &mut Random, records: &mut Vec<Record>, start: usize) {
    let mut start = start;
    let endpoint = some_endpoint(random, &records[..start]).unwrap_or_else(|| {
        records.insert(0, ENDPOINT);
        start += 1;
        0
    });
    let Record::Endpoint { endpoint: number, .. } = records[endpoint] else { return };
    let named = records[..start].iter().filter(|record| matches!(record, Record::Endpoint { .. }));
    if named.count() < 32 && random.chance(30) {
        let place = endpoint + 1 + random.place(start - endpoint);
        records.insert(place, Record::Endpoint { endpoint: number, owner: Guest(0) });
        start += 1;
    }
    let own =
        |record: &&Record| matches!(record, Record::Region { endpoint, .. } if *endpoint == number);
    let there = records.iter().filter(own).count();
    for nth in there..=MOST_REGIONS {
        let place = endpoint + 1 + random.place(start - endpoint);
        let at = 0x1000 * nth as u64;
        records.insert(place, region(number, at, at));
        start += 1;
    }
}

/// A region for an endpoint that is named only later, or not at all.
pub fn early(random: &mut Random, records: &mut Vec<Record>, start: usize) {
    let later = some_endpoint(random, &records[..start]).map(|place| (place, &records[place]));
    let (place, number) = match later {
        Some((place, Record::Endpoint { endpoint, .. })) if random.chance(60) => {
            (random.place(place + 1), *endpoint)
        }
        _ => (random.place(start + 1), Endpoint(0x7777_7776)),
    };
    records.insert(place, region(number, random.below(4), 3));
}

/// A region, of an endpoint that is named before the start if there is one.
pub fn any(random: &mut Random, records: &[Record]) -> Record {
    match some_endpoint(random, records).map(|place| &records[place]) {
        Some(Record::Endpoint { endpoint, .. }) => region(*endpoint, random.number(), u64::MAX),
        _ => region(Endpoint(8), 0, 0),
    }
}

/// The place of one of the endpoint records.
fn some_endpoint(random: &mut Random, records: &[Record]) -> Option<usize> {
    let is_endpoint = |place: &usize| matches!(records[*place], Record::Endpoint { .. });
    let places: Vec<usize> = (0..records.len()).filter(is_endpoint).collect();
    (!places.is_empty()).then(|| random.pick(&places))
}

fn region(endpoint: Endpoint, start: u64, end: u64) -> Record {
    Record::Region { endpoint, region: Region { subtype: 0, start, end } }
}
