//! The words of the endpoints' regions, and the test that they are sound.

use super::{State, RECORD_WORDS};
use crate::config::MOST_ENDPOINTS;
use crate::regions::{MOST_REGIONS, MSI};

/// The words of a region: subtype, start and end.
const REGION_WORDS: usize = 3;
/// The words of an endpoint's regions: their number, then those of each region.
pub const ENDPOINT_REGION_WORDS: usize = 1 + REGION_WORDS * MOST_REGIONS;
/// The words of all endpoints' regions, an endpoint's one after another.
pub const ALL_REGION_WORDS: usize = ENDPOINT_REGION_WORDS * MOST_ENDPOINTS;

impl State {
    /// Each listed endpoint's regions are good, and all words not in use are zero. Those are looked
    /// at all together, which is faster than to stop at the first that is not zero.
    pub(super) fn regions_are_sound(&self) -> bool {
        let (listed, unused) = self.regions.split_at(ENDPOINT_REGION_WORDS * self.listed);
        listed.chunks_exact(ENDPOINT_REGION_WORDS).all(are_good) && are_zero(unused)
    }

    /// After the tests of records and of regions: no record has an address of a region of an endpoint
    /// in its domain.
    pub(super) fn records_keep_off(&self, table: &[u64]) -> bool {
        let (records, _) = table[..RECORD_WORDS * self.live].as_chunks();
        (0..self.listed).filter(|place| self.attached[*place] == 1).all(|place| {
            let key = u64::from(self.owners[place]) << 32 | u64::from(self.domains[place]);
            let words = &self.regions[ENDPOINT_REGION_WORDS * place..];
            let regions = words[1..].chunks_exact(REGION_WORDS).take(words[0] as usize);
            regions.into_iter().all(|region| !meets(records, key, region[1], region[2]))
        })
    }
}

/// Whether an endpoint has at most four regions, all good, and its other words are zero.
fn are_good(words: &[u64]) -> bool {
    let (count, words) = (words[0], &words[1..]);
    if count > MOST_REGIONS as u64 {
        return false;
    }
    let (used, unused) = words.split_at(REGION_WORDS * count as usize);
    are_zero(unused)
        && (0..count as usize).all(|place| region_is_good(used, place))
        && used.chunks_exact(REGION_WORDS).filter(|region| region[0] == u64::from(MSI)).count() <= 1
}

/// A subtype of 0 or 1, start <= end, and no address in common with an earlier region.
fn region_is_good(words: &[u64], place: usize) -> bool {
    let (earlier, rest) = words.split_at(REGION_WORDS * place);
    let [subtype, start, end, ..] = *rest else { return false };
    subtype <= u64::from(MSI)
        && start <= end
        && earlier.chunks_exact(REGION_WORDS).all(|other| end < other[1] || other[2] < start)
}

/// Whether a record of this guest and domain has an address from start to end. Since the records are
/// in order and apart, it is the first of them that does not end before the start, or none.
fn meets(records: &[[u64; RECORD_WORDS]], key: u64, start: u64, end: u64) -> bool {
    let ends_before = |record: &[u64; RECORD_WORDS]| (record[0], record[2]) < (key, start);
    let first = records.get(records.partition_point(ends_before));
    first.is_some_and(|record| record[0] == key && record[1] <= end)
}

fn are_zero(words: &[u64]) -> bool {
    words.iter().fold(0, |bits, word| bits | word) == 0
}
