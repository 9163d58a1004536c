//! State and table as flat places, used and unused ones, and the test that they are sound.
//!
//! The second program's own state has lists without unused places, and its own test (`sound.rs`)
//! so much less to look at. This one looks at every place of a state and at every word of a table,
//! so that the time of another program's test over the same places can be held against it.

use crate::config::{is_among, MOST_ENDPOINTS, MOST_GUESTS, MOST_RECORDS};
use crate::faults::{Direction, Reason, LOG_PLACES, READ, WRITE};
use crate::numbers::Endpoint;

mod of_device;
mod regions;
#[cfg(test)]
mod tests;

pub use of_device::table_of;
pub use regions::{ALL_REGION_WORDS, ENDPOINT_REGION_WORDS};

/// The words of a record, and of the table.
pub const RECORD_WORDS: usize = 5;
pub const TABLE_WORDS: usize = RECORD_WORDS * MOST_RECORDS as usize;
/// The places of all guests' faults, a guest's one after another.
pub const FAULT_PLACES: usize = LOG_PLACES * MOST_GUESTS;
const MOST_LOST: u32 = 65_535;

/// Addresses, first and last; the structs here have C's layout, in which they can be handed over.
#[repr(C)]
#[derive(Clone, Copy, Debug, PartialEq, Eq)]
pub struct InputRange {
    pub start: u64,
    pub end: u64,
}

/// Domain numbers, first and last.
#[repr(C)]
#[derive(Clone, Copy, Debug, PartialEq, Eq)]
pub struct DomainRange {
    pub start: u32,
    pub end: u32,
}

/// The configuration but for its endpoints, with a place for each guest that there can be.
#[repr(C)]
#[derive(Clone, Copy, Debug, PartialEq, Eq)]
pub struct Settings {
    pub guests: usize,
    pub shares: [u32; MOST_GUESTS],
    pub firsts: [u64; MOST_GUESTS],
    pub lasts: [u64; MOST_GUESTS],
    pub mask: u64,
    pub input: InputRange,
    pub domains: DomainRange,
}

/// A device's state, with a place for each endpoint and each fault that there can be.
#[repr(C)]
#[derive(Clone, Copy, Debug, PartialEq, Eq)]
pub struct State {
    pub settings: Settings,
    pub listed: usize,
    pub endpoints: [u32; MOST_ENDPOINTS],
    pub owners: [u8; MOST_ENDPOINTS],
    /// 1 where the endpoint is attached, else 0.
    pub attached: [u8; MOST_ENDPOINTS],
    pub domains: [u32; MOST_ENDPOINTS],
    /// For each endpoint the number of its regions, then subtype, start and end of each.
    pub regions: [u64; ALL_REGION_WORDS],
    pub live: usize,
    pub logged: [usize; MOST_GUESTS],
    pub lost: [u32; MOST_GUESTS],
    pub reasons: [u8; FAULT_PLACES],
    pub flags: [u32; FAULT_PLACES],
    pub sources: [u32; FAULT_PLACES],
    pub addresses: [u64; FAULT_PLACES],
}

impl State {
    /// Whether this state and a table of these words are sound.
    pub fn is_sound(&self, table: &[u64]) -> bool {
        table.len() == TABLE_WORDS
            && self.live <= MOST_RECORDS as usize
            && self.listed <= MOST_ENDPOINTS
            && self.settings.are_good()
            && (0..MOST_GUESTS).all(|guest| self.guest_is_sound(guest))
            && (0..MOST_ENDPOINTS).all(|place| self.endpoint_is_sound(place))
            && self.regions_are_sound()
            && (0..MOST_GUESTS).all(|guest| self.log_is_sound(guest))
            && self.records_are_sound(table)
            && self.records_keep_off(table)
    }

    /// A guest in use has counts within their limits; the place of one that is not is zero.
    fn guest_is_sound(&self, guest: usize) -> bool {
        let Settings { guests, shares, firsts, lasts, .. } = &self.settings;
        if guest < *guests {
            self.logged[guest] <= LOG_PLACES && self.lost[guest] <= MOST_LOST
        } else {
            shares[guest] == 0
                && (firsts[guest], lasts[guest]) == (0, 0)
                && (self.logged[guest], self.lost[guest]) == (0, 0)
        }
    }

    /// A listed endpoint has a number that none before it has, an owner in use, and a domain of the
    /// range where it is attached, else 0; the place of one that is not listed is zero.
    fn endpoint_is_sound(&self, place: usize) -> bool {
        let (endpoint, owner) = (self.endpoints[place], self.owners[place]);
        let (attached, domain) = (self.attached[place], self.domains[place]);
        if place < self.listed {
            let DomainRange { start, end } = self.settings.domains;
            usize::from(owner) < self.settings.guests
                && !is_among(Endpoint(endpoint), numbers(&self.endpoints[..place]))
                && match attached {
                    0 => domain == 0,
                    1 => start <= domain && domain <= end,
                    _ => false,
                }
        } else {
            (endpoint, owner, attached, domain) == (0, 0, 0, 0)
        }
    }

    /// The faults that a log holds are good, and its other places zero. The guest's endpoints are
    /// gathered once, so that a fault is looked up among those alone.
    fn log_is_sound(&self, guest: usize) -> bool {
        let mut own = [0; MOST_ENDPOINTS];
        let mut count = 0;
        for (endpoint, owner) in self.endpoints[..self.listed].iter().zip(&self.owners) {
            own[count] = *endpoint;
            count += usize::from(usize::from(*owner) == guest);
        }
        (0..LOG_PLACES).all(|fault| {
            let place = LOG_PLACES * guest + fault;
            if fault < self.logged[guest] {
                self.fault_is_good(place, &own[..count])
            } else {
                self.fault_is_zero(place)
            }
        })
    }

    /// A fault has a reason, says whether it read or wrote, and names one of these endpoints.
    fn fault_is_good(&self, place: usize, own: &[u32]) -> bool {
        let reasons = [Reason::Domain as u8, Reason::Mapping as u8];
        let flags = [Direction::Read.fault_flags(), Direction::Write.fault_flags()];
        reasons.contains(&self.reasons[place])
            && flags.contains(&self.flags[place])
            && is_among(Endpoint(self.sources[place]), numbers(own))
    }

    fn fault_is_zero(&self, place: usize) -> bool {
        (self.reasons[place], self.flags[place]) == (0, 0)
            && (self.sources[place], self.addresses[place]) == (0, 0)
    }

    /// The live records are such that MAP would take each and each stands after the one before, no
    /// guest holds more than its share, and all other words are zero. One pass, since of ordered
    /// records that overlap two neighbours do; and the zero words are looked at all together, which
    /// is faster than to stop at the first that is not zero.
    fn records_are_sound(&self, table: &[u64]) -> bool {
        let (live, unused) = table.split_at(RECORD_WORDS * self.live);
        let mut held = [0; MOST_GUESTS];
        let mut before = None;
        for words in live.chunks_exact(RECORD_WORDS) {
            let record = Record::of(words);
            if !self.stands_after(before, &record) || !self.could_be_mapped(&record) {
                return false;
            }
            held[record.guest()] += 1;
            before = Some(record);
        }
        held.iter().zip(&self.settings.shares).all(|(held, share)| held <= share)
            && unused.iter().fold(0, |bits, word| bits | word) == 0
    }

    /// The guest is in use, and the record comes after the one before, without overlap. Step 1 of
    /// MAP, the domain exists, needs asking only of the first record of a domain.
    fn stands_after(&self, before: Option<Record>, record: &Record) -> bool {
        match before {
            Some(before) if before.key == record.key => before.virt_end < record.virt_start,
            Some(before) if before.key > record.key => false,
            _ => record.guest() < self.settings.guests && self.domain_exists(record),
        }
    }

    /// Whether an endpoint of the record's guest is attached to the record's domain.
    fn domain_exists(&self, record: &Record) -> bool {
        (0..self.listed).any(|place| {
            usize::from(self.owners[place]) == record.guest()
                && self.attached[place] == 1
                && self.domains[place] == record.domain()
        })
    }

    /// Steps 2 to 6 of MAP. One more than a number is a multiple of g when the number's bits below
    /// g are all set; and the length is held against the room left, so that no sum passes 2^64.
    fn could_be_mapped(&self, record: &Record) -> bool {
        let Settings { firsts, lasts, mask, input, .. } = &self.settings;
        let below_page = (1 << mask.trailing_zeros()) - 1;
        let last = lasts[record.guest()];
        record.flags & !u64::from(READ | WRITE) == 0
            && record.virt_start < record.virt_end
            && (record.virt_start | record.phys_start) & below_page == 0
            && record.virt_end & below_page == below_page
            && input.start <= record.virt_start
            && record.virt_end <= input.end
            && firsts[record.guest()] <= record.phys_start
            && record.phys_start <= last
            && record.virt_end - record.virt_start <= last - record.phys_start
    }
}

impl Settings {
    /// What is asked of a configuration, but for its endpoints.
    fn are_good(&self) -> bool {
        (1..=MOST_GUESTS).contains(&self.guests)
            && (0..self.guests).all(|guest| self.window_is_good(guest))
            && self.shares.iter().map(|share| u64::from(*share)).sum::<u64>() <= MOST_RECORDS.into()
            && self.mask != 0
            && self.input.start <= self.input.end
            && self.domains.start <= self.domains.end
    }

    /// A guest's window has first <= last, and no address of an earlier guest's.
    fn window_is_good(&self, guest: usize) -> bool {
        let (first, last) = (self.firsts[guest], self.lasts[guest]);
        first <= last
            && (0..guest).all(|other| last < self.firsts[other] || self.lasts[other] < first)
    }
}

/// The words of one record.
struct Record {
    /// Guest and domain: guest × 2^32 + domain.
    key: u64,
    virt_start: u64,
    virt_end: u64,
    phys_start: u64,
    flags: u64,
}

impl Record {
    fn of(words: &[u64]) -> Self {
        Record {
            key: words[0],
            virt_start: words[1],
            virt_end: words[2],
            phys_start: words[3],
            flags: words[4],
        }
    }

    fn guest(&self) -> usize {
        (self.key >> 32) as usize
    }

    fn domain(&self) -> u32 {
        self.key as u32
    }
}

fn numbers(endpoints: &[u32]) -> impl Iterator<Item = Endpoint> + '_ {
    endpoints.iter().map(|endpoint| Endpoint(*endpoint))
}
