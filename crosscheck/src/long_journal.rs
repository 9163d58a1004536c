//! Long sound journals for measuring: hits, misses, faults and requests mixed, with a number of
//! live records that stays about the same.

use crate::config::{Configuration, GuestShare, ListedEndpoint};
use crate::numbers::{Domain, Endpoint, Guest};
use crate::random::Random;
use crate::record::{self, Record};
use std::collections::VecDeque;

const GUESTS: u32 = 4;
const SHARE: u16 = 64;
const FIRST_ENDPOINT: u32 = 8;
/// Each guest has one endpoint in each of these many domains, and one that is unattached.
const DOMAINS: u32 = 3;
const PAGE: u64 = 0x1000;
/// A page that no slot has.
const SPARE_PAGE: u64 = 0x100_0000;

/// The most records that can be live.
pub const MOST_LIVE: u32 = GUESTS * SHARE as u32;

/// An endless run of records; any part from its start is a sound journal.
pub struct LongJournal {
    random: Random,
    live: u32,
    next: VecDeque<Record>,
}

impl LongJournal {
    /// Begins with the set-up, the attachments and the MAPs of all live records.
    pub fn new(live: u32, seed: u64) -> Self {
        let configuration = configuration();
        let mut random = Random::new(seed);
        let mut next = VecDeque::from(record::lists(&configuration));
        next.push_back(record::start(&configuration));
        for guest in 0..GUESTS {
            next.extend(attachments(guest));
        }
        let mut slots: Vec<u32> = (0..live).collect();
        random.shuffle(&mut slots);
        next.extend(slots.into_iter().map(map));
        LongJournal { random, live, next }
    }

    /// Adds the records of one step: mostly accesses, then requests that leave the live records
    /// as they were, fetches, and now and then a reset.
    fn step(&mut self) {
        let guest = self.random.below(GUESTS.into()) as u32;
        match self.random.below(2000) {
            0 => self.reset(guest),
            1..=899 => self.hit(guest),
            900..=1199 => self.miss(guest),
            1200..=1299 => self.unattached(guest),
            1300..=1319 => self.next.push_back(Record::read(Endpoint(7), PAGE)),
            1320..=1559 => self.replace(guest),
            1560..=1659 => self.spare_map(guest),
            1660..=1759 => self.refused(guest),
            1760..=1839 => self.next.extend(attachments(guest).pop()),
            1840..=1879 => self.short_attachment(guest),
            _ => {
                let asked = self.random.below(17) as u8;
                self.next.push_back(Record::Fetch { guest: Guest(guest as u8), asked });
            }
        }
    }

    /// A slot that holds a live record, if any does.
    fn slot(&mut self) -> Option<u32> {
        (self.live > 0).then(|| self.random.below(self.live.into()) as u32)
    }

    /// An access to a live record of any guest, three in four of them reads; some records permit
    /// only those. Without live records it misses, for the guest given.
    fn hit(&mut self, guest: u32) {
        let Some(slot) = self.slot() else {
            return self.miss(guest);
        };
        let address = first_address(slot) + self.random.below(PAGE);
        let access = if self.random.chance(75) { Record::read } else { Record::write };
        self.next.push_back(access(endpoint(slot % GUESTS, slot / GUESTS % DOMAINS), address));
    }

    /// An access between the pages that the slots have.
    fn miss(&mut self, guest: u32) {
        let address = PAGE * (2 * self.random.below(24) + 1) + self.random.below(PAGE);
        let domain = self.random.below(DOMAINS.into()) as u32;
        self.next.push_back(Record::read(endpoint(guest, domain), address));
    }

    fn unattached(&mut self, guest: u32) {
        let address = self.random.below(0x10_0000);
        self.next.push_back(Record::write(endpoint(guest, DOMAINS), address));
    }

    /// UNMAP and MAP of one slot; without live records both of a spare page.
    fn replace(&mut self, guest: u32) {
        let Some(slot) = self.slot() else {
            return self.spare_map(guest);
        };
        let (guest, domain) = (Guest((slot % GUESTS) as u8), domain_of(slot / GUESTS % DOMAINS));
        let start = first_address(slot);
        self.next.push_back(Record::unmap(guest, domain, (start, start + PAGE - 1)));
        self.next.push_back(map(slot));
    }

    /// MAP of a spare page, NOMEM when the share is used up, a read of it, and its UNMAP.
    fn spare_map(&mut self, guest: u32) {
        let virt = (SPARE_PAGE, SPARE_PAGE + PAGE - 1);
        let (number, domain) = (Guest(guest as u8), domain_of(0));
        self.next.push_back(Record::map(number, domain, virt, window(guest), 3));
        self.next.push_back(Record::read(endpoint(guest, 0), SPARE_PAGE));
        self.next.push_back(Record::unmap(number, domain, virt));
    }

    /// A request that is answered INVAL, RANGE, NOENT or FAULT.
    fn refused(&mut self, guest: u32) {
        let (number, domain) = (Guest(guest as u8), domain_of(0));
        let virt = (SPARE_PAGE, SPARE_PAGE + PAGE - 1);
        let past_window = window(guest) + 0x1000_0000;
        self.next.push_back(match self.random.below(6) {
            0 => Record::map(number, domain, virt, window(guest), 4),
            1 => Record::map(number, domain, (virt.0 + 1, virt.1), window(guest), 3),
            2 => Record::map(number, Domain(12), virt, window(guest), 3),
            3 => Record::map(number, domain, virt, past_window, 3),
            4 => Record::unmap(number, domain, (virt.1, virt.0)),
            _ => Record::attach(number, domain, Endpoint(7)),
        });
    }

    /// Attaches the guest's last endpoint to a domain of its own, moves it to another, and
    /// detaches it again.
    fn short_attachment(&mut self, guest: u32) {
        let (number, last) = (Guest(guest as u8), endpoint(guest, DOMAINS));
        self.next.push_back(Record::attach(number, domain_of(DOMAINS), last));
        self.next.push_back(Record::attach(number, domain_of(DOMAINS + 1), last));
        self.next.push_back(Record::detach(number, domain_of(DOMAINS + 1), last));
    }

    /// A reset, and then all that the guest had before.
    fn reset(&mut self, guest: u32) {
        self.next.push_back(Record::Reset { guest: Guest(guest as u8) });
        self.next.extend(attachments(guest));
        let slots = (0..self.live).filter(|slot| slot % GUESTS == guest);
        self.next.extend(slots.map(map));
    }
}

impl Iterator for LongJournal {
    type Item = Record;

    fn next(&mut self) -> Option<Record> {
        while self.next.is_empty() {
            self.step();
        }
        self.next.pop_front()
    }
}

fn configuration() -> Configuration {
    let guest =
        |guest| GuestShare { share: SHARE, window: window(guest)..=window(guest) + 0xfff_ffff };
    let entry = |place| {
        ListedEndpoint::new(Endpoint(FIRST_ENDPOINT + place), Guest((place % GUESTS) as u8))
    };
    Configuration {
        guests: (0..GUESTS).map(guest).collect(),
        endpoints: (0..GUESTS * (DOMAINS + 1)).map(entry).collect(),
        page_size_mask: PAGE,
        input_range: 0..=0xffff_ffff,
        domain_range: 1..=15,
    }
}

/// The first address of a guest's window.
fn window(guest: u32) -> u64 {
    0x8000_0000 + u64::from(guest) * 0x1000_0000
}

/// The guest's endpoint in its domain of this place; the last place is the unattached one.
fn endpoint(guest: u32, place: u32) -> Endpoint {
    Endpoint(FIRST_ENDPOINT + guest + GUESTS * place)
}

fn domain_of(place: u32) -> Domain {
    Domain(1 + place)
}

/// The slots of a domain have every other page.
fn first_address(slot: u32) -> u64 {
    2 * PAGE * u64::from(slot / (GUESTS * DOMAINS))
}

/// MAP of a slot; one record in eight permits only reads.
fn map(slot: u32) -> Record {
    let (guest, domain) = (slot % GUESTS, domain_of(slot / GUESTS % DOMAINS));
    let start = first_address(slot);
    let phys = window(guest) + PAGE * u64::from(slot);
    let flags = if (slot / GUESTS).is_multiple_of(8) { 1 } else { 3 };
    Record::map(Guest(guest as u8), domain, (start, start + PAGE - 1), phys, flags)
}

/// Attaches all of the guest's endpoints but the last.
fn attachments(guest: u32) -> Vec<Record> {
    let attach =
        |place| Record::attach(Guest(guest as u8), domain_of(place), endpoint(guest, place));
    (0..DOMAINS).map(attach).collect()
}
