//! Calls biased to what earlier calls did, so that every answer comes often.

use super::layouts::{odd_request, probe, with_any_head};
use super::{addresses, owned};
use crate::config::{Configuration, ListedEndpoint};
use crate::faults::Direction;
use crate::numbers::{Domain, Endpoint, Guest};
use crate::random::Random;
use crate::record::Record;
use crate::requests::{ATTACH, DETACH};

/// How many ranges are remembered, so that most of them are still mapped.
const REMEMBERED: usize = 12;

/// A range some MAP of a domain in use asked for; whether it was recorded is not known here.
#[derive(Clone)]
struct Asked {
    guest: Guest,
    domain: Domain,
    virt: (u64, u64),
}

/// Makes the calls of one journal and remembers what they asked for.
pub struct CallMaker<'a> {
    configuration: &'a Configuration,
    /// For each listed endpoint the domain it was last to be attached to.
    domains: Vec<Option<Domain>>,
    asked: Vec<Asked>,
}

impl<'a> CallMaker<'a> {
    pub fn new(configuration: &'a Configuration) -> Self {
        let domains = vec![None; configuration.endpoints.len()];
        CallMaker { configuration, domains, asked: Vec::new() }
    }

    /// Attaches some endpoints of these guests to domains in the range.
    pub fn opening(&mut self, random: &mut Random, guests: &[Guest]) -> Vec<Record> {
        let mut records = Vec::new();
        for &guest in guests {
            for endpoint in owned(self.configuration, guest) {
                if random.chance(60) {
                    let domain = self.domain_in_range(random);
                    self.remember_attachment(guest, endpoint, domain);
                    records.push(Record::attach(guest, domain, endpoint));
                }
            }
        }
        records
    }

    /// Reads and writes at the ends of every range these guests asked for, to show what is
    /// still mapped, and fetches all their faults.
    pub fn closing(&self, guests: &[Guest]) -> Vec<Record> {
        let mut records = Vec::new();
        for asked in guests.iter().flat_map(|guest| self.asked_by(*guest)) {
            for endpoint in self.attached_to(asked.guest, asked.domain) {
                records.push(Record::read(endpoint, asked.virt.0));
                records.push(Record::write(endpoint, asked.virt.1));
            }
        }
        for &guest in guests {
            records.push(Record::Fetch { guest, asked: 16 });
        }
        records
    }

    /// One call of this guest: under its number, or an access by an endpoint it owns or by one
    /// that nobody has.
    pub fn call(&mut self, random: &mut Random, guest: Guest) -> Record {
        match random.below(100) {
            0..=12 => self.attachment(random, guest),
            13..=36 => self.map(random, guest),
            37..=46 => self.unmap(random, guest),
            47..=49 => odd_request(random, guest),
            50..=53 => {
                let endpoint = self.endpoint(random, guest);
                probe(random, guest, endpoint)
            }
            54..=91 => self.access(random, guest),
            92..=98 => Record::Fetch { guest, asked: random.below(17) as u8 },
            _ => self.reset(guest),
        }
    }

    /// ATTACH, or one time in five DETACH.
    fn attachment(&mut self, random: &mut Random, guest: Guest) -> Record {
        let endpoint = self.endpoint(random, guest);
        let domain = self.domain(random, guest);
        let reserved = if random.chance(6) { 1 << random.below(64) } else { 0 };
        let request_type = if random.chance(20) { DETACH } else { ATTACH };
        if reserved == 0 && request_type == ATTACH {
            self.remember_attachment(guest, endpoint, domain);
        } else if reserved == 0 {
            self.remember_detachment(guest, endpoint, domain);
        }
        let record = Record::attachment(request_type, guest, domain, endpoint, reserved);
        with_any_head(random, record)
    }

    fn map(&mut self, random: &mut Random, guest: Guest) -> Record {
        let domain = self.domain(random, guest);
        let virt = addresses::to_map(random, self.configuration);
        let phys = addresses::to_land(random, self.configuration, guest, virt);
        let flags = match random.below(12) {
            0 => random.pick(&[4, 8, 0x100, 0x8000_0000, 7, u32::MAX]),
            1 => 0,
            2 | 3 => 1,
            4 | 5 => 2,
            _ => 3,
        };
        if virt.0 < virt.1 && !self.attached_to(guest, domain).is_empty() {
            self.asked.push(Asked { guest, domain, virt });
            let forgotten = self.asked.len().saturating_sub(REMEMBERED);
            self.asked.drain(..forgotten);
        }
        with_any_head(random, Record::map(guest, domain, virt, phys, flags))
    }

    fn unmap(&mut self, random: &mut Random, guest: Guest) -> Record {
        let mut domain = self.domain(random, guest);
        let mut virt = addresses::to_unmap(random, self.configuration);
        let asked = self.asked_by(guest);
        if !asked.is_empty() && random.chance(75) {
            let asked = random.pick(&asked);
            domain = asked.domain;
            virt = addresses::around(random, addresses::page(self.configuration), asked.virt);
        }
        let reserved = if random.chance(6) { 1 << random.below(32) } else { 0 };
        with_any_head(random, Record::unmapping(guest, domain, virt, reserved))
    }

    fn access(&mut self, random: &mut Random, guest: Guest) -> Record {
        let own = owned(self.configuration, guest);
        let mut endpoint = self.unlisted(random);
        if !own.is_empty() && random.chance(95) {
            endpoint = random.pick(&own);
        }
        let mut address = addresses::any(random, self.configuration);
        let asked = self.asked_by(guest);
        if !asked.is_empty() && random.chance(80) {
            let asked = random.pick(&asked);
            address = addresses::near(random, asked.virt);
            let attached = self.attached_to(guest, asked.domain);
            if !attached.is_empty() && random.chance(80) {
                endpoint = random.pick(&attached);
            }
        }
        let direction = random.pick(&[Direction::Read, Direction::Write]);
        Record::Access { endpoint, address, direction }
    }

    fn reset(&mut self, guest: Guest) -> Record {
        for (domain, entry) in self.domains.iter_mut().zip(&self.configuration.endpoints) {
            if entry.owner == guest {
                *domain = None;
            }
        }
        Record::Reset { guest }
    }

    /// Mostly an endpoint the guest owns, else another's or an unlisted one.
    fn endpoint(&self, random: &mut Random, guest: Guest) -> Endpoint {
        let own = owned(self.configuration, guest);
        let listed = &self.configuration.endpoints;
        match random.below(20) {
            0 => self.unlisted(random),
            1 | 2 if !listed.is_empty() => random.pick(listed).endpoint,
            _ if !own.is_empty() => random.pick(&own),
            _ => self.unlisted(random),
        }
    }

    /// A number that no listed endpoint has.
    fn unlisted(&self, random: &mut Random) -> Endpoint {
        loop {
            let any = random.number() as u32;
            let endpoint = Endpoint(random.pick(&[0, 1, 7, 9, 99, u32::MAX, any]));
            let listed = &self.configuration.endpoints;
            if listed.iter().all(|entry| entry.endpoint != endpoint) {
                return endpoint;
            }
        }
    }

    /// Mostly a domain that some endpoint of the guest was to be attached to, else one in the
    /// range or just outside it.
    fn domain(&self, random: &mut Random, guest: Guest) -> Domain {
        let listed = self.domains.iter().zip(&self.configuration.endpoints);
        let used: Vec<Domain> = listed
            .filter(|(_, entry)| entry.owner == guest)
            .filter_map(|(domain, _)| *domain)
            .collect();
        let range = &self.configuration.domain_range;
        match random.below(40) {
            0 => Domain(range.start().wrapping_sub(1)),
            1 => Domain(range.end().wrapping_add(1)),
            2 => Domain(*range.end()),
            3 | 4 => self.domain_in_range(random),
            _ if !used.is_empty() => random.pick(&used),
            _ => self.domain_in_range(random),
        }
    }

    /// One of the first three domains of the range.
    fn domain_in_range(&self, random: &mut Random) -> Domain {
        let range = &self.configuration.domain_range;
        let domain = range.start().saturating_add(random.below(3) as u32);
        Domain(domain.min(*range.end()))
    }

    /// The remembered ranges of one guest.
    fn asked_by(&self, guest: Guest) -> Vec<Asked> {
        self.asked.iter().filter(|asked| asked.guest == guest).cloned().collect()
    }

    /// What is known of an endpoint, if it is the guest's.
    fn known(&mut self, guest: Guest, endpoint: Endpoint) -> Option<&mut Option<Domain>> {
        let wanted = |entry: &ListedEndpoint| (entry.endpoint, entry.owner) == (endpoint, guest);
        let place = self.configuration.endpoints.iter().position(wanted)?;
        self.domains.get_mut(place)
    }

    fn remember_attachment(&mut self, guest: Guest, endpoint: Endpoint, domain: Domain) {
        if self.configuration.domain_range.contains(&domain.0) {
            if let Some(known) = self.known(guest, endpoint) {
                *known = Some(domain);
            }
        }
    }

    fn remember_detachment(&mut self, guest: Guest, endpoint: Endpoint, domain: Domain) {
        if let Some(known) = self.known(guest, endpoint) {
            *known = known.filter(|of| *of != domain);
        }
    }

    /// The guest's endpoints that were last to be attached to this domain.
    fn attached_to(&self, guest: Guest, domain: Domain) -> Vec<Endpoint> {
        let listed = self.configuration.endpoints.iter().zip(&self.domains);
        listed
            .filter(|(entry, known)| entry.owner == guest && **known == Some(domain))
            .map(|(entry, _)| entry.endpoint)
            .collect()
    }
}
