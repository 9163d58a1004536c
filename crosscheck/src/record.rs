//! Journal records as values, and the bytes they are written as.

use crate::config::{Configuration, ListedEndpoint};
use crate::faults::Direction;
use crate::journal;
use crate::numbers::{Domain, Endpoint, Guest};
use crate::regions::Region;
use crate::requests::{ATTACH, DETACH, MAP, PROBE, UNMAP};

#[derive(Clone, Debug, PartialEq, Eq)]
pub enum Record {
    Guest {
        share: u16,
        first: u64,
        last: u64,
    },
    Endpoint {
        endpoint: Endpoint,
        owner: Guest,
    },
    /// A reserved region of the endpoint of this number.
    Region {
        endpoint: Endpoint,
        region: Region,
    },
    Start {
        mask: u64,
        input: (u64, u64),
        domains: (u32, u32),
    },
    /// The readable part has 20, 28, 36 or 72 bytes.
    Request {
        guest: Guest,
        readable: Vec<u8>,
    },
    Access {
        endpoint: Endpoint,
        address: u64,
        direction: Direction,
    },
    Reset {
        guest: Guest,
    },
    Fetch {
        guest: Guest,
        asked: u8,
    },
    /// Bytes written as they stand, for journals that are not sound.
    Raw(Vec<u8>),
}

impl Record {
    pub fn attach(guest: Guest, domain: Domain, endpoint: Endpoint) -> Self {
        Record::attachment(ATTACH, guest, domain, endpoint, 0)
    }

    pub fn detach(guest: Guest, domain: Domain, endpoint: Endpoint) -> Self {
        Record::attachment(DETACH, guest, domain, endpoint, 0)
    }

    /// ATTACH or DETACH with any reserved field.
    pub fn attachment(
        request_type: u8,
        guest: Guest,
        domain: Domain,
        endpoint: Endpoint,
        reserved: u64,
    ) -> Self {
        let mut readable = vec![request_type, 0, 0, 0];
        readable.extend(domain.0.to_le_bytes());
        readable.extend(endpoint.0.to_le_bytes());
        readable.extend(reserved.to_le_bytes());
        Record::Request { guest, readable }
    }

    /// MAP of the addresses from the first to the last.
    pub fn map(guest: Guest, domain: Domain, virt: (u64, u64), phys: u64, flags: u32) -> Self {
        let mut readable = vec![MAP, 0, 0, 0];
        readable.extend(domain.0.to_le_bytes());
        readable.extend(virt.0.to_le_bytes());
        readable.extend(virt.1.to_le_bytes());
        readable.extend(phys.to_le_bytes());
        readable.extend(flags.to_le_bytes());
        Record::Request { guest, readable }
    }

    pub fn unmap(guest: Guest, domain: Domain, virt: (u64, u64)) -> Self {
        Record::unmapping(guest, domain, virt, 0)
    }

    /// UNMAP with any reserved field.
    pub fn unmapping(guest: Guest, domain: Domain, virt: (u64, u64), reserved: u32) -> Self {
        let mut readable = vec![UNMAP, 0, 0, 0];
        readable.extend(domain.0.to_le_bytes());
        readable.extend(virt.0.to_le_bytes());
        readable.extend(virt.1.to_le_bytes());
        readable.extend(reserved.to_le_bytes());
        Record::Request { guest, readable }
    }

    /// PROBE with zeros in the 64 bytes that are ignored.
    pub fn probe(guest: Guest, endpoint: Endpoint) -> Self {
        let mut readable = vec![PROBE, 0, 0, 0];
        readable.extend(endpoint.0.to_le_bytes());
        readable.resize(72, 0);
        Record::Request { guest, readable }
    }

    pub fn read(endpoint: Endpoint, address: u64) -> Self {
        Record::Access { endpoint, address, direction: Direction::Read }
    }

    pub fn write(endpoint: Endpoint, address: u64) -> Self {
        Record::Access { endpoint, address, direction: Direction::Write }
    }

    /// Whether the record is a call, which only comes after the start.
    pub fn is_call(&self) -> bool {
        use Record::{Access, Fetch, Request, Reset};
        matches!(self, Request { .. } | Access { .. } | Reset { .. } | Fetch { .. })
    }

    /// Whether the record names an endpoint of this number.
    pub fn names(&self, number: Endpoint) -> bool {
        matches!(self, Record::Endpoint { endpoint, .. } if *endpoint == number)
    }

    /// Writes the kind byte and the body.
    pub fn encode(&self, out: &mut Vec<u8>) {
        match self {
            Record::Guest { share, first, last } => {
                out.push(journal::GUEST);
                out.extend(share.to_le_bytes());
                out.extend(first.to_le_bytes());
                out.extend(last.to_le_bytes());
            }
            Record::Endpoint { endpoint, owner } => {
                out.push(journal::ENDPOINT);
                out.extend(endpoint.0.to_le_bytes());
                out.push(owner.0);
            }
            Record::Region { endpoint, region } => {
                out.push(journal::REGION);
                out.extend(endpoint.0.to_le_bytes());
                out.push(region.subtype);
                out.extend(region.start.to_le_bytes());
                out.extend(region.end.to_le_bytes());
            }
            Record::Start { mask, input, domains } => encode_start(out, *mask, *input, *domains),
            Record::Request { guest, readable } => {
                out.extend([request_kind(readable.len()), guest.0]);
                out.extend(readable);
            }
            Record::Access { endpoint, address, direction } => {
                out.push(journal::ACCESS);
                out.extend(endpoint.0.to_le_bytes());
                out.extend(address.to_le_bytes());
                out.push(u8::from(*direction == Direction::Write));
            }
            Record::Reset { guest } => out.extend([journal::RESET, guest.0]),
            Record::Fetch { guest, asked } => out.extend([journal::FETCH, guest.0, *asked]),
            Record::Raw(bytes) => out.extend(bytes),
        }
    }
}

fn encode_start(out: &mut Vec<u8>, mask: u64, input: (u64, u64), domains: (u32, u32)) {
    out.push(journal::START);
    for number in [mask, input.0, input.1] {
        out.extend(number.to_le_bytes());
    }
    for number in [domains.0, domains.1] {
        out.extend(number.to_le_bytes());
    }
}

/// The kind of a request record is fixed by the length of its readable part.
fn request_kind(length: usize) -> u8 {
    match length {
        20 => journal::REQUEST_20,
        28 => journal::REQUEST_28,
        36 => journal::REQUEST_36,
        72 => journal::REQUEST_72,
        _ => panic!("a request of {length} bytes has no journal record"),
    }
}

/// The records of a configuration's guests, of its endpoints, and of their regions, in this order.
pub fn lists(configuration: &Configuration) -> Vec<Record> {
    let guests = configuration.guests.iter().map(|guest| Record::Guest {
        share: guest.share,
        first: *guest.window.start(),
        last: *guest.window.end(),
    });
    let endpoints = configuration
        .endpoints
        .iter()
        .map(|entry| Record::Endpoint { endpoint: entry.endpoint, owner: entry.owner });
    guests.chain(endpoints).chain(configuration.endpoints.iter().flat_map(regions)).collect()
}

/// The records of an endpoint's regions.
pub fn regions(entry: &ListedEndpoint) -> impl Iterator<Item = Record> + '_ {
    let endpoint = entry.endpoint;
    entry.regions.iter().map(move |region| Record::Region { endpoint, region: *region })
}

/// The start record of a configuration.
pub fn start(configuration: &Configuration) -> Record {
    let Configuration { page_size_mask, input_range, domain_range, .. } = configuration;
    Record::Start {
        mask: *page_size_mask,
        input: (*input_range.start(), *input_range.end()),
        domains: (*domain_range.start(), *domain_range.end()),
    }
}

/// The bytes of a journal with these records.
pub fn journal_of(records: &[Record]) -> Vec<u8> {
    let mut bytes = Vec::new();
    for record in records {
        record.encode(&mut bytes);
    }
    bytes
}
