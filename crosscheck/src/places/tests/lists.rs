//! The device whose lists flat places make up: the way back, for the tests alone.

use crate::config::{Configuration, GuestShare, ListedEndpoint, MOST_ENDPOINTS, MOST_GUESTS};
use crate::device::Device;
use crate::faults::{Direction, Fault, FaultLog, Reason, LOG_PLACES};
use crate::numbers::{Domain, Endpoint, Guest};
use crate::places::{State, ENDPOINT_REGION_WORDS, RECORD_WORDS, TABLE_WORDS};
use crate::regions::{Region, MOST_REGIONS};
use crate::sound::SoundnessTest;
use crate::table::{Mapping, MappingTable};

/// The device, or none where the places break a clause that holds of lists by their form.
pub fn device_of(state: &State, table: &[u64]) -> Option<Device> {
    let configuration = configuration_of(state)?;
    let (used, unused) = table.split_at_checked(RECORD_WORDS.checked_mul(state.live)?)?;
    let zero = table.len() == TABLE_WORDS && unused.iter().all(|word| *word == 0);
    let device = Device {
        attached: (0..state.listed).map(|n| attachment_of(state, n)).collect::<Option<_>>()?,
        table: MappingTable {
            records: used.chunks(RECORD_WORDS).map(mapping_of).collect::<Option<_>>()?,
        },
        logs: (0..state.settings.guests).map(|n| log_of(state, n)).collect::<Option<_>>()?,
        configuration,
        soundness_test: SoundnessTest::EachCall,
    };
    (zero && unused_places_are_zero(state)).then_some(device)
}

fn configuration_of(state: &State) -> Option<Configuration> {
    let settings = &state.settings;
    let guest = |place: usize| {
        let share = settings.shares.get(place).and_then(|share| u16::try_from(*share).ok())?;
        Some(GuestShare { share, window: settings.firsts[place]..=settings.lasts[place] })
    };
    let endpoint = |place: usize| {
        let endpoint = Endpoint(*state.endpoints.get(place)?);
        let regions = regions_of(state, place)?;
        Some(ListedEndpoint { endpoint, owner: Guest(state.owners[place]), regions })
    };
    Some(Configuration {
        guests: (0..settings.guests).map(guest).collect::<Option<_>>()?,
        endpoints: (0..state.listed).map(endpoint).collect::<Option<_>>()?,
        page_size_mask: settings.mask,
        input_range: settings.input.start..=settings.input.end,
        domain_range: settings.domains.start..=settings.domains.end,
    })
}

/// The regions of an endpoint, and zero in the words after them.
fn regions_of(state: &State, place: usize) -> Option<Vec<Region>> {
    let from = ENDPOINT_REGION_WORDS * place;
    let count = usize::try_from(state.regions[from]).ok()?;
    let region = |nth: usize| {
        let words = &state.regions[from + 1 + 3 * nth..from + 4 + 3 * nth];
        Some(Region { subtype: words[0].try_into().ok()?, start: words[1], end: words[2] })
    };
    let in_use = 1 + 3 * count.min(MOST_REGIONS + 1);
    let unused = state.regions[from..from + ENDPOINT_REGION_WORDS].iter().skip(in_use);
    if count > MOST_REGIONS || unused.into_iter().any(|word| *word != 0) {
        return None;
    }
    (0..count).map(region).collect()
}

fn attachment_of(state: &State, place: usize) -> Option<Option<Domain>> {
    match (state.attached[place], state.domains[place]) {
        (0, 0) => Some(None),
        (1, domain) => Some(Some(Domain(domain))),
        _ => None,
    }
}

fn mapping_of(words: &[u64]) -> Option<Mapping> {
    Some(Mapping {
        guest: Guest(u8::try_from(words[0] >> 32).ok()?),
        domain: Domain(words[0] as u32),
        virt_start: words[1],
        virt_end: words[2],
        phys_start: words[3],
        flags: u32::try_from(words[4]).ok()?,
    })
}

fn log_of(state: &State, guest: usize) -> Option<FaultLog> {
    let held = state.logged[guest];
    let fault = |n: usize| {
        let place = LOG_PLACES * guest + n;
        let reason = match state.reasons[place] {
            1 => Reason::Domain,
            2 => Reason::Mapping,
            _ => return None,
        };
        let direction = match state.flags[place] {
            0x101 => Direction::Read,
            0x102 => Direction::Write,
            _ => return None,
        };
        let (endpoint, address) = (Endpoint(state.sources[place]), state.addresses[place]);
        Some(Fault { reason, direction, endpoint, address })
    };
    let mut log = FaultLog::default();
    if held > LOG_PLACES || state.lost[guest] > 0xffff {
        return None;
    }
    log.faults = (0..held).map(fault).collect::<Option<_>>()?;
    Some(log)
}

fn unused_places_are_zero(state: &State) -> bool {
    let settings = &state.settings;
    let guests = (settings.guests..MOST_GUESTS).all(|guest| {
        let windows = settings.firsts[guest] | settings.lasts[guest];
        let counts = settings.shares[guest] | state.lost[guest];
        windows == 0 && counts == 0 && state.logged[guest] == 0
    });
    let endpoints = (state.listed..MOST_ENDPOINTS).all(|place| {
        let bytes = state.owners[place] | state.attached[place];
        let mut regions = state.regions[ENDPOINT_REGION_WORDS * place..].iter();
        (state.endpoints[place] | state.domains[place]) == 0
            && bytes == 0
            && regions.all(|word| *word == 0)
    });
    let faults = (0..MOST_GUESTS).all(|guest| {
        (0..LOG_PLACES).skip(state.logged[guest]).all(|n| {
            let place = LOG_PLACES * guest + n;
            let numbers = u32::from(state.reasons[place]) | state.flags[place];
            numbers == 0 && state.sources[place] == 0 && state.addresses[place] == 0
        })
    });
    guests && endpoints && faults
}
