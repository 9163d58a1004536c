//! Numbers of flat places changed at random.

use crate::config::{MOST_ENDPOINTS, MOST_GUESTS};
use crate::faults::LOG_PLACES;
use crate::places::{State, ENDPOINT_REGION_WORDS, RECORD_WORDS, TABLE_WORDS};
use crate::random::Random;

/// One to three changes.
pub fn change(random: &mut Random, state: &mut State, table: &mut [u64]) {
    for _ in 0..=random.below(3) {
        if random.chance(60) {
            change_state(random, state);
        } else {
            change_table(random, state.live, table);
        }
    }
}

/// Another number in the place of this one: near it, one bit away, small, or one of the limits.
fn other_number(random: &mut Random, number: u64) -> u64 {
    match random.below(6) {
        0 => number.wrapping_add(1),
        1 => number.wrapping_sub(1),
        2 => number ^ 1 << random.below(64),
        3 => number ^ 1 << random.below(5),
        4 => random.below(20),
        _ => random.pick(&[32, 33, 256, 257, 65_535, 65_536, u64::from(u32::MAX), u64::MAX]),
    }
}

/// Changes some number of the state.
fn change_state(random: &mut Random, state: &mut State) {
    macro_rules! change {
        ($number:expr) => {{
            let number = &mut $number;
            *number = other_number(random, *number as u64) as _;
        }};
    }
    let (guest, endpoint) = (random.place(MOST_GUESTS), random.place(MOST_ENDPOINTS));
    let fault = LOG_PLACES * guest + random.place(LOG_PLACES);
    let settings = &mut state.settings;
    match random.below(23) {
        0 => change!(settings.guests),
        1 => change!(settings.shares[guest]),
        2 => change!(settings.firsts[guest]),
        3 => change!(settings.lasts[guest]),
        4 => change!(settings.mask),
        5 => change!(settings.input.start),
        6 => change!(settings.input.end),
        7 => change!(settings.domains.start),
        8 => change!(settings.domains.end),
        9 => change!(state.listed),
        10 => change!(state.endpoints[endpoint]),
        11 => change!(state.owners[endpoint]),
        12 => change!(state.attached[endpoint]),
        13 => change!(state.domains[endpoint]),
        14 => change!(state.live),
        15 => change!(state.logged[guest]),
        16 => change!(state.lost[guest]),
        17 => change!(state.reasons[fault]),
        18 => change!(state.flags[fault]),
        20 => change!(state.regions[random.place(state.regions.len())]),
        21 | 22 => change_regions(random, state),
        _ if random.chance(50) => change!(state.sources[fault]),
        _ => change!(state.addresses[fault]),
    }
}

/// Changes a word of a listed endpoint's regions, mostly one of those that has some, or takes the
/// regions of another endpoint for its own.
fn change_regions(random: &mut Random, state: &mut State) {
    let listed = state.listed.clamp(1, MOST_ENDPOINTS);
    let has_some = |place: &usize| state.regions[ENDPOINT_REGION_WORDS * place] > 0;
    let mut places: Vec<usize> = (0..listed).filter(has_some).collect();
    places.push(random.place(listed));
    let from = ENDPOINT_REGION_WORDS * random.pick(&places);
    let other = ENDPOINT_REGION_WORDS * random.place(listed);
    if random.chance(20) {
        state.regions.copy_within(other..other + ENDPOINT_REGION_WORDS, from);
        return;
    }
    let word = &mut state.regions[from + random.place(ENDPOINT_REGION_WORDS)];
    *word = other_number(random, *word);
}

/// Changes a word of the table, mostly one of a live record, or takes one record for another.
fn change_table(random: &mut Random, live: usize, table: &mut [u64]) {
    let near = RECORD_WORDS * (live.min(TABLE_WORDS / RECORD_WORDS - 1) + 1);
    let among = if random.chance(90) { near } else { TABLE_WORDS };
    let place = random.place(among);
    let from = place / RECORD_WORDS * RECORD_WORDS;
    match random.below(8) {
        0 if from > 0 => table.copy_within(from - RECORD_WORDS..from, from),
        1 if from > 0 => table[from - RECORD_WORDS..from + RECORD_WORDS].rotate_left(RECORD_WORDS),
        _ => table[place] = other_number(random, table[place]),
    }
}
