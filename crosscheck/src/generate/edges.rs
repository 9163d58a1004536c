//! Journals on the edges of the rules, each about one of them.

mod life;
mod ranges;
mod regions;

use super::set_up;
use crate::config::Configuration;
use crate::numbers::{Domain, Endpoint, Guest};
use crate::random::Random;
use crate::record::Record;

/// The plain set-up's guest, endpoint and domain.
const GUEST: Guest = Guest(0);
const ENDPOINT: Endpoint = Endpoint(8);
const DOMAIN: Domain = Domain(1);

/// A set-up and the calls after it.
type Script = (Configuration, Vec<Record>);

/// A journal about one edge.
pub fn journal(random: &mut Random) -> Vec<Record> {
    let edges: [fn(&mut Random) -> Script; 16] = [
        ranges::top_of_space,
        ranges::end_of_window,
        ranges::wrapping_sums,
        ranges::several_mask_bits,
        ranges::physical_starts,
        ranges::domain_range,
        ranges::input_range,
        life::shares_of_256,
        life::nothing_to_hold,
        life::moves,
        life::straddlers,
        life::straddlers,
        life::full_log,
        regions::kept_off,
        regions::kept_off,
        regions::kept_off,
    ];
    let (configuration, calls) = random.pick(&edges)(random);
    let mut records = set_up(random, &configuration);
    records.extend(calls);
    records
}
