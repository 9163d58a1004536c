//! Sound set-ups, small and on the edges.

use super::regions;
use crate::config::{Configuration, GuestShare, ListedEndpoint};
use crate::numbers::{Endpoint, Guest};
use crate::random::Random;
use std::ops::RangeInclusive;

/// Masks with one bit, with several, and with the lowest and the highest bit alone.
pub const MASKS: [u64; 14] = [
    0x1000,
    0x1000,
    0x1000,
    1,
    1,
    3,
    0x10,
    0x4020_1000,
    0x20_0000,
    0xffff_ffff_ffff_f000,
    0x8000_0000_0000_1000,
    0x8000_0000_0000_0000,
    0xc000_0000_0000_0000,
    u64::MAX,
];

/// Domain ranges of any size, at both ends of the space too.
const DOMAIN_RANGES: [RangeInclusive<u32>; 7] =
    [1..=15, 1..=15, 0..=3, 0..=u32::MAX, 0..=0, 7..=8, u32::MAX - 1..=u32::MAX];

/// A good configuration of one to four guests.
pub fn sound(random: &mut Random) -> Configuration {
    let count = 1 + random.below(4);
    sound_for(random, count)
}

/// A good configuration of this many guests.
pub fn sound_for(random: &mut Random, count: u64) -> Configuration {
    let page_size_mask = random.pick(&MASKS);
    let shares = shares(random, count);
    let windows = windows(random, count);
    let guests = shares.into_iter().zip(windows);
    let mut configuration = Configuration {
        guests: guests.map(|(share, window)| GuestShare { share, window }).collect(),
        endpoints: endpoints(random, count),
        page_size_mask,
        input_range: input_range(random, page_size_mask),
        domain_range: random.pick(&DOMAIN_RANGES),
    };
    regions::add(random, &mut configuration);
    configuration
}

/// One guest with one endpoint, wide ranges and a page granularity of 0x1000: a plain base.
pub fn plain() -> Configuration {
    Configuration {
        guests: vec![GuestShare { share: 4, window: 0x8000_0000..=0x8fff_ffff }],
        endpoints: vec![ListedEndpoint::new(Endpoint(8), Guest(0))],
        page_size_mask: 0x1000,
        input_range: 0..=u64::MAX,
        domain_range: 1..=15,
    }
}

/// Few records each, or shares that sum to exactly 256, or none for somebody.
fn shares(random: &mut Random, count: u64) -> Vec<u16> {
    let few = |random: &mut Random| random.below(4) as u16;
    let mut shares: Vec<u16> = (0..count).map(|_| 1 + few(random)).collect();
    let place = random.place(shares.len());
    match random.below(8) {
        0 => shares.fill((256 / count) as u16),
        1 => shares[place] += 256 - shares.iter().sum::<u16>(),
        2 => shares[place] = 0,
        3 => shares.iter_mut().for_each(|share| *share += 8),
        _ => {}
    }
    shares
}

/// Windows apart from each other, in any order.
fn windows(random: &mut Random, count: u64) -> Vec<RangeInclusive<u64>> {
    let style = random.below(6);
    let window = |place: u64| match style {
        0 => place * 0x4000..=place * 0x4000 + 0x3fff,
        1 => u64::MAX - place * 0x8000 - 0x7fff..=u64::MAX - place * 0x8000,
        2 => 7 + place * 0x1_0001..=place * 0x1_0001 + 0x9003,
        // All of the space but what the others have.
        3 if place + 1 == count => place * 0x1_0000..=u64::MAX,
        3 => place * 0x1_0000..=place * 0x1_0000 + 0xffff,
        _ => 0x8000_0000 + place * 0x1000_0000..=0x8fff_ffff + place * 0x1000_0000,
    };
    let mut windows: Vec<_> = (0..count).map(window).collect();
    random.shuffle(&mut windows);
    windows
}

/// None, a few, or all 32; an odd step between the numbers keeps them different.
fn endpoints(random: &mut Random, count: u64) -> Vec<ListedEndpoint> {
    let length = match random.below(20) {
        0 => 0,
        1 | 2 => 32,
        _ => count + random.below(8),
    };
    let base = random.pick(&[0, 8, 8, u32::MAX - 2]);
    let step = random.pick(&[1, 1, 3, 0x0800_0001]);
    let by_turns = random.chance(70);
    let mut entry = |place: u64| {
        let owner = if by_turns { place % count } else { random.below(count) };
        let endpoint = base.wrapping_add(step * place as u32);
        ListedEndpoint::new(Endpoint(endpoint), Guest(owner as u8))
    };
    (0..length).map(&mut entry).collect()
}

/// The whole space, or a part with edges near the addresses that the calls use.
fn input_range(random: &mut Random, mask: u64) -> RangeInclusive<u64> {
    let page: u64 = 1 << mask.trailing_zeros();
    match random.below(10) {
        0 => page..=page.saturating_mul(8),
        1 => 1..=page.saturating_mul(12) - 1,
        2 => u64::MAX - 0xffff..=u64::MAX,
        3 => 0..=page.saturating_mul(6) - 1,
        4 => 0x1000..=0x1000,
        5 | 6 => 0..=0xffff_ffff,
        _ => 0..=u64::MAX,
    }
}
