//! Addresses from small spaces, so that overlaps, hits and misses are frequent.

use crate::config::Configuration;
use crate::numbers::Guest;
use crate::random::Random;

/// The page granularity as a 64-bit number.
pub fn page(configuration: &Configuration) -> u64 {
    1 << configuration.page_size_mask.trailing_zeros()
}

/// The first multiple of the granularity from an address on; 0 after the last.
pub fn page_from(configuration: &Configuration, address: u64) -> u64 {
    let page = page(configuration);
    address.div_ceil(page).wrapping_mul(page)
}

/// The first address of the first whole page of the input range.
pub fn first_page(configuration: &Configuration) -> u64 {
    page_from(configuration, *configuration.input_range.start())
}

/// The first address of a page near the start of the input range.
fn page_start(random: &mut Random, configuration: &Configuration) -> u64 {
    let pages = random.below(12).wrapping_mul(page(configuration));
    first_page(configuration).wrapping_add(pages)
}

/// First and last address for a MAP: mostly whole pages, now and then on or past an edge.
pub fn to_map(random: &mut Random, configuration: &Configuration) -> (u64, u64) {
    let page = page(configuration);
    let start = page_start(random, configuration);
    // Two addresses is the least that can be mapped, so a granularity of 1 takes two pages.
    let fewest = if page == 1 { 2 } else { 1 };
    let pages = fewest + random.below(3);
    let end = start.wrapping_add(pages.wrapping_mul(page)).wrapping_sub(1);
    let input = &configuration.input_range;
    match random.below(60) {
        0 => (start.wrapping_add(1), end),
        1 => (start, end.wrapping_sub(1)),
        2 => (start, start),
        3 => (end, start),
        4 => (start, u64::MAX),
        5 => (0u64.wrapping_sub(pages.wrapping_mul(page)), u64::MAX),
        6 => (*input.start(), *input.end()),
        7 => (input.end().wrapping_sub(page).wrapping_add(1), *input.end()),
        8 => (start, input.end().wrapping_add(page)),
        9 => (input.start().wrapping_sub(page), end),
        10 => (start / 2, end),
        _ => (start, end),
    }
}

/// Where a MAP of this range is to land: mostly on a page of the guest's window, else off the
/// pages, just past the window, around 2^64, or in another's window.
pub fn to_land(
    random: &mut Random,
    configuration: &Configuration,
    guest: Guest,
    virt: (u64, u64),
) -> u64 {
    let Some(own) = configuration.guests.get(guest.place()) else {
        return random.number();
    };
    let page = page(configuration);
    let size_less_one = virt.1.wrapping_sub(virt.0);
    let at_the_end = own.window.end().wrapping_sub(size_less_one);
    let first_page = page_from(configuration, *own.window.start());
    match random.below(60) {
        0..=3 => at_the_end,
        4 => at_the_end.wrapping_add(1),
        5 => at_the_end.wrapping_add(page),
        6 => own.window.start().wrapping_sub(1),
        7 => u64::MAX - random.below(0x2000),
        8 => own.window.start().wrapping_sub(page),
        9 => *random.pick(&configuration.guests).window.start(),
        10..=14 => own.window.start().wrapping_add(random.below(0x800)),
        15 => own.window.start().wrapping_sub(page / 2),
        16 => *own.window.start(),
        17..=22 => first_page.wrapping_add(random.below(8).wrapping_mul(page)),
        23 => at_the_end / page * page,
        _ => first_page,
    }
}

/// A range around one that was mapped before: the same, wider, narrower, or shifted.
pub fn around(random: &mut Random, page: u64, virt: (u64, u64)) -> (u64, u64) {
    let (start, end) = virt;
    match random.below(12) {
        0..=3 => (start, end),
        4 => (start.saturating_sub(page), end.saturating_add(page)),
        5 => (start.saturating_sub(page.saturating_mul(3)), end),
        6 => (start, end.saturating_add(page.saturating_mul(3))),
        7 => (start.wrapping_add(1), end),
        8 => (start, end.wrapping_sub(1)),
        9 => (start.saturating_sub(1), start),
        10 => (end, end.saturating_add(1)),
        _ => (start, start),
    }
}

/// Any range near the start of the input range, for an UNMAP.
pub fn to_unmap(random: &mut Random, configuration: &Configuration) -> (u64, u64) {
    let one = page_start(random, configuration);
    let other = page_start(random, configuration);
    match random.below(10) {
        0 => (0, u64::MAX),
        1 => (one.max(other), one.min(other)),
        2 => (one, one),
        _ => (one.min(other), one.max(other).wrapping_sub(1)),
    }
}

/// One address in a range, at its ends, or just outside.
pub fn near(random: &mut Random, virt: (u64, u64)) -> u64 {
    let (start, end) = virt;
    match random.below(8) {
        0 | 1 => start,
        2 | 3 => end,
        4 => start.wrapping_sub(1),
        5 => end.wrapping_add(1),
        _ => start.wrapping_add(random.below(end.wrapping_sub(start).saturating_add(1).max(1))),
    }
}

/// Any address near the start of the input range, or at the ends of the space.
pub fn any(random: &mut Random, configuration: &Configuration) -> u64 {
    match random.below(12) {
        0 => u64::MAX,
        1 => 0,
        2 => *configuration.input_range.end(),
        _ => page_start(random, configuration).wrapping_add(random.below(0x1000)),
    }
}
