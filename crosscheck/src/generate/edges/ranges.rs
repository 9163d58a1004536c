//! Edges of addresses, granularity and domain numbers.

use super::{Script, DOMAIN, ENDPOINT, GUEST};
use crate::generate::{addresses, setup};
use crate::numbers::Domain;
use crate::random::Random;
use crate::record::Record;

/// Ranges that end at 2^64 - 1, with every granularity and with the input range ending there
/// or just before.
pub fn top_of_space(random: &mut Random) -> Script {
    let mut configuration = setup::plain();
    configuration.page_size_mask = random.pick(&setup::MASKS);
    configuration.guests[0].window = 0..=u64::MAX;
    let page = addresses::page(&configuration);
    let size = page.wrapping_mul(1 + random.below(3)).max(2);
    let start = 0u64.wrapping_sub(size);
    if random.chance(20) {
        configuration.input_range = 0..=u64::MAX - random.pick(&[1, page]);
    }
    let phys = random.pick(&[0, 1, start, start.wrapping_add(1), start.wrapping_sub(page)]);
    let calls = vec![
        Record::attach(GUEST, DOMAIN, ENDPOINT),
        Record::map(GUEST, DOMAIN, (start, u64::MAX - 1), phys, 3),
        Record::map(GUEST, DOMAIN, (start.wrapping_add(1), u64::MAX), phys, 3),
        Record::map(GUEST, DOMAIN, (start, u64::MAX), phys, 3),
        Record::read(ENDPOINT, u64::MAX),
        Record::write(ENDPOINT, start),
        Record::read(ENDPOINT, start.wrapping_sub(1)),
        Record::map(GUEST, DOMAIN, (start.wrapping_sub(page), start.wrapping_sub(1)), 0, 1),
        Record::unmap(GUEST, DOMAIN, (start, u64::MAX - random.below(2))),
        Record::read(ENDPOINT, u64::MAX),
        Record::map(GUEST, DOMAIN, (0, u64::MAX), random.below(2), 3),
        Record::write(ENDPOINT, u64::MAX),
        Record::unmap(GUEST, DOMAIN, (u64::MAX, u64::MAX)),
        Record::unmap(GUEST, DOMAIN, (0, u64::MAX)),
        Record::write(ENDPOINT, u64::MAX),
        Record::Fetch { guest: GUEST, asked: 16 },
    ];
    (configuration, calls)
}

/// Physical ranges that end at the window's end, one address past it, one page past it, and
/// that begin before it.
pub fn end_of_window(random: &mut Random) -> Script {
    let mut configuration = setup::plain();
    configuration.page_size_mask = random.pick(&[0x1000, 1, 0x10]);
    let first = random.pick(&[0x8000_0000, 0, 0x1234, u64::MAX - 0x4fff]);
    let last = first + 0x4fff;
    configuration.guests[0].window = first..=last;
    let page = addresses::page(&configuration);
    let size = 0x1000 * (1 + random.below(5));
    let at_the_end = last - (size - 1);
    let mut places = vec![
        at_the_end,
        at_the_end.wrapping_add(1),
        at_the_end.wrapping_add(page),
        first,
        first.wrapping_sub(1),
        first.wrapping_sub(page),
        last,
        last.wrapping_add(1),
        addresses::page_from(&configuration, first),
    ];
    random.shuffle(&mut places);
    let mut calls = vec![Record::attach(GUEST, DOMAIN, ENDPOINT)];
    for phys in places {
        calls.push(Record::map(GUEST, DOMAIN, (0x2000, 0x2000 + size - 1), phys, 3));
        calls.push(Record::read(ENDPOINT, 0x2000 + size - 1));
        calls.push(Record::unmap(GUEST, DOMAIN, (0, u64::MAX)));
    }
    (configuration, calls)
}

/// Physical sums past 2^64 that would come back into the window if they wrapped.
pub fn wrapping_sums(random: &mut Random) -> Script {
    let mut configuration = setup::plain();
    let first = random.pick(&[0, 0x1000, 0x8000_0000]);
    configuration.guests[0].window = first..=u64::MAX;
    configuration.page_size_mask = random.pick(&[0x1000, 1]);
    let page = addresses::page(&configuration);
    let mut calls = vec![Record::attach(GUEST, DOMAIN, ENDPOINT)];
    for _ in 0..1 + random.below(12) {
        let virt = match random.below(3) {
            0 => (0, u64::MAX),
            1 => (0x1000, 0x1000 * (2 + random.below(4)) - 1),
            _ => (0x1000, 0xffff_ffff_ffff_efff),
        };
        let phys = match random.below(4) {
            0 => first.wrapping_add(random.below(0x3000)),
            1 => u64::MAX - (virt.1 - virt.0),
            2 => (u64::MAX - (virt.1 - virt.0)).wrapping_add(1),
            _ => u64::MAX - random.below(0x5000),
        };
        let phys = if random.chance(75) { phys / page * page } else { phys };
        calls.push(Record::map(GUEST, DOMAIN, virt, phys, 3));
        calls.push(Record::read(ENDPOINT, virt.1));
        calls.push(Record::write(ENDPOINT, virt.0));
        calls.push(Record::unmap(GUEST, DOMAIN, virt));
    }
    (configuration, calls)
}

/// Only the lowest bit of a mask counts: multiples of it pass, of half of it do not.
pub fn several_mask_bits(random: &mut Random) -> Script {
    let mut configuration = setup::plain();
    let lowest = 1u64 << random.below(24);
    let higher = random.number() & !(lowest | (lowest - 1));
    configuration.page_size_mask = lowest | higher;
    configuration.guests[0].share = 32;
    let mut calls = vec![Record::attach(GUEST, DOMAIN, ENDPOINT)];
    for _ in 0..random.below(24) {
        let step = random.pick(&[lowest, lowest, lowest * 2, (lowest / 2).max(1)]);
        let start = step * random.below(24);
        let end = start + step * (1 + random.below(3)) - 1;
        let phys = 0x8000_0000 + random.pick(&[0, 0, lowest, lowest * 3, lowest / 2, 1]);
        calls.push(Record::map(GUEST, DOMAIN, (start, end), phys, 3));
        calls.push(Record::read(ENDPOINT, end));
    }
    (configuration, calls)
}

/// phys_start on a page, within one and at its last address, inside the window and outside it,
/// in windows whose ends are those of pages or not.
pub fn physical_starts(random: &mut Random) -> Script {
    let mut configuration = setup::plain();
    configuration.page_size_mask = random.pick(&[0x1000, 0x3000, 0x4020_1000, 0x10, 1]);
    configuration.guests[0].share = 32;
    let page = addresses::page(&configuration);
    let first = 0x8000_0000 + random.pick(&[0, 1, page / 2]);
    let last = first + random.pick(&[0x8fff, 0x87ff, 0x8ffe]);
    configuration.guests[0].window = first..=last;
    let mut calls = vec![Record::attach(GUEST, DOMAIN, ENDPOINT)];
    for start in (0..random.below(24)).map(|place| place * 0x1000) {
        let near = random.pick(&[0x7000_0000, first - page, 0x8000_4000, last - 0xfff, last + 1]);
        let phys = near / page * page + random.pick(&[0, 0, page, page / 2, page - 1, 1]);
        calls.push(Record::map(GUEST, DOMAIN, (start, start + 0xfff), phys, 3));
        calls.push(Record::read(ENDPOINT, start));
    }
    (configuration, calls)
}

/// Domains at both ends of the range and just outside.
pub fn domain_range(random: &mut Random) -> Script {
    let mut configuration = setup::plain();
    configuration.domain_range =
        random.pick(&[1..=15, 0..=0, 5..=5, 0..=u32::MAX, u32::MAX - 1..=u32::MAX]);
    let (start, end) = (*configuration.domain_range.start(), *configuration.domain_range.end());
    let mut domains = vec![start, end, start.wrapping_sub(1), end.wrapping_add(1), 0];
    random.shuffle(&mut domains);
    let mut calls = Vec::new();
    for domain in domains.into_iter().map(Domain) {
        calls.push(Record::detach(GUEST, domain, ENDPOINT));
        calls.push(Record::attach(GUEST, domain, ENDPOINT));
        calls.push(Record::map(GUEST, domain, (0, 0xfff), 0x8000_0000, 3));
        calls.push(Record::read(ENDPOINT, 0x10));
        calls.push(Record::unmap(GUEST, domain, (0, 0xfff)));
    }
    (configuration, calls)
}

/// Ranges that touch both ends of the input range and go one page past them.
pub fn input_range(random: &mut Random) -> Script {
    let mut configuration = setup::plain();
    configuration.page_size_mask = random.pick(&[0x1000, 1, 0x10]);
    let (first, last) = random.pick(&[
        (0x1000, 0x8fff),
        (0x1001, 0x8ffe),
        (0, 0xfff),
        (0x2000, 0x2000),
        (u64::MAX - 0x1fff, u64::MAX),
    ]);
    configuration.input_range = first..=last;
    let page = addresses::page(&configuration);
    let starts = [first, first.wrapping_sub(page), first.wrapping_add(page), first & !0xfff];
    let ends = [last, last.wrapping_add(page), last.wrapping_sub(page), last | 0xfff];
    let mut calls = vec![Record::attach(GUEST, DOMAIN, ENDPOINT)];
    for _ in 0..random.below(20) {
        let virt = (random.pick(&starts), random.pick(&ends));
        calls.push(Record::map(GUEST, DOMAIN, virt, 0x8000_0000, 3));
        calls.push(Record::read(ENDPOINT, virt.0));
        calls.push(Record::write(ENDPOINT, virt.1));
        calls.push(Record::unmap(GUEST, DOMAIN, (0, u64::MAX)));
    }
    (configuration, calls)
}
