//! Counts of the reserved regions met in journals: how many an endpoint has, their shapes, and what
//! makes them not good or a journal bad. They are counted in the records, since no line tells them.

use crate::fields::Fields;
use crate::journal::{self, body_bytes};
use crate::regions::{Region, MOST_REGIONS, MSI};
use std::collections::BTreeMap;
use std::fmt::{Display, Formatter, Result};

/// The cases, a line for each group.
pub const GROUPS: [(&str, &[&str]); 4] = [
    ("endpoints by regions", &["none", "one", "two or three", "four"]),
    ("shapes of regions", &["adjacent", "one address", "whole space", "equal of two endpoints"]),
    ("regions not good", &["address in two", "MSI twice", "subtype above 1", "start > end"]),
    ("bad journals by regions", &["fifth", "endpoint not named", "after start"]),
];

#[derive(Default)]
pub struct RegionCoverage {
    counts: BTreeMap<&'static str, u64>,
}

/// An endpoint's number, and the regions named for it.
type Named = (u32, Vec<Region>);

impl RegionCoverage {
    /// Counts the regions of a journal, and the one by which it is bad at this offset, if it is.
    pub fn add(&mut self, journal: &[u8], bad_at: Option<usize>) {
        let mut named: Vec<Named> = Vec::new();
        let (mut started, mut at) = (false, 0);
        while let Some((kind, body)) = record_at(journal, at) {
            let bad = bad_at == Some(at);
            let fields = Fields::new(body);
            match kind {
                journal::REGION => self.region(&mut named, fields, bad.then_some(started)),
                journal::ENDPOINT => named.push((number(fields), Vec::new())),
                journal::START if !bad => {
                    self.set_up(&named);
                    started = true;
                }
                _ => {}
            }
            if bad {
                return;
            }
            at += 1 + body.len();
        }
    }

    /// How often a case came.
    pub fn count(&self, case: &str) -> u64 {
        self.counts.get(case).copied().unwrap_or(0)
    }

    fn met(&mut self, case: &'static str) {
        *self.counts.entry(case).or_default() += 1;
    }

    /// Adds a region to the first endpoint of its number, or says why the journal is bad by it, as it
    /// is where it is told whether the start stands before.
    fn region(&mut self, named: &mut [Named], mut fields: Fields, bad_started: Option<bool>) {
        let endpoint = fields.u32();
        let region = Region { subtype: fields.u8(), start: fields.u64(), end: fields.u64() };
        let entry = named.iter_mut().find(|(number, _)| *number == endpoint);
        match (bad_started, entry) {
            (Some(true), _) => self.met("after start"),
            (Some(false), None) => self.met("endpoint not named"),
            (Some(false), Some(_)) => self.met("fifth"),
            (None, entry) => entry.into_iter().for_each(|(_, regions)| regions.push(region)),
        }
    }

    /// Counts the regions that a start finds.
    fn set_up(&mut self, named: &[Named]) {
        for (place, (_, regions)) in named.iter().enumerate() {
            let earlier = named[..place].iter().flat_map(|(_, others)| others);
            self.met(match regions.len() {
                0 => "none",
                1 => "one",
                MOST_REGIONS.. => "four",
                _ => "two or three",
            });
            if earlier.into_iter().any(|other| regions.contains(other)) {
                self.met("equal of two endpoints");
            }
            self.shapes(regions);
        }
    }

    /// Counts the cases of one endpoint's regions, each once.
    fn shapes(&mut self, regions: &[Region]) {
        let any = |test: fn(&Region) -> bool| regions.iter().any(test);
        let pair = |test: fn(&Region, &Region) -> bool| {
            let mut places = 0..regions.len();
            places.any(|n| regions[..n].iter().any(|other| test(other, &regions[n])))
        };
        let cases = [
            ("adjacent", pair(adjacent)),
            ("one address", any(|region| region.start == region.end)),
            ("whole space", any(|region| (region.start, region.end) == (0, u64::MAX))),
            ("address in two", pair(|one, other| one.meets(other.start, other.end))),
            ("MSI twice", pair(|one, other| (one.subtype, other.subtype) == (MSI, MSI))),
            ("subtype above 1", any(|region| region.subtype > MSI)),
            ("start > end", any(|region| region.start > region.end)),
        ];
        for (case, _) in cases.into_iter().filter(|(_, met)| *met) {
            self.met(case);
        }
    }
}

/// The kind and the body of the record at this offset, if it is whole.
fn record_at(journal: &[u8], at: usize) -> Option<(u8, &[u8])> {
    let kind = *journal.get(at)?;
    let body = journal.get(at + 1..at + 1 + body_bytes(kind)?)?;
    Some((kind, body))
}

fn number(mut fields: Fields) -> u32 {
    fields.u32()
}

/// Whether one region ends right before the other.
fn adjacent(one: &Region, other: &Region) -> bool {
    one.end.checked_add(1) == Some(other.start) || other.end.checked_add(1) == Some(one.start)
}

impl Display for RegionCoverage {
    fn fmt(&self, out: &mut Formatter) -> Result {
        for (group, cases) in GROUPS {
            write!(out, "{group}")?;
            for case in cases {
                write!(out, "  {case}: {}", self.count(case))?;
            }
            writeln!(out)?;
        }
        Ok(())
    }
}
