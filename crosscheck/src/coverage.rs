//! Counts of the answers and regions met, to show that the journals reach all of them.

mod regions;

use crate::answers::{Inval, Range, Status};
use crate::compare::{Played, PlayedLine};
use crate::journal::LineKind;
use crate::requests::{ATTACH, DETACH, MAP, PROBE, UNMAP};
use std::collections::BTreeMap;
use std::fmt::{Display, Formatter, Result};

pub use regions::{RegionCoverage, GROUPS};

/// The calls by the letter of their line, and the request types and statuses by name.
const LETTERS: [&str; 5] = ["S", "R", "Z", "F", "A"];
const REQUESTS: [(u8, &str); 5] =
    [(ATTACH, "ATTACH"), (DETACH, "DETACH"), (MAP, "MAP"), (UNMAP, "UNMAP"), (PROBE, "PROBE")];
const STATUSES: [(u8, &str); 7] = [
    (0, "OK"),
    (2, "UNSUPP"),
    (4, "INVAL"),
    (5, "RANGE"),
    (6, "NOENT"),
    (7, "FAULT"),
    (8, "NOMEM"),
];

#[derive(Default)]
pub struct Coverage {
    /// How often each number came on a line of each letter.
    numbers: BTreeMap<(String, u8), u64>,
    /// How often each status came for each request type.
    statuses: BTreeMap<(u8, u8), u64>,
    /// How often each status came for MAP, by the cause of INVAL and RANGE.
    map_statuses: BTreeMap<Status, u64>,
    properties: u64,
    fault_records: u64,
    ends: u64,
    bad_journals: u64,
    regions: RegionCoverage,
}

impl Coverage {
    /// Counts a journal's regions and the lines that the second program prints for it.
    pub fn add_played(&mut self, journal: &[u8], played: &Played) {
        let bad = |line: &PlayedLine| line.text.strip_prefix("bad journal at ")?.parse().ok();
        self.regions.add(journal, played.lines.last().and_then(bad));
        for line in &played.lines {
            self.add(line.kind, &line.text);
        }
    }

    /// Counts one line.
    fn add(&mut self, kind: LineKind, text: &str) {
        match kind {
            LineKind::End => self.ends += 1,
            LineKind::BadJournal => self.bad_journals += 1,
            LineKind::FaultRecord => self.fault_records += 1,
            LineKind::Properties => self.properties += 1,
            _ => self.add_answer(kind, text),
        }
    }

    /// The letter and number of a call's line, and the status of a handled request.
    fn add_answer(&mut self, kind: LineKind, text: &str) {
        let words: Vec<&str> = text.split(' ').collect();
        let number = words[1].parse().expect("a call's line gives a number");
        *self.numbers.entry((words[0].to_string(), number)).or_default() += 1;
        if let LineKind::Request(request_type, Some(status)) = kind {
            *self.statuses.entry((request_type, status.byte())).or_default() += 1;
            if request_type == MAP {
                *self.map_statuses.entry(status).or_default() += 1;
            }
        }
    }

    /// How often this status came for MAP, for this cause.
    pub fn map_status(&self, status: Status) -> u64 {
        self.map_statuses.get(&status).copied().unwrap_or(0)
    }

    /// How many lines of properties came.
    pub fn properties(&self) -> u64 {
        self.properties
    }

    /// How often this number came on lines of this letter.
    pub fn number(&self, letter: &str, number: u8) -> u64 {
        self.numbers.get(&(letter.to_string(), number)).copied().unwrap_or(0)
    }

    /// How often this status came for this request type.
    pub fn status(&self, request_type: u8, status: u8) -> u64 {
        self.statuses.get(&(request_type, status)).copied().unwrap_or(0)
    }

    /// The counts of regions.
    pub fn regions(&self) -> &RegionCoverage {
        &self.regions
    }

    pub fn bad_journals(&self) -> u64 {
        self.bad_journals
    }
}

impl Display for Coverage {
    fn fmt(&self, out: &mut Formatter) -> Result {
        for letter in LETTERS {
            write!(out, "{letter}")?;
            let of_letter = self.numbers.iter().filter(|((of, _), _)| of == letter);
            for ((_, number), count) in of_letter {
                write!(out, "  {number}: {count}")?;
            }
            writeln!(out)?;
        }
        for (status, name) in STATUSES {
            let counts = REQUESTS.map(|(of, request)| (request, self.status(of, status)));
            let sum: u64 = counts.iter().map(|(_, count)| count).sum();
            write!(out, "{name}  {sum} =")?;
            for (request, count) in counts {
                write!(out, "  {request} {count}")?;
            }
            writeln!(out)?;
        }
        let [fields, records, regions] = [Inval::Fields, Inval::Records, Inval::Regions]
            .map(|cause| self.map_status(Status::Inval(cause)));
        writeln!(out, "INVAL of MAP  flags: {fields}  records: {records}  regions: {regions}")?;
        let [virt, inside, outside] = [Range::Virtual, Range::PhysInWindow, Range::PhysOutside]
            .map(|cause| self.map_status(Status::Range(cause)));
        writeln!(out, "RANGE of MAP  virtual: {virt}")?;
        writeln!(out, "RANGE of MAP by phys_start  in the window: {inside}  outside: {outside}")?;
        writeln!(out, "fault records  {}, properties  {}", self.fault_records, self.properties)?;
        write!(out, "{}", self.regions)?;
        write!(out, "read to the end  {}, bad journals  {}", self.ends, self.bad_journals)
    }
}
