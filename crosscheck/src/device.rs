//! The device's state: set-up, reset, fetch, and what the other calls ask of it.

use crate::answers::Refusal;
use crate::config::Configuration;
use crate::faults::FaultLog;
use crate::numbers::{Domain, Endpoint, Guest};
use crate::sound::SoundnessTest;
use crate::table::{Mapping, MappingTable};

pub struct Device {
    pub(crate) configuration: Configuration,
    /// For each listed endpoint, in list order, the domain it is attached to.
    pub(crate) attached: Vec<Option<Domain>>,
    pub(crate) table: MappingTable,
    /// One log per guest.
    pub(crate) logs: Vec<FaultLog>,
    pub(crate) soundness_test: SoundnessTest,
}

/// All that belongs to one guest, for comparing what two runs left it.
#[derive(Debug, PartialEq, Eq)]
pub struct Holdings {
    pub attachments: Vec<(Endpoint, Option<Domain>)>,
    pub mappings: Vec<Mapping>,
    pub log: Option<FaultLog>,
}

impl Device {
    /// Starts with all endpoints unattached, no record and empty logs.
    pub fn set_up(configuration: Configuration) -> Result<Self, Refusal> {
        if !configuration.is_good() {
            return Err(Refusal::BadConfiguration);
        }
        Ok(Device {
            attached: vec![None; configuration.endpoints.len()],
            table: MappingTable::default(),
            logs: vec![FaultLog::default(); configuration.guests.len()],
            configuration,
            soundness_test: SoundnessTest::EachCall,
        })
    }

    /// The state a refused set-up gives back: every number zero, so not sound.
    pub fn zeroed() -> Self {
        Device {
            configuration: Configuration::zeroed(),
            attached: Vec::new(),
            table: MappingTable::default(),
            logs: Vec::new(),
            soundness_test: SoundnessTest::EachCall,
        }
    }

    /// Detaches the guest's endpoints, takes its records, and empties its log and lost count.
    pub fn reset(&mut self, guest: Guest) -> Result<(), Refusal> {
        self.check_guest(guest)?;
        self.check_sound()?;
        let owners = self.configuration.endpoints.iter().map(|entry| entry.owner);
        for (attached, owner) in self.attached.iter_mut().zip(owners) {
            if owner == guest {
                *attached = None;
            }
        }
        self.table.remove_guest(guest);
        self.logs[guest.place()] = FaultLog::default();
        Ok(())
    }

    /// Moves the guest's oldest faults into the buffer and gives their number.
    pub fn fetch(&mut self, guest: Guest, buffer: &mut [u8]) -> Result<usize, Refusal> {
        self.check_guest(guest)?;
        self.check_sound()?;
        Ok(self.logs[guest.place()].fetch(buffer))
    }

    /// The owner of a listed endpoint.
    pub fn owner(&self, endpoint: Endpoint) -> Option<Guest> {
        let place = self.place_of(endpoint)?;
        Some(self.configuration.endpoints[place].owner)
    }

    /// What the guest holds now: its attachments, its records in table order, its log.
    pub fn holdings(&self, guest: Guest) -> Holdings {
        let listed = self.configuration.endpoints.iter().zip(&self.attached);
        Holdings {
            attachments: listed
                .filter(|(entry, _)| entry.owner == guest)
                .map(|(entry, attached)| (entry.endpoint, *attached))
                .collect(),
            mappings: self.table.of_guest(guest).to_vec(),
            log: self.logs.get(guest.place()).cloned(),
        }
    }

    /// Where the endpoint stands in the list.
    pub(crate) fn place_of(&self, endpoint: Endpoint) -> Option<usize> {
        let listed = &self.configuration.endpoints;
        listed.iter().position(|entry| entry.endpoint == endpoint)
    }

    /// A guest is known when its number is below the guest count.
    pub(crate) fn check_guest(&self, guest: Guest) -> Result<(), Refusal> {
        if guest.place() < self.configuration.guests.len() {
            Ok(())
        } else {
            Err(Refusal::NoSuchGuest)
        }
    }
}
