//! The test that state and table are sound, which stands before every call but set-up.
//!
//! Some clauses hold by the form of this state, and there is nothing to test about them: its lists
//! have no unused places and its table no words beyond the live records that could be other than
//! zero; an unattached endpoint has no domain; a lost count has 16 bits; reason, flags and zeros of
//! a fault follow from its type.

use crate::answers::Refusal;
use crate::config::{is_among, MOST_ENDPOINTS, MOST_GUESTS, MOST_RECORDS};
use crate::device::Device;
use crate::faults::{FaultLog, LOG_PLACES};
use crate::numbers::{Endpoint, Guest};
use crate::requests::flags_are_known;
use crate::table::Mapping;

#[cfg(test)]
pub(crate) mod tests;

/// When state and table are tested.
#[derive(Clone, Copy, Debug, PartialEq, Eq)]
pub enum SoundnessTest {
    /// Before each call, as document 01 asks.
    EachCall,
    /// Not again after an accepted set-up, since the calls keep a sound state sound: only to
    /// measure what the test costs.
    SetUpAlone,
}

impl Device {
    /// The same device with its soundness tested at these times.
    pub fn with_test(self, soundness_test: SoundnessTest) -> Self {
        Device { soundness_test, ..self }
    }

    pub(crate) fn check_sound(&self) -> Result<(), Refusal> {
        if self.soundness_test == SoundnessTest::SetUpAlone || self.is_sound() {
            Ok(())
        } else {
            Err(Refusal::NotSound)
        }
    }

    /// Whether state and table are sound.
    pub fn is_sound(&self) -> bool {
        self.configuration.is_good()
            && self.attachments_are_sound()
            && self.records_are_sound()
            && self.all_records_keep_off()
            && self.logs_are_sound()
    }

    /// Each listed endpoint has its attachment, and an attached one's domain is in the range.
    fn attachments_are_sound(&self) -> bool {
        let range = &self.configuration.domain_range;
        self.attached.len() == self.configuration.endpoints.len()
            && self.attached.iter().flatten().all(|domain| range.contains(&domain.0))
    }

    /// At most 256 records, each of which MAP would take and which stands after the one before,
    /// and no guest with more than its share. One pass, since of ordered records that overlap two
    /// neighbours do.
    fn records_are_sound(&self) -> bool {
        let records = &self.table.records;
        if records.len() > MOST_RECORDS as usize {
            return false;
        }
        let mut held = [0; MOST_GUESTS];
        let mut before = None;
        for record in records {
            if !self.stands_after(before, record) || !self.could_be_mapped(record) {
                return false;
            }
            held[record.guest.place()] += 1;
            before = Some(record);
        }
        self.configuration.guests.iter().zip(held).all(|(guest, held)| held <= guest.share)
    }

    /// The guest is known, and the record comes after the one before, without overlap. Step 1 of
    /// MAP, the domain exists, needs asking only of the first record of a domain.
    fn stands_after(&self, before: Option<&Mapping>, record: &Mapping) -> bool {
        let key = |record: &Mapping| (record.guest, record.domain);
        match before {
            Some(before) if key(before) == key(record) => before.virt_end < record.virt_start,
            Some(before) if key(before) > key(record) => false,
            _ => {
                self.check_guest(record.guest).is_ok()
                    && self.domain_exists(record.guest, record.domain)
            }
        }
    }

    /// Steps 2 to 6 of MAP.
    fn could_be_mapped(&self, record: &Mapping) -> bool {
        flags_are_known(record.flags)
            && self.range_can_be_mapped(record.virt_start, record.virt_end)
            && self.starts_a_page(record.phys_start)
            && self.lands_in_window(record)
    }

    /// Each guest has its log.
    fn logs_are_sound(&self) -> bool {
        let guests = (0..).map(Guest);
        self.logs.len() == self.configuration.guests.len()
            && self.logs.iter().zip(guests).all(|(log, guest)| self.log_is_sound(log, guest))
    }

    /// At most 16 faults, each of an endpoint of the guest. The guest's endpoints are gathered
    /// once, so that a fault is looked up among those alone.
    fn log_is_sound(&self, log: &FaultLog, guest: Guest) -> bool {
        let mut own = [Endpoint(0); MOST_ENDPOINTS];
        let mut count = 0;
        for entry in &self.configuration.endpoints {
            own[count] = entry.endpoint;
            count += usize::from(entry.owner == guest);
        }
        let own = &own[..count];
        log.faults.len() <= LOG_PLACES
            && log.faults.iter().all(|fault| is_among(fault.endpoint, own.iter().copied()))
    }
}
