//! The five requests: their lengths, and what each but PROBE does, first failing step first.

use crate::answers::{Handled, Inval, Range, Refusal, Status};
use crate::device::Device;
use crate::faults::{READ, WRITE};
use crate::fields::Fields;
use crate::numbers::{Domain, Endpoint, Guest};
use crate::probe::PROPERTIES_BYTES;
use crate::table::Mapping;

/// The request types.
pub const ATTACH: u8 = 1;
pub const DETACH: u8 = 2;
pub const MAP: u8 = 3;
pub const UNMAP: u8 = 4;
pub const PROBE: u8 = 5;

/// The bytes of the head of the readable part, and of the tail of the writable part: a status and
/// three zeros.
const HEAD_BYTES: usize = 4;
pub const TAIL_BYTES: usize = 4;
/// The bytes of the writable part of PROBE.
pub const PROBE_BYTES: usize = PROPERTIES_BYTES + TAIL_BYTES;

/// The bytes of the readable and of the writable part of a type, if it is one of the five.
pub fn lengths(request_type: u8) -> Option<(usize, usize)> {
    match request_type {
        ATTACH | DETACH => Some((20, TAIL_BYTES)),
        MAP => Some((36, TAIL_BYTES)),
        UNMAP => Some((28, TAIL_BYTES)),
        PROBE => Some((72, PROBE_BYTES)),
        _ => None,
    }
}

/// The fields of ATTACH and DETACH.
struct Attachment {
    domain: Domain,
    endpoint: Endpoint,
    reserved: u64,
}

/// The fields of UNMAP.
struct Unmapping {
    domain: Domain,
    virt_start: u64,
    virt_end: u64,
    reserved: u32,
}

impl Device {
    /// Handles one request: writes its properties, if it has any, and its status.
    pub fn request(
        &mut self,
        guest: Guest,
        readable: &[u8],
        writable: &mut [u8],
    ) -> Result<Handled, Refusal> {
        self.check_guest(guest)?;
        self.check_sound()?;
        if readable.len() < HEAD_BYTES {
            return Err(Refusal::WrongLength);
        }
        let (to_read, to_write) = lengths(readable[0]).ok_or(Refusal::UnknownType)?;
        if (readable.len(), writable.len()) != (to_read, to_write) {
            return Err(Refusal::WrongLength);
        }
        let (properties, tail) = writable.split_at_mut(to_write - TAIL_BYTES);
        let fields = Fields::new(&readable[HEAD_BYTES..]);
        let outcome = match readable[0] {
            PROBE => self.probe(guest, fields, properties),
            kind => self.dispatch(guest, kind, fields),
        };
        let status = outcome.err().unwrap_or(Status::Ok);
        tail.copy_from_slice(&[status.byte(), 0, 0, 0]);
        Ok(Handled { used: to_write, status })
    }

    /// Takes the fields of a request that names a domain, and does it.
    fn dispatch(&mut self, guest: Guest, kind: u8, mut fields: Fields) -> Result<(), Status> {
        let domain = Domain(fields.u32());
        match kind {
            ATTACH => self.attach(guest, attachment(domain, fields)),
            DETACH => self.detach(guest, attachment(domain, fields)),
            MAP => self.map(mapping(guest, domain, fields)),
            _ => self.unmap(guest, unmapping(domain, fields)),
        }
    }

    fn attach(&mut self, guest: Guest, request: Attachment) -> Result<(), Status> {
        if request.reserved != 0 {
            return Err(Status::Inval(Inval::Fields));
        }
        let place = self.own_endpoint(guest, request.endpoint)?;
        if !self.configuration.domain_range.contains(&request.domain.0) {
            return Err(Status::Range(Range::Domain));
        }
        let before = self.attached[place];
        if before == Some(request.domain) {
            return Ok(());
        }
        if !self.records_keep_off(place, request.domain) {
            return Err(Status::Unsupp);
        }
        if let Some(domain) = before {
            self.leave(guest, place, domain);
        }
        self.attached[place] = Some(request.domain);
        Ok(())
    }

    fn detach(&mut self, guest: Guest, request: Attachment) -> Result<(), Status> {
        if request.reserved != 0 {
            return Err(Status::Inval(Inval::Fields));
        }
        let place = self.own_endpoint(guest, request.endpoint)?;
        if self.attached[place] != Some(request.domain) {
            return Err(Status::Inval(Inval::NotAttached));
        }
        self.leave(guest, place, request.domain);
        Ok(())
    }

    fn map(&mut self, mapping: Mapping) -> Result<(), Status> {
        let Mapping { guest, domain, virt_start, virt_end, phys_start, flags } = mapping;
        if !self.domain_exists(guest, domain) {
            return Err(Status::Noent);
        }
        if !flags_are_known(flags) {
            return Err(Status::Inval(Inval::Fields));
        }
        if !self.range_can_be_mapped(virt_start, virt_end) {
            return Err(Status::Range(Range::Virtual));
        }
        let lands = self.lands_in_window(&mapping);
        if !self.starts_a_page(phys_start) {
            let cause = if lands { Range::PhysInWindow } else { Range::PhysOutside };
            return Err(Status::Range(cause));
        }
        if !lands {
            return Err(Status::Fault);
        }
        if self.table.overlaps(guest, domain, &(virt_start..=virt_end)) {
            return Err(Status::Inval(Inval::Records));
        }
        if self.meets_a_region(&mapping) {
            return Err(Status::Inval(Inval::Regions));
        }
        let share = usize::from(self.configuration.guests[guest.place()].share);
        if self.table.of_guest(guest).len() >= share {
            return Err(Status::Nomem);
        }
        self.table.insert(mapping);
        Ok(())
    }

    fn unmap(&mut self, guest: Guest, request: Unmapping) -> Result<(), Status> {
        if !self.domain_exists(guest, request.domain) {
            return Err(Status::Noent);
        }
        if request.reserved != 0 {
            return Err(Status::Inval(Inval::Fields));
        }
        let range = request.virt_start..=request.virt_end;
        if range.end() < range.start() || self.table.straddles(guest, request.domain, &range) {
            return Err(Status::Range(Range::Virtual));
        }
        self.table.remove_inside(guest, request.domain, &range);
        Ok(())
    }

    /// Step 4 of MAP for virt_start and phys_start: the address is a multiple of g.
    pub(crate) fn starts_a_page(&self, address: u64) -> bool {
        address & (self.configuration.granularity() - 1) == 0
    }

    /// Steps 3 to 5 of MAP for the virtual addresses: more than one, whole pages, inside the input
    /// range. One more than a number is a multiple of g when the number's bits below g are all set.
    pub(crate) fn range_can_be_mapped(&self, virt_start: u64, virt_end: u64) -> bool {
        let below_page = self.configuration.granularity() - 1;
        let input = &self.configuration.input_range;
        virt_start < virt_end
            && self.starts_a_page(virt_start)
            && virt_end & below_page == below_page
            && *input.start() <= virt_start
            && virt_end <= *input.end()
    }

    /// Step 6 of MAP, after step 3: first and last physical address lie in the guest's window.
    /// The length is held against the room that is left, so no sum can pass 2^64.
    pub(crate) fn lands_in_window(&self, mapping: &Mapping) -> bool {
        let window = &self.configuration.guests[mapping.guest.place()].window;
        *window.start() <= mapping.phys_start
            && mapping.phys_start <= *window.end()
            && mapping.virt_end - mapping.virt_start <= *window.end() - mapping.phys_start
    }

    /// The place of an endpoint of this guest; one of another guest looks like an unlisted one.
    pub(crate) fn own_endpoint(&self, guest: Guest, endpoint: Endpoint) -> Result<usize, Status> {
        let own = |place: &usize| self.configuration.endpoints[*place].owner == guest;
        self.place_of(endpoint).filter(own).ok_or(Status::Noent)
    }

    /// A domain exists for a guest while at least one of its endpoints is attached to it.
    pub(crate) fn domain_exists(&self, guest: Guest, domain: Domain) -> bool {
        let mut listed = self.configuration.endpoints.iter().zip(&self.attached);
        listed.any(|(entry, attached)| entry.owner == guest && *attached == Some(domain))
    }

    /// Detaches the endpoint at this place; the last one to leave takes the domain's records.
    fn leave(&mut self, guest: Guest, place: usize, domain: Domain) {
        self.attached[place] = None;
        if !self.domain_exists(guest, domain) {
            self.table.remove_domain(guest, domain);
        }
    }
}

/// Step 2 of MAP: no flag bit other than READ and WRITE.
pub(crate) fn flags_are_known(flags: u32) -> bool {
    flags & !(READ | WRITE) == 0
}

/// Endpoint 4, reserved 8.
fn attachment(domain: Domain, mut fields: Fields) -> Attachment {
    Attachment { domain, endpoint: Endpoint(fields.u32()), reserved: fields.u64() }
}

/// virt_start 8, virt_end 8, phys_start 8, flags 4.
fn mapping(guest: Guest, domain: Domain, mut fields: Fields) -> Mapping {
    Mapping {
        guest,
        domain,
        virt_start: fields.u64(),
        virt_end: fields.u64(),
        phys_start: fields.u64(),
        flags: fields.u32(),
    }
}

/// virt_start 8, virt_end 8, reserved 4.
fn unmapping(domain: Domain, mut fields: Fields) -> Unmapping {
    Unmapping { domain, virt_start: fields.u64(), virt_end: fields.u64(), reserved: fields.u32() }
}
