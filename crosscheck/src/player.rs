//! What each journal record does and prints.

mod lists;

use crate::answers::{Handled, Refusal};
use crate::config::Configuration;
use crate::device::Device;
use crate::faults::{Direction, FAULT_BYTES, LOG_PLACES};
use crate::fields::Fields;
use crate::journal::{self, Line, LineKind};
use crate::numbers::{Endpoint, Guest};
use crate::requests::{PROBE_BYTES, TAIL_BYTES};
use crate::sound::SoundnessTest;
use lists::Lists;
use std::fmt::{Arguments, Write};
use std::io;

/// A journal under way: the set-up gathered so far, and the device from the start on.
pub struct Player<P> {
    lists: Lists,
    device: Option<Device>,
    soundness_test: SoundnessTest,
    text: String,
    print: P,
}

impl<P: FnMut(Line) -> io::Result<()>> Player<P> {
    pub fn new(soundness_test: SoundnessTest, print: P) -> Self {
        Player { lists: Lists::default(), device: None, soundness_test, text: String::new(), print }
    }

    /// The device as the journal left it; without a start it has every number zero.
    pub fn into_device(self) -> Device {
        self.device.unwrap_or_else(Device::zeroed)
    }

    /// Prints one line.
    pub fn say(&mut self, kind: LineKind, owner: Option<Guest>, text: Arguments) -> io::Result<()> {
        self.text.clear();
        self.text.write_fmt(text).expect("writing to a string");
        (self.print)(Line { kind, owner, text: &self.text })
    }

    /// Does one whole record; false when it makes the journal bad, and then nothing is printed.
    pub fn play(&mut self, kind: u8, body: &[u8]) -> io::Result<bool> {
        let fields = Fields::new(body);
        match kind {
            journal::GUEST => Ok(self.device.is_none() && self.lists.guest(fields)),
            journal::ENDPOINT => Ok(self.device.is_none() && self.lists.endpoint(fields)),
            journal::REGION => Ok(self.device.is_none() && self.lists.region(fields)),
            journal::START => self.start(fields),
            journal::REQUEST_20 | journal::REQUEST_28 | journal::REQUEST_36 => {
                self.request(fields, TAIL_BYTES)
            }
            journal::REQUEST_72 => self.request(fields, PROBE_BYTES),
            journal::ACCESS => self.access(fields),
            journal::RESET => self.reset(fields),
            journal::FETCH => self.fetch(fields),
            _ => Ok(false),
        }
    }

    /// Mask 8, input range 8 + 8, domain range 4 + 4; a refused start is a start too.
    fn start(&mut self, mut fields: Fields) -> io::Result<bool> {
        if self.device.is_some() {
            return Ok(false);
        }
        let Lists { guests, endpoints } = std::mem::take(&mut self.lists);
        let set_up = Device::set_up(Configuration {
            guests,
            endpoints,
            page_size_mask: fields.u64(),
            input_range: fields.u64()..=fields.u64(),
            domain_range: fields.u32()..=fields.u32(),
        });
        let number = number(&set_up);
        let set_up = set_up.map(|device| device.with_test(self.soundness_test));
        self.device = Some(set_up.unwrap_or_else(|_| Device::zeroed()));
        self.say(LineKind::Start, None, format_args!("S {number}"))?;
        Ok(true)
    }

    /// Guest 1, then the request bytes; the writable part has this many bytes, which are not zero
    /// before, so that what is left of them shows. After a handled PROBE its properties come on a
    /// line of 256 hex digits, be the status OK or NOENT.
    fn request(&mut self, mut fields: Fields, writable_bytes: usize) -> io::Result<bool> {
        let Some(device) = &mut self.device else {
            return Ok(false);
        };
        let guest = Guest(fields.u8());
        let readable = fields.rest();
        let mut writable = [0xee; PROBE_BYTES];
        let writable = &mut writable[..writable_bytes];
        let outcome = device.request(guest, readable, writable);
        let kind = LineKind::Request(readable[0], outcome.ok().map(|handled| handled.status));
        let owner = caller(guest, &outcome);
        let Handled { used, .. } = match outcome {
            Ok(handled) => handled,
            Err(refusal) => {
                self.say(kind, owner, format_args!("R {} 0 -", refusal.number()))?;
                return Ok(true);
            }
        };
        let (properties, tail) = writable.split_at(writable_bytes - TAIL_BYTES);
        self.say(kind, owner, format_args!("R 0 {used} {}", tail[0]))?;
        if !properties.is_empty() {
            self.say(LineKind::Properties, owner, format_args!("{}", hex(properties)))?;
        }
        Ok(true)
    }

    /// Endpoint 4, address 8, 0 read or 1 write.
    fn access(&mut self, mut fields: Fields) -> io::Result<bool> {
        let Some(device) = &mut self.device else {
            return Ok(false);
        };
        let endpoint = Endpoint(fields.u32());
        let address = fields.u64();
        let direction = match fields.u8() {
            0 => Direction::Read,
            1 => Direction::Write,
            _ => return Ok(false),
        };
        let owner = device.owner(endpoint);
        match device.access(endpoint, address, direction) {
            Ok(landing) => self.say(LineKind::Access, owner, format_args!("A 0 {landing:016x}"))?,
            Err(refusal) => {
                self.say(LineKind::Access, owner, format_args!("A {}", refusal.number()))?
            }
        }
        Ok(true)
    }

    /// Guest 1.
    fn reset(&mut self, mut fields: Fields) -> io::Result<bool> {
        let Some(device) = &mut self.device else {
            return Ok(false);
        };
        let guest = Guest(fields.u8());
        let outcome = device.reset(guest);
        let owner = caller(guest, &outcome);
        self.say(LineKind::Reset, owner, format_args!("Z {}", number(&outcome)))?;
        Ok(true)
    }

    /// Guest 1, records asked 1 (0 to 16); the buffer holds exactly those asked.
    fn fetch(&mut self, mut fields: Fields) -> io::Result<bool> {
        let Some(device) = &mut self.device else {
            return Ok(false);
        };
        let guest = Guest(fields.u8());
        let asked = usize::from(fields.u8());
        if asked > LOG_PLACES {
            return Ok(false);
        }
        let mut places = [0; LOG_PLACES * FAULT_BYTES];
        let buffer = &mut places[..asked * FAULT_BYTES];
        let outcome = device.fetch(guest, buffer);
        let owner = caller(guest, &outcome);
        match outcome {
            Ok(count) => self.fetched(owner, count, buffer)?,
            Err(refusal) => {
                self.say(LineKind::Fetch, owner, format_args!("F {}", refusal.number()))?
            }
        }
        Ok(true)
    }

    /// The count of the fetched records, then each on a line of 48 hex digits.
    fn fetched(&mut self, owner: Option<Guest>, count: usize, buffer: &[u8]) -> io::Result<()> {
        self.say(LineKind::Fetch, owner, format_args!("F 0 {count}"))?;
        for fault in buffer.chunks_exact(FAULT_BYTES).take(count) {
            self.say(LineKind::FaultRecord, owner, format_args!("{}", hex(fault)))?;
        }
        Ok(())
    }
}

/// Two lowercase digits for each byte.
fn hex(bytes: &[u8]) -> String {
    let halves = bytes.iter().flat_map(|byte| [byte >> 4, byte & 15]);
    halves.map(|half| char::from(b"0123456789abcdef"[usize::from(half)])).collect()
}

/// The number of an outcome: 0 when done.
fn number<T>(outcome: &Result<T, Refusal>) -> u8 {
    outcome.as_ref().err().map_or(0, |refusal| refusal.number())
}

/// Whose call it was; a call answered 1 is nobody's.
fn caller<T>(guest: Guest, outcome: &Result<T, Refusal>) -> Option<Guest> {
    (number(outcome) != Refusal::NoSuchGuest.number()).then_some(guest)
}
