//! Faults of blocked accesses, their 24-byte form, and the log each guest has of them.

use crate::numbers::Endpoint;
use std::collections::VecDeque;

/// The most faults a log holds.
pub const LOG_PLACES: usize = 16;
/// The bytes of one fault record.
pub const FAULT_BYTES: usize = 24;

/// READ and WRITE have the same bits in a mapping's flags and in a fault's.
pub const READ: u32 = 1;
pub const WRITE: u32 = 2;
/// Says that the fault's address field holds an address.
const ADDRESS: u32 = 256;

#[derive(Clone, Copy, Debug, PartialEq, Eq)]
pub enum Direction {
    Read,
    Write,
}

impl Direction {
    /// The flag a mapping needs to permit this access.
    pub fn flag(self) -> u32 {
        match self {
            Direction::Read => READ,
            Direction::Write => WRITE,
        }
    }

    /// The flags of a fault of such an access.
    pub fn fault_flags(self) -> u32 {
        self.flag() | ADDRESS
    }
}

/// What the blocked access lacked.
#[derive(Clone, Copy, Debug, PartialEq, Eq)]
pub enum Reason {
    Domain = 1,
    Mapping = 2,
}

#[derive(Clone, Debug, PartialEq, Eq)]
pub struct Fault {
    pub reason: Reason,
    pub direction: Direction,
    pub endpoint: Endpoint,
    pub address: u64,
}

impl Fault {
    /// Reason, three zeros, flags 4, endpoint 4, zero 4, address 8.
    pub fn bytes(&self) -> [u8; FAULT_BYTES] {
        let mut bytes = [0; FAULT_BYTES];
        bytes[0] = self.reason as u8;
        bytes[4..8].copy_from_slice(&self.direction.fault_flags().to_le_bytes());
        bytes[8..12].copy_from_slice(&self.endpoint.0.to_le_bytes());
        bytes[16..24].copy_from_slice(&self.address.to_le_bytes());
        bytes
    }
}

/// One guest's faults, oldest first, and how many were dropped because it was full.
#[derive(Clone, Debug, Default, PartialEq, Eq)]
pub struct FaultLog {
    pub(crate) faults: VecDeque<Fault>,
    lost: u16,
}

impl FaultLog {
    /// Logs a fault; a full log drops it and counts it as lost, up to 65,535.
    pub fn push(&mut self, fault: Fault) {
        if self.faults.len() < LOG_PLACES {
            self.faults.push_back(fault);
        } else {
            self.lost = self.lost.saturating_add(1);
        }
    }

    /// Moves the oldest faults that fit whole into the buffer and gives their number.
    pub fn fetch(&mut self, buffer: &mut [u8]) -> usize {
        let count = self.faults.len().min(buffer.len() / FAULT_BYTES);
        let places = buffer.chunks_exact_mut(FAULT_BYTES);
        for (place, fault) in places.zip(self.faults.drain(..count)) {
            place.copy_from_slice(&fault.bytes());
        }
        count
    }

    pub fn lost(&self) -> u16 {
        self.lost
    }
}
