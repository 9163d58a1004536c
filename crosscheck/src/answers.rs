//! What a call gives back: the number of a refusal and the status of a request.

/// Why a call was not done; the value is the number it gives back.
#[derive(Clone, Copy, Debug, PartialEq, Eq)]
pub enum Refusal {
    NoSuchGuest = 1,
    NotSound = 2,
    UnknownType = 3,
    WrongLength = 4,
    BadConfiguration = 5,
    EndpointNotListed = 6,
    Unattached = 7,
    NoMapping = 8,
}

impl Refusal {
    /// The number printed for this refusal.
    pub fn number(self) -> u8 {
        self as u8
    }
}

/// The status of a handled request; IOERR and DEVERR are never given.
#[derive(Clone, Copy, Debug, PartialEq, Eq, PartialOrd, Ord)]
pub enum Status {
    Ok,
    Unsupp,
    Inval(Inval),
    Range(Range),
    Noent,
    Fault,
    Nomem,
}

/// What is wrong where the status is INVAL, which no byte tells: for counting alone.
#[derive(Clone, Copy, Debug, PartialEq, Eq, PartialOrd, Ord)]
pub enum Inval {
    /// A reserved field that is not zero, or a flag that is not known.
    Fields,
    /// The endpoint is not attached to the domain.
    NotAttached,
    /// A record of the domain has one of the addresses.
    Records,
    /// A region of an endpoint in the domain has one of the addresses.
    Regions,
}

/// What is wrong where the status is RANGE, which no byte tells: for counting alone.
#[derive(Clone, Copy, Debug, PartialEq, Eq, PartialOrd, Ord)]
pub enum Range {
    /// The domain lies outside the domain range.
    Domain,
    /// The virtual addresses are none, no whole pages, outside the input range, or cut a record.
    Virtual,
    /// phys_start alone is no multiple of the granularity, and all physical addresses lie in the
    /// window.
    PhysInWindow,
    /// The same, and one of them lies outside.
    PhysOutside,
}

impl Status {
    /// The byte written into the tail.
    pub fn byte(self) -> u8 {
        match self {
            Status::Ok => 0,
            Status::Unsupp => 2,
            Status::Inval(_) => 4,
            Status::Range(_) => 5,
            Status::Noent => 6,
            Status::Fault => 7,
            Status::Nomem => 8,
        }
    }
}

/// A request that was handled: the bytes written, and its status.
#[derive(Clone, Copy, Debug, PartialEq, Eq)]
pub struct Handled {
    pub used: usize,
    pub status: Status,
}
