//! The three kinds of number that must never be mixed up, each a type of its own.

/// A guest's number; 0 to 3 are the ones that can be in use.
#[derive(Clone, Copy, Debug, PartialEq, Eq, PartialOrd, Ord)]
pub struct Guest(pub u8);

impl Guest {
    /// The guest's place in a list kept one entry per guest.
    pub fn place(self) -> usize {
        usize::from(self.0)
    }
}

/// An endpoint's number, the same for every guest.
#[derive(Clone, Copy, Debug, PartialEq, Eq)]
pub struct Endpoint(pub u32);

/// A domain's number, meaningful only beside the guest it belongs to.
#[derive(Clone, Copy, Debug, PartialEq, Eq, PartialOrd, Ord)]
pub struct Domain(pub u32);
