//! The archive's entries and their structs, as C sees them: by value, a slice as pointer and count.

use crosscheck::places::{Settings, State};

/// A guest's number and an endpoint's.
#[repr(C)]
#[derive(Clone, Copy)]
pub struct Guest(pub u8);

#[repr(C)]
#[derive(Clone, Copy)]
pub struct Endpoint(pub u32);

#[repr(C)]
pub struct SetUpGiven {
    pub state: State,
    pub number: u8,
}

#[repr(C)]
pub struct RequestGiven {
    pub state: State,
    pub number: u8,
    pub used: usize,
}

#[repr(C)]
pub struct AccessGiven {
    pub state: State,
    pub number: u8,
    pub address: u64,
}

#[repr(C)]
pub struct FetchGiven {
    pub state: State,
    pub number: u8,
    pub count: usize,
}

extern "C" {
    pub fn viommu_set_up(
        settings: Settings,
        endpoints: *const u32,
        endpoint_count: usize,
        owners: *const u8,
        owner_count: usize,
        regions: *const u64,
        region_words: usize,
        table: *mut u64,
        words: usize,
    ) -> SetUpGiven;

    pub fn viommu_request(
        state: State,
        table: *mut u64,
        words: usize,
        guest: Guest,
        readable: *const u8,
        readable_bytes: usize,
        writable: *mut u8,
        writable_bytes: usize,
    ) -> RequestGiven;

    pub fn viommu_access(
        state: State,
        table: *const u64,
        words: usize,
        endpoint: Endpoint,
        address: u64,
        kind: u8,
    ) -> AccessGiven;

    pub fn viommu_fetch(
        state: State,
        table: *const u64,
        words: usize,
        guest: Guest,
        buffer: *mut u8,
        buffer_bytes: usize,
    ) -> FetchGiven;
}
