//! The second program's test of soundness, made as an entry of the archive makes its own: over the
//! same places and words, the state handed over by value and given back, the table lent.

use crate::answers::Answer;
use crate::entries::{Guest, RequestGiven};
use crosscheck::answers::Refusal;
use crosscheck::device::Device;
use crosscheck::numbers;
use crosscheck::places::{table_of, State};
use std::hint::black_box;
use std::slice;

/// A state in flat places, and its table.
pub struct Flat {
    pub state: State,
    pub table: Vec<u64>,
}

impl Flat {
    /// State and table of a device of the second program's.
    pub fn of(device: &Device) -> Self {
        Flat { state: State::of(device), table: table_of(device) }
    }

    /// The answer to a request without bytes. The entry is called as one that the compiler has not
    /// seen, as it has not seen the archive's.
    pub fn request_of_nothing(&mut self, guest: numbers::Guest) -> Answer {
        let entry: Entry = black_box(request_of_nothing);
        // SAFETY: the table is lent with its length.
        let given =
            unsafe { entry(self.state, self.table.as_ptr(), self.table.len(), Guest(guest.0)) };
        self.state = given.state;
        (given.number, given.used as u64, 0)
    }
}

type Entry = unsafe extern "C" fn(State, *const u64, usize, Guest) -> RequestGiven;

/// A request without bytes: no such guest, not sound, or else of a wrong length.
///
/// # Safety
///
/// The table has so many words.
unsafe extern "C" fn request_of_nothing(
    state: State,
    table: *const u64,
    words: usize,
    guest: Guest,
) -> RequestGiven {
    // SAFETY: as the caller says.
    let table = unsafe { slice::from_raw_parts(table, words) };
    let refusal = if usize::from(guest.0) >= state.settings.guests {
        Refusal::NoSuchGuest
    } else if !state.is_sound(table) {
        Refusal::NotSound
    } else {
        Refusal::WrongLength
    };
    RequestGiven { number: refusal.number(), used: 0, state }
}
