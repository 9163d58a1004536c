//! Times one call on equal states: the archive's through C, and the second program's.
//!
//! The test of soundness as an entry makes it: a request without bytes, which is refused right after
//! the test, is timed through the archive, and against it the second program's test over the same
//! places and words, used and unused, which is handed the state by value and gives it back too.
//!
//! The other calls are held against the second program as it is, whose state is changed in place and
//! has no unused places. The archive's take the state by value and give it back; that copying is
//! counted in, and how long it takes by itself is printed first.

mod answers;
mod archived;
mod entries;
mod flat;
mod setting;

use answers::{of_archive, of_second, Answer};
use archived::Archived;
use crosscheck::device::Device;
use crosscheck::figures::{held_against, Spread};
use crosscheck::numbers::Guest;
use crosscheck::places::State;
use crosscheck::record::Record;
use crosscheck::regions::MOST_REGIONS;
use flat::Flat;
use setting::Setting;
use std::hint::black_box;
use std::time::Instant;

const ROUNDS: usize = 31;
/// The calls of one round, and of the parts of it that are timed: so short that most of them are
/// not broken off by other work of the machine.
const CALLS: usize = 4096;
const PART: usize = 128;
const LIVE: [u32; 3] = [0, 16, 256];
/// The archive's test of soundness is to be at least as fast as the second program's.
const TEST_AIM: f64 = 1.0;
/// A stride that visits the live records in an order without a simple pattern of places.
const STRIDE: usize = 97;

fn main() {
    println!("One call in nanoseconds, medians (10 % to 90 %) of {ROUNDS} rounds, both in turn;");
    println!("32 endpoints, all attached. A ratio above 1: the archive is faster.");
    println!("  a state handed over by value and back: {}", handing_over());
    for live in LIVE {
        println!("{live} live records:");
        let mut devices = Devices::with_live(live, setting::SPREAD);
        let unlisted = spread(&[setting::unlisted()]);
        let fetches = spread(&[Record::Fetch { guest: Guest(0), asked: 0 }]);
        devices.report_test("empty logs");
        devices.report("empty logs, access of an unlisted endpoint", 6, &unlisted);
        devices.report("empty logs, fetch of 0 bytes", 0, &fetches);
        devices.fill_logs();
        devices.report_test("full logs");
        devices.report("full logs, access of an unlisted endpoint", 6, &unlisted);
        devices.report("full logs, fetch of 0 bytes", 0, &fetches);
        devices.report("full logs, access blocked", 8, &spread(&setting::SPREAD.misses()));
        if live > 0 {
            devices.report("full logs, access through", 0, &spread(&setting::SPREAD.hits(live)));
        }
        let regions = MOST_REGIONS as u64;
        let mut reserved = Devices::with_live(live, Setting { regions, ..setting::SPREAD });
        reserved.fill_logs();
        reserved.report_test("full logs, four regions of each endpoint");
        let mut crowded = Devices::with_live(live, Setting { regions, ..setting::ONE_DOMAIN });
        crowded.fill_logs();
        crowded.report_test("the same, all endpoints and records in one domain");
    }
}

/// As many calls as a round has, from these again and again.
fn spread(calls: &[Record]) -> Vec<Record> {
    (0..CALLS).map(|place| calls[place * STRIDE % calls.len()].clone()).collect()
}

/// Two devices in the same state.
struct Devices {
    setting: Setting,
    archived: Archived,
    second: Device,
}

impl Devices {
    /// Sets up both and brings them to so many live records by the same calls.
    fn with_live(live: u32, setting: Setting) -> Self {
        let configuration = setting.configuration();
        let archived = Archived::set_up(&configuration);
        let second = Device::set_up(configuration).expect("a good configuration");
        let mut devices = Devices { setting, archived, second };
        for call in setting.calls(live) {
            devices.ask_both(&call);
        }
        assert_eq!((devices.archived.live(), devices.archived.logged()), (live as usize, 0));
        devices
    }

    /// Fills every guest's log.
    fn fill_logs(&mut self) {
        let misses = self.setting.misses();
        for call in &misses {
            self.ask_both(call);
        }
        assert_eq!(self.archived.logged(), misses.len());
    }

    /// The answer of both, which is the same.
    fn ask_both(&mut self, call: &Record) -> Answer {
        let answer = of_archive(&mut self.archived, call);
        assert_eq!(answer, of_second(&mut self.second, call), "{call:?}");
        answer
    }

    /// Asserts that both give this number to every call, then times them in turn.
    fn report(&mut self, name: &str, number: u8, calls: &[Record]) {
        for call in calls {
            assert_eq!(self.ask_both(call).0, number, "{call:?}");
        }
        let (archive, second) = in_turn(
            calls,
            |call| of_archive(&mut self.archived, call),
            |call| of_second(&mut self.second, call),
        );
        let ratio = second.median / archive.median;
        println!("  {name}: archive {archive}, second {second}, ratio {ratio:.2}");
    }

    /// Times the test of soundness as an entry makes it, on the same state and table.
    fn report_test(&mut self, logs: &str) {
        let mut flat = Flat::of(&self.second);
        assert!(flat.state == self.archived.state() && flat.table == self.archived.table());
        let guest = Guest(0);
        let nothing = Record::Request { guest, readable: Vec::new() };
        assert_eq!(self.ask_both(&nothing), flat.request_of_nothing(guest));
        let (archive, second) = in_turn(
            &spread(&[nothing]),
            |call| of_archive(&mut self.archived, call),
            |_| flat.request_of_nothing(guest),
        );
        let held = held_against(TEST_AIM, second.median / archive.median);
        println!("  {logs}, the test of soundness: archive {archive}, second {second}, {held}");
    }
}

/// The times of one call asked of either, part by part in turn.
fn in_turn(
    calls: &[Record],
    mut one: impl FnMut(&Record) -> Answer,
    mut other: impl FnMut(&Record) -> Answer,
) -> (Spread, Spread) {
    let (mut of_one, mut of_other) = (Vec::new(), Vec::new());
    for part in (0..ROUNDS).flat_map(|_| calls.chunks(PART)) {
        of_one.push(time(part, &mut one));
        of_other.push(time(part, &mut other));
    }
    (Spread::of(&of_one), Spread::of(&of_other))
}

/// The nanoseconds of one call, over all of them.
fn time<C, A>(calls: &[C], mut ask: impl FnMut(&C) -> A) -> f64 {
    let start = Instant::now();
    for call in calls {
        black_box(ask(call));
    }
    start.elapsed().as_nanos() as f64 / calls.len() as f64
}

/// A fetch that does nothing but take the state and give it back.
extern "C" fn hand_back(state: State) -> entries::FetchGiven {
    entries::FetchGiven { number: 0, count: 0, state }
}

/// The nanoseconds of such a fetch, with the state put back in its place as after any call.
fn handing_over() -> Spread {
    let mut state = Archived::set_up(&setting::SPREAD.configuration()).state();
    let entry: extern "C" fn(State) -> entries::FetchGiven = black_box(hand_back);
    let fetch = |state: &mut State| *state = entry(*state).state;
    let times: Vec<f64> =
        (0..ROUNDS).map(|_| time(&[(); CALLS], |()| fetch(black_box(&mut state)))).collect();
    Spread::of(&times)
}
