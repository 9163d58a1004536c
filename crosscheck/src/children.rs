//! A program run to its end, and the processor time that it took.

use std::ffi::{c_int, c_long};
use std::io::{self, Error, ErrorKind};
use std::os::unix::process::ExitStatusExt;
use std::process::{Command, ExitStatus};
use std::ptr;
use std::time::Duration;

/// How a child ended, and its processor time, user and system together: what other programs of the
/// machine do meanwhile is not in it.
#[derive(Clone, Copy, Debug)]
pub struct Ended {
    pub status: ExitStatus,
    pub processor_time: Duration,
}

/// Runs a command to its end.
pub fn run(command: &mut Command) -> io::Result<Ended> {
    let child = command.spawn()?;
    let process = c_int::try_from(child.id()).expect("a process number of the system's");
    let mut status = 0;
    let mut usage = Usage::default();
    // SAFETY: both pointers are to places of the types that the system's header names, and nobody
    // else waits for this child.
    while unsafe { wait4(process, ptr::from_mut(&mut status), 0, ptr::from_mut(&mut usage)) } < 0 {
        let error = Error::last_os_error();
        if error.kind() != ErrorKind::Interrupted {
            return Err(error);
        }
    }
    let processor_time = usage.user.duration() + usage.system.duration();
    Ok(Ended { status: ExitStatus::from_raw(status), processor_time })
}

/// The system's `struct timeval`.
#[repr(C)]
#[derive(Clone, Copy, Default)]
struct Time {
    seconds: c_long,
    microseconds: c_long,
}

impl Time {
    fn duration(self) -> Duration {
        let part = |number: c_long| u64::try_from(number).expect("no time is below zero");
        Duration::from_secs(part(self.seconds)) + Duration::from_micros(part(self.microseconds))
    }
}

/// The system's `struct rusage`: two times, and fourteen numbers that are not asked for here.
#[repr(C)]
#[derive(Default)]
struct Usage {
    user: Time,
    system: Time,
    others: [c_long; 14],
}

extern "C" {
    /// Waits for the end of one child, and says what it used.
    fn wait4(process: c_int, status: *mut c_int, options: c_int, usage: *mut Usage) -> c_int;
}

#[cfg(test)]
mod tests {
    use super::run;
    use std::process::Command;
    use std::time::Duration;

    fn shell(line: &str) -> super::Ended {
        run(Command::new("sh").args(["-c", line])).expect("a shell")
    }

    #[test]
    fn a_childs_end_is_told() {
        assert!(shell("exit 0").status.success());
        assert_eq!(shell("exit 3").status.code(), Some(3));
        assert_eq!(shell("kill -9 $$").status.code(), None);
        assert!(run(&mut Command::new("no/such/program")).is_err());
    }

    /// Each child's time is its own: the idle one's is less, although it ends after the busy one.
    #[test]
    fn a_childs_time_is_its_own() {
        let busy = shell("n=0; while [ $n -lt 200000 ]; do n=$((n + 1)); done");
        let idle = shell(":");
        assert!(busy.processor_time > idle.processor_time && !idle.processor_time.is_zero());
        assert!(busy.processor_time < Duration::from_secs(3600));
    }
}
