//! Signals that ask a station to end: SIGHUP, SIGINT and SIGTERM, waited for by a thread. All unsafe code of
//! the tool is here.
//!
//! There is no handler, so nothing runs between two instructions of other code: a blocked signal stays pending
//! until `sigwait` takes it. What is called are five functions of the C library. Each is handed pointers to
//! values of this file that live through the call and have the layout that the C library has on Linux for
//! x86-64, the only place that the archive is made for: a `sigset_t` of 1,024 bits, and a `struct sigaction`
//! that begins with the handler and is written by the library, never read by it. The functions keep none of
//! these pointers. So no call reads or writes outside of these values, whatever the signals do.

use std::ffi::c_int;
use std::ptr;

/// The signals, by their numbers.
const ENDING: [c_int; 3] = [1, 2, 15];

const SIG_BLOCK: c_int = 0;
const SIG_IGN: usize = 1;

/// `sigset_t`.
#[repr(C)]
struct SignalSet([u64; 16]);

/// `struct sigaction`.
#[repr(C)]
struct Action {
    handler: usize,
    mask: SignalSet,
    flags: c_int,
    restorer: usize,
}

extern "C" {
    fn sigemptyset(set: *mut SignalSet) -> c_int;
    fn sigaddset(set: *mut SignalSet, signal: c_int) -> c_int;
    fn sigaction(signal: c_int, new: *const Action, old: *mut Action) -> c_int;
    fn pthread_sigmask(how: c_int, set: *const SignalSet, old: *mut SignalSet) -> c_int;
    fn sigwait(set: *const SignalSet, signal: *mut c_int) -> c_int;
}

/// The signals that are blocked and waited for.
pub struct Ending(SignalSet);

impl Ending {
    /// Blocks the signals in this thread and in all that it starts from now on; so it is called before any
    /// other thread is there. One that is ignored already, as SIGHUP is under nohup, stays so and is not waited
    /// for.
    pub fn block() -> Option<Ending> {
        let mut set = SignalSet([0; 16]);
        // SAFETY: a set of the C library's layout is lent for the call.
        let mut fine = unsafe { sigemptyset(&mut set) } == 0;
        for signal in ENDING.into_iter().filter(|signal| !is_ignored(*signal)) {
            // SAFETY: as above, and the set was made empty by the library.
            fine &= unsafe { sigaddset(&mut set, signal) } == 0;
        }
        // SAFETY: a set that is only read is lent for the call, and no place for the old one is given.
        fine &= unsafe { pthread_sigmask(SIG_BLOCK, &set, ptr::null_mut()) } == 0;
        fine.then_some(Ending(set))
    }

    /// Waits until one of the signals comes, and takes it.
    pub fn wait(&self) -> Option<i32> {
        let mut signal = 0;
        // SAFETY: a set that is only read and a number that is written are lent for the call.
        let result = unsafe { sigwait(&self.0, &mut signal) };
        (result == 0).then_some(signal)
    }
}

fn is_ignored(signal: c_int) -> bool {
    let mut action = Action {
        handler: 0,
        mask: SignalSet([0; 16]),
        flags: 0,
        restorer: 0,
    };
    // SAFETY: without a new action nothing changes, and the old one is written to a value of the C library's layout.
    let asked = unsafe { sigaction(signal, ptr::null(), &mut action) };
    asked == 0 && action.handler == SIG_IGN
}
