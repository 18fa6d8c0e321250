//! SIGTERM and SIGINT, waited for. The standard library has nothing for signals, so the C library's
//! functions are declared here, for Linux; it is the one file with unsafe code. Blocked signals are
//! waited for rather than handled: no code runs in the middle of other code, and no descriptor is used.

use std::ffi::c_int;
use std::io;

/// `sigset_t`: a bit for each of 1,024 signals.
#[repr(C, align(8))]
struct SignalSet([u8; 128]);

const SIG_BLOCK: c_int = 0;
const SIGINT: c_int = 2;
const SIGTERM: c_int = 15;

extern "C" {
    fn sigemptyset(set: *mut SignalSet) -> c_int;
    fn sigaddset(set: *mut SignalSet, signal: c_int) -> c_int;
    fn pthread_sigmask(how: c_int, set: *const SignalSet, old: *mut SignalSet) -> c_int;
    fn sigwait(set: *const SignalSet, signal: *mut c_int) -> c_int;
}

/// SIGTERM and SIGINT, which no longer end the program by themselves.
pub struct StopSignals(SignalSet);

impl StopSignals {
    /// Blocks them, in this thread and in those that it starts from now on. A thread that was there
    /// before would still be ended by them, and the program with it.
    pub fn block() -> io::Result<StopSignals> {
        let mut set = SignalSet([0; 128]);
        // SAFETY: the set is as large as C's and outlives the calls; a null pointer asks for no old mask.
        let error = unsafe {
            sigemptyset(&mut set);
            sigaddset(&mut set, SIGINT);
            sigaddset(&mut set, SIGTERM);
            pthread_sigmask(SIG_BLOCK, &set, std::ptr::null_mut())
        };
        match error {
            0 => Ok(StopSignals(set)),
            error => Err(io::Error::from_raw_os_error(error)),
        }
    }

    /// Waits for the first of them, and gives its name.
    pub fn wait(&self) -> io::Result<&'static str> {
        let mut signal = 0;
        // SAFETY: both pointers are valid for the call, and the set was made by sigemptyset.
        match unsafe { sigwait(&self.0, &mut signal) } {
            0 if signal == SIGINT => Ok("SIGINT"),
            0 => Ok("SIGTERM"),
            error => Err(io::Error::from_raw_os_error(error)),
        }
    }
}
