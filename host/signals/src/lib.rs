//! Waits for the signals that ask a process to end or to say how it is, on Linux.
//!
//! No handler runs in the middle of anything: the signals are blocked for the whole process, and one thread waits for them. It is a package
//! of its own so that the command can forbid unsafe code: the standard library knows no signals, so the C library is called.
use std::ffi::c_int;
use std::fmt;

/// A signal that is waited for.
#[derive(Clone, Copy, Debug, PartialEq, Eq)]
pub enum Signal {
    /// SIGHUP: the terminal is gone.
    Hangup,
    /// SIGINT: Ctrl-C.
    Interrupt,
    /// SIGTERM: the process is asked to end.
    Terminate,
    /// SIGUSR1: the process is asked how it is.
    Status,
}

impl Signal {
    const ALL: [Signal; 4] = [Signal::Hangup, Signal::Interrupt, Signal::Terminate, Signal::Status];

    /// Its number on Linux.
    fn number(self) -> c_int {
        match self {
            Signal::Hangup => 1,
            Signal::Interrupt => 2,
            Signal::Terminate => 15,
            Signal::Status => 10,
        }
    }
}

impl fmt::Display for Signal {
    fn fmt(&self, f: &mut fmt::Formatter<'_>) -> fmt::Result {
        f.write_str(match self {
            Signal::Hangup => "SIGHUP",
            Signal::Interrupt => "SIGINT",
            Signal::Terminate => "SIGTERM",
            Signal::Status => "SIGUSR1",
        })
    }
}

/// The signals that are blocked and can be waited for.
pub struct Awaited(SignalSet);

/// The C library's `sigset_t` on Linux: 1,024 bits.
#[repr(C)]
struct SignalSet([u64; 16]);

/// `SIG_BLOCK`.
const BLOCK: c_int = 0;
/// `SIG_DFL`.
const DEFAULT: usize = 0;
/// `SIG_IGN`.
const IGNORED: usize = 1;

extern "C" {
    fn sigemptyset(set: *mut SignalSet) -> c_int;
    fn sigaddset(set: *mut SignalSet, number: c_int) -> c_int;
    fn pthread_sigmask(how: c_int, set: *const SignalSet, old: *mut SignalSet) -> c_int;
    fn sigwait(set: *const SignalSet, number: *mut c_int) -> c_int;
    fn signal(number: c_int, handler: usize) -> usize;
}

/// Blocks the signals in this thread and in those that it starts from now on, so that [`Awaited::next`] gets them. One that the parent has
/// the process ignore, as nohup does with SIGHUP, stays ignored.
#[must_use]
pub fn block() -> Awaited {
    let mut set = SignalSet([0; 16]);
    // SAFETY: `set` is a whole sigset_t that this function alone has, and the numbers are those of signals. Setting a signal to its default
    // or back to being ignored installs no handler.
    unsafe {
        sigemptyset(&mut set);
        for awaited in Signal::ALL {
            if signal(awaited.number(), DEFAULT) == IGNORED {
                signal(awaited.number(), IGNORED);
            } else {
                sigaddset(&mut set, awaited.number());
            }
        }
        pthread_sigmask(BLOCK, &set, std::ptr::null_mut());
    }
    Awaited(set)
}

impl Awaited {
    /// Waits for the next signal.
    #[must_use]
    pub fn next(&self) -> Signal {
        loop {
            let mut number = 0;
            // SAFETY: the set is a whole sigset_t, and `number` is written to.
            let told = unsafe { sigwait(&self.0, &mut number) };
            let signal = Signal::ALL.into_iter().find(|signal| told == 0 && signal.number() == number);
            if let Some(signal) = signal {
                return signal;
            }
        }
    }
}
