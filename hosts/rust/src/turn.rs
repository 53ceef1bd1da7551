//! Turns: one thread at a time, or a handler in it, changes signals and the terminal.

use std::mem::MaybeUninit;
use std::ptr;
use std::sync::atomic::{AtomicI32, Ordering};
use std::thread;

use libc::sigset_t;

/// The right to change what is done at signals and how the terminal is set, which one thread at a
/// time has. No signal comes to that thread: its handler would wait for what it broke into.
pub(crate) struct Turn {
    held_before: sigset_t,
}

/// The process that has the turn, or 0. Another process is the parent, at whose turn it was copied.
static TURN: AtomicI32 = AtomicI32::new(0);

impl Turn {
    /// Waits for the turn.
    pub(crate) fn take() -> Self {
        let held_before = hold_signals();
        let process = process();
        while TURN.swap(process, Ordering::SeqCst) == process {
            thread::yield_now();
        }
        Self { held_before }
    }
}

impl Drop for Turn {
    fn drop(&mut self) {
        TURN.store(0, Ordering::SeqCst);
        // SAFETY: the pointer comes from a reference to what the system answered before.
        unsafe { libc::pthread_sigmask(libc::SIG_SETMASK, &self.held_before, ptr::null_mut()) };
    }
}

/// Holds all signals up in this thread, and returns which were held up before. One still stops a
/// process in the background that changes the terminal's settings.
fn hold_signals() -> sigset_t {
    let mut held = MaybeUninit::<sigset_t>::zeroed();
    let mut before = MaybeUninit::<sigset_t>::zeroed();
    // SAFETY: the pointers are those of variables, in which zero is a value, too.
    unsafe {
        libc::sigfillset(held.as_mut_ptr());
        libc::sigdelset(held.as_mut_ptr(), libc::SIGTTOU);
        libc::pthread_sigmask(libc::SIG_SETMASK, held.as_ptr(), before.as_mut_ptr());
        before.assume_init()
    }
}

/// Returns the number of this process.
pub(crate) fn process() -> libc::pid_t {
    // SAFETY: this call takes no pointer.
    unsafe { libc::getpid() }
}
