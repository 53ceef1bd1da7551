//! Faults that a handler waits for. Rust's runtime has one, which tells of a stack that is full; a
//! program may have another. Before it is called the terminal is set back.

use std::sync::atomic::{AtomicPtr, Ordering};
use std::{mem, ptr};

use libc::{c_int, c_void, sigaction, siginfo_t};

use crate::{mode, signals};

/// The signals that tell of a fault in the use of memory.
const FAULTS: [c_int; 2] = [libc::SIGSEGV, libc::SIGBUS];

/// What is done at each of them else; null before the first line. A handler may read it at any time,
/// so it is never freed, and made anew only where it changed.
static THEIRS: [AtomicPtr<sigaction>; FAULTS.len()] =
    [const { AtomicPtr::new(ptr::null_mut()) }; FAULTS.len()];

/// Keeps what is done at the faults that have a handler. This needs memory, for which a thread with
/// the turn may not wait.
pub(crate) fn keep() {
    for (signal, theirs) in FAULTS.into_iter().zip(&THEIRS) {
        let now = signals::action_at(signal);
        if has_other_handler(&now) && !is_kept(theirs, &now) {
            theirs.store(Box::into_raw(Box::new(now)), Ordering::Release);
        }
    }
}

/// Catches the faults whose handler is kept.
pub(crate) fn catch() {
    for (signal, theirs) in FAULTS.into_iter().zip(&THEIRS) {
        let mut action = signals::action_at(signal);
        if has_other_handler(&action) && is_kept(theirs, &action) {
            action.sa_sigaction = on_fault as *const () as usize;
            action.sa_flags = libc::SA_SIGINFO | libc::SA_ONSTACK;
            // SAFETY: the pointer is that of a variable. The handler makes only calls that a
            // handler may make.
            unsafe { sigaction(signal, &raw const action, ptr::null_mut()) };
        }
    }
}

/// Leaves the faults to the handlers that they had.
pub(crate) fn leave() {
    for signal in FAULTS {
        if is_ours(&signals::action_at(signal)) {
            give_back(signal);
        }
    }
}

/// Returns whether this is what `catch` has done at a signal.
fn is_ours(action: &sigaction) -> bool {
    action.sa_sigaction == on_fault as *const () as usize
}

/// Returns whether a fault has a handler that is not ours.
fn has_other_handler(action: &sigaction) -> bool {
    !is_ours(action) && !signals::is_without_handler(action)
}

/// Returns whether it is kept that this is done at a fault.
fn is_kept(theirs: &AtomicPtr<sigaction>, now: &sigaction) -> bool {
    let facts = |of: &sigaction| (of.sa_sigaction, of.sa_flags);
    // SAFETY: a pointer that is not null points to what is never freed or changed.
    let kept = unsafe { theirs.load(Ordering::Acquire).as_ref() };
    kept.is_some_and(|kept| facts(kept) == facts(now))
}

/// Gives a signal the handler back that it had.
fn give_back(signal: c_int) {
    // SAFETY: what was done was kept before it was replaced, and is never freed.
    unsafe { sigaction(signal, theirs_at(signal), ptr::null_mut()) };
}

/// Returns what is done else at a fault; null where nothing was kept.
fn theirs_at(signal: c_int) -> *const sigaction {
    let mut faults = FAULTS.into_iter().zip(&THEIRS);
    let found = faults.find(|(fault, _)| *fault == signal);
    found.map_or(ptr::null(), |(_, theirs)| theirs.load(Ordering::Acquire))
}

/// Handles a fault: the terminal is set back, and the handler from before is called.
extern "C" fn on_fault(signal: c_int, about: *mut siginfo_t, context: *mut c_void) {
    signals::keeping_errno(|| {
        // SAFETY: the system tells a handler about its signal.
        let is_sent = unsafe { (*about).si_code } <= 0;
        mode::break_off();
        if !is_sent {
            // The other handler may abort. It has little stack, which ours must not take then.
            signals::leave_endings();
        }
        call_theirs(signal, about, context);
        signals::note();
        if is_sent {
            signals::wake();
        }
    });
}

/// Calls the handler that a fault has else.
fn call_theirs(signal: c_int, about: *mut siginfo_t, context: *mut c_void) {
    // SAFETY: a pointer that is not null points to what is never freed or changed, and what was kept
    // has a handler, which takes what its flags say.
    unsafe {
        let Some(theirs) = theirs_at(signal).as_ref() else {
            return;
        };
        if theirs.sa_flags & libc::SA_SIGINFO == 0 {
            mem::transmute::<usize, extern "C" fn(c_int)>(theirs.sa_sigaction)(signal);
        } else {
            type Handler = extern "C" fn(c_int, *mut siginfo_t, *mut c_void);
            mem::transmute::<usize, Handler>(theirs.sa_sigaction)(signal, about, context);
        }
    }
}
