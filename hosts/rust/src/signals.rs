//! The signals that are caught while a line is read.

use std::io;
use std::mem::MaybeUninit;
use std::os::fd::{AsRawFd, FromRawFd, OwnedFd, RawFd};
use std::ptr;
use std::sync::OnceLock;
use std::sync::atomic::{AtomicBool, AtomicI32, Ordering};

use libc::{c_int, sigaction, sighandler_t, sigset_t};

use crate::turn::Turn;
use crate::{faults, mode};

/// Behind these the terminal may have another size or other settings.
const TELLING: [c_int; 2] = [libc::SIGWINCH, libc::SIGCONT];

/// Before these end or stop the process, the terminal is set back. They are caught where the
/// program does not handle or ignore them itself.
const ENDING: [c_int; 19] = [
    libc::SIGINT,
    libc::SIGTERM,
    libc::SIGHUP,
    libc::SIGQUIT,
    libc::SIGTSTP,
    libc::SIGALRM,
    libc::SIGABRT,
    libc::SIGSEGV,
    libc::SIGBUS,
    libc::SIGILL,
    libc::SIGFPE,
    libc::SIGSYS,
    libc::SIGPIPE,
    libc::SIGUSR1,
    libc::SIGUSR2,
    libc::SIGXCPU,
    libc::SIGXFSZ,
    libc::SIGVTALRM,
    libc::SIGPROF,
];

/// Whether a signal came since this was asked last.
static IS_UPSET: AtomicBool = AtomicBool::new(false);

/// Where a handler writes a byte, so that a wait ends; below 0 before the first line.
static WAKING: AtomicI32 = AtomicI32::new(-1);

/// The pipe that ends a wait. It is never closed, since a handler may write to it at any time.
static PIPE: OnceLock<[OwnedFd; 2]> = OnceLock::new();

/// Signals that are caught until this is dropped.
pub(crate) struct Signals {
    // What the program does at the signals of `TELLING`.
    actions: [sigaction; TELLING.len()],
    woken: RawFd,
}

impl Signals {
    /// Catches the signals.
    ///
    /// # Errors
    /// The pipe cannot be made.
    pub(crate) fn catch() -> io::Result<Self> {
        let [woken, waking] = pipe()?;
        WAKING.store(waking, Ordering::Release);
        IS_UPSET.store(false, Ordering::Release);
        let signals = Self {
            actions: TELLING.map(|signal| exchange(signal, on_telling as *const () as usize)),
            woken,
        };
        signals.catch_again();
        Ok(signals)
    }

    /// Catches those signals again that came and had their usual effect, unless one just has it: a
    /// wait ends behind that.
    pub(crate) fn catch_again(&self) {
        faults::keep();
        let _turn = Turn::take();
        if !mode::is_leaving() {
            exchange_where(libc::SIG_DFL, on_ending as *const () as usize);
            faults::catch();
        }
    }

    /// Leaves those signals to the program or the system that end or stop the process.
    fn leave(&self) {
        let _turn = Turn::take();
        leave_endings();
        faults::leave();
    }

    /// Stops the process, and those that were started with it, until it is told to go on.
    pub(crate) fn stop(&self) {
        self.leave();
        // Sent to the process, the signal might come in another thread, and late. So it is ignored
        // while the others get it, and comes to this thread alone.
        let action = exchange(libc::SIGTSTP, libc::SIG_IGN);
        // SAFETY: the pointer comes from a reference to what the system answered before.
        unsafe {
            libc::kill(0, libc::SIGTSTP);
            sigaction(libc::SIGTSTP, &raw const action, ptr::null_mut());
            libc::raise(libc::SIGTSTP);
        }
        self.take_upset();
    }

    /// Returns whether a signal came since this was asked last.
    pub(crate) fn take_upset(&self) -> bool {
        IS_UPSET.swap(false, Ordering::AcqRel)
    }

    /// Returns the file that can be read where a signal came.
    pub(crate) fn woken(&self) -> RawFd {
        self.woken
    }

    /// Reads what the handlers wrote.
    pub(crate) fn drain(&self) {
        let mut bytes = [0_u8; 64];
        // SAFETY: the buffer is as long as its length says. The pipe does not block.
        while unsafe { libc::read(self.woken, bytes.as_mut_ptr().cast(), bytes.len()) } > 0 {}
    }
}

impl Drop for Signals {
    fn drop(&mut self) {
        self.leave();
        for (signal, action) in TELLING.into_iter().zip(&self.actions) {
            // SAFETY: the pointer comes from a reference to what the system answered before.
            unsafe { sigaction(signal, action, ptr::null_mut()) };
        }
    }
}

/// Leaves those signals to the system that end or stop the process.
pub(crate) fn leave_endings() {
    exchange_where(on_ending as *const () as usize, libc::SIG_DFL);
}

/// Handles a signal behind which the terminal may have another size or other settings.
extern "C" fn on_telling(_signal: c_int) {
    keeping_errno(wake);
}

/// Handles a signal that ends or stops the process: the terminal is set back, and the signal comes
/// again, now with its usual effect. Where the process lives on, so does the line.
extern "C" fn on_ending(signal: c_int) {
    keeping_errno(|| {
        mode::leave(|| {
            let turn = Turn::take();
            exchange(signal, libc::SIG_DFL);
            drop(turn);
            raise_at_once(signal);
        });
        wake();
    });
}

/// Sends a signal to this thread, where it has its effect although one such signal is handled.
fn raise_at_once(signal: c_int) {
    let mut raised = MaybeUninit::<sigset_t>::zeroed();
    let mut before = MaybeUninit::<sigset_t>::zeroed();
    // SAFETY: the pointers are those of variables, in which zero is a value, too.
    unsafe {
        libc::sigemptyset(raised.as_mut_ptr());
        libc::sigaddset(raised.as_mut_ptr(), signal);
        libc::raise(signal);
        libc::pthread_sigmask(libc::SIG_UNBLOCK, raised.as_ptr(), before.as_mut_ptr());
        libc::pthread_sigmask(libc::SIG_SETMASK, before.as_ptr(), ptr::null_mut());
    }
}

/// Does something in a handler. What went on when the signal came finds `errno` as it was.
pub(crate) fn keeping_errno(act: impl FnOnce()) {
    // SAFETY: the place of `errno` is the thread's own, and there as long as the thread is.
    let place = unsafe { libc::__errno_location() };
    // SAFETY: as above.
    let errno = unsafe { *place };
    act();
    // SAFETY: as above.
    unsafe { *place = errno };
}

/// Says that a signal came. A thread that waits goes on waiting.
pub(crate) fn note() {
    IS_UPSET.store(true, Ordering::Release);
}

/// Ends a wait.
pub(crate) fn wake() {
    note();
    let (waking, byte) = (WAKING.load(Ordering::Acquire), 0_u8);
    // SAFETY: the byte is a variable. Where the pipe is full, a wait ends anyway.
    unsafe { libc::write(waking, (&raw const byte).cast(), 1) };
}

/// Gives the signals of `ENDING` that have one handler another one.
fn exchange_where(from: sighandler_t, to: sighandler_t) {
    for signal in ENDING {
        if action_at(signal).sa_sigaction == from {
            exchange(signal, to);
        }
    }
}

/// Returns whether a signal has no handler, or one of this file's that stands for none.
pub(crate) fn is_without_handler(action: &sigaction) -> bool {
    let ours = on_ending as *const () as usize;
    [libc::SIG_DFL, libc::SIG_IGN, ours].contains(&action.sa_sigaction)
}

/// Returns what is done at a signal.
pub(crate) fn action_at(signal: c_int) -> sigaction {
    let mut now = MaybeUninit::<sigaction>::zeroed();
    // SAFETY: the pointer is that of a variable, in which zero is a value, too.
    unsafe {
        sigaction(signal, ptr::null(), now.as_mut_ptr());
        now.assume_init()
    }
}

/// Gives a signal a handler, and returns what was done at it before.
fn exchange(signal: c_int, handler: sighandler_t) -> sigaction {
    let mut action = MaybeUninit::<sigaction>::zeroed();
    let mut before = MaybeUninit::<sigaction>::zeroed();
    // SAFETY: the pointers are those of variables, in which zero is a value, too. The handler is
    // one of this file's, which makes only calls that a handler may make, or the system's.
    unsafe {
        (*action.as_mut_ptr()).sa_sigaction = handler;
        (*action.as_mut_ptr()).sa_flags = libc::SA_RESTART;
        libc::sigfillset(&raw mut (*action.as_mut_ptr()).sa_mask);
        sigaction(signal, action.as_ptr(), before.as_mut_ptr());
        before.assume_init()
    }
}

/// Returns the ends of the pipe: the one that is read, and the one that is written.
fn pipe() -> io::Result<[RawFd; 2]> {
    if let Some(ends) = PIPE.get() {
        return Ok([ends[0].as_raw_fd(), ends[1].as_raw_fd()]);
    }
    let mut ends = [-1; 2];
    // SAFETY: the pointer is that of two numbers, which are files of our own where 0 is answered.
    let ends = unsafe {
        if libc::pipe2(ends.as_mut_ptr(), libc::O_CLOEXEC | libc::O_NONBLOCK) < 0 {
            return Err(io::Error::last_os_error());
        }
        ends.map(|end| OwnedFd::from_raw_fd(end))
    };
    let ends = PIPE.get_or_init(|| ends);
    Ok([ends[0].as_raw_fd(), ends[1].as_raw_fd()])
}
