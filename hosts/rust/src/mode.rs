//! Raw mode: set and set back, also in handlers of signals.

use std::cell::UnsafeCell;
use std::io;
use std::mem::MaybeUninit;
use std::sync::atomic::{AtomicBool, AtomicI32, AtomicUsize, Ordering};

use libc::{STDIN_FILENO, STDOUT_FILENO, pollfd, termios};

use crate::turn::{Turn, process};

/// What ends a line that was broken off: what was drawn stays, and what comes next stands below.
const BREAK_OFF: &[u8] = b"\x1b[?2026l\x1b[?2004l\x1b[m\r\n\x1b[J";

/// The process that made the terminal raw; 0 where it is not raw. The child of a fork may end in
/// the middle of its parent's line, which is none of its own.
static RAW_BY: AtomicI32 = AtomicI32::new(0);

/// The terminal's settings outside of a line.
static BEFORE: Settings = Settings(UnsafeCell::new(MaybeUninit::uninit()));

/// Settings that are read and written by who has the turn.
struct Settings(UnsafeCell<MaybeUninit<termios>>);

// SAFETY: one thread at a time has the turn.
unsafe impl Sync for Settings {}

/// How many threads do what may end or stop the process.
static LEAVING: AtomicUsize = AtomicUsize::new(0);

/// Whether a line was broken off since this was asked last.
static IS_BROKEN_OFF: AtomicBool = AtomicBool::new(false);

/// Makes the terminal raw: each key comes at once, is not shown, and is no signal. In the background
/// the process stops, until it is in the foreground: before then the settings are another program's.
/// Where the process ends or stops, the terminal stays as it is.
///
/// # Errors
/// Standard input is no terminal.
pub(crate) fn make_raw() -> io::Result<()> {
    // SAFETY: this call takes no pointer. It stops a process in the background; what it waits for
    // else, that all output is sent, need not come about.
    unsafe { libc::tcdrain(STDIN_FILENO) };
    let _turn = Turn::take();
    if is_leaving() {
        return Ok(());
    }
    let now = settings()?;
    let process = process();
    if RAW_BY.load(Ordering::SeqCst) != process {
        // SAFETY: this thread has the turn.
        unsafe { (*BEFORE.0.get()).write(now) };
    }
    let mut raw = now;
    raw.c_iflag &= !(libc::BRKINT | libc::ICRNL | libc::INLCR | libc::IGNCR);
    raw.c_iflag &= !(libc::INPCK | libc::ISTRIP | libc::IXON);
    raw.c_lflag &= !(libc::ECHO | libc::ICANON | libc::IEXTEN | libc::ISIG);
    raw.c_cflag |= libc::CS8;
    raw.c_cc[libc::VMIN] = 1;
    raw.c_cc[libc::VTIME] = 0;
    RAW_BY.store(process, Ordering::SeqCst);
    set(&raw)
}

/// Writes bytes and sets the terminal back, if this process made it raw and no other program has it
/// now. Returns whether it did. This may be called in a handler of a signal.
pub(crate) fn set_back(text: &[u8]) -> bool {
    let _turn = Turn::take();
    if RAW_BY.load(Ordering::SeqCst) != process() {
        return false;
    }
    RAW_BY.store(0, Ordering::SeqCst);
    if is_of_others() {
        return false;
    }
    write_at_once(text);
    // SAFETY: this thread has the turn, and the settings were kept before the terminal was made raw.
    // The call may be made in a handler. That it fails, nobody can be told.
    unsafe { libc::tcsetattr(STDIN_FILENO, libc::TCSANOW, (*BEFORE.0.get()).as_ptr()) };
    true
}

/// Writes bytes, if there is room for them now: an output that takes none must keep no process from
/// its end.
fn write_at_once(text: &[u8]) {
    let mut output = pollfd {
        fd: STDOUT_FILENO,
        events: libc::POLLOUT,
        revents: 0,
    };
    // SAFETY: the pointer is that of one file, and the text is as long as its length says. Both
    // calls may be made in a handler. That one of them fails, nobody can be told.
    unsafe {
        if libc::poll(&raw mut output, 1, 0) > 0 {
            libc::write(STDOUT_FILENO, text.as_ptr().cast(), text.len());
        }
    }
}

/// Sets the terminal back in the middle of a line: what comes next stands below it.
pub(crate) fn break_off() {
    if set_back(BREAK_OFF) {
        IS_BROKEN_OFF.store(true, Ordering::SeqCst);
    }
}

/// Breaks the line off, and does what may end or stop the process. Meanwhile no thread makes the
/// terminal raw.
pub(crate) fn leave(act: impl FnOnce()) {
    LEAVING.fetch_add(1, Ordering::SeqCst);
    break_off();
    act();
    LEAVING.fetch_sub(1, Ordering::SeqCst);
}

/// Returns whether a thread does what may end or stop the process. Who has the turn knows that none
/// begins to.
pub(crate) fn is_leaving() -> bool {
    LEAVING.load(Ordering::SeqCst) > 0
}

/// Sets the terminal back when the process exits in the middle of a line.
pub(crate) extern "C" fn set_back_at_exit() {
    LEAVING.fetch_add(1, Ordering::SeqCst);
    break_off();
}

/// Returns whether the line was broken off: its drawing stands above the cursor.
pub(crate) fn is_broken_off() -> bool {
    IS_BROKEN_OFF.load(Ordering::SeqCst)
}

/// Returns whether the line was broken off, which is over now.
pub(crate) fn take_broken_off() -> bool {
    IS_BROKEN_OFF.swap(false, Ordering::SeqCst)
}

/// Returns whether other programs have the terminal. One that does not control this process is
/// nobody's.
fn is_of_others() -> bool {
    // SAFETY: these calls take no pointer.
    unsafe {
        let foreground = libc::tcgetpgrp(STDIN_FILENO);
        foreground >= 0 && foreground != libc::getpgrp()
    }
}

/// Returns the terminal's settings.
fn settings() -> io::Result<termios> {
    let mut now = MaybeUninit::uninit();
    // SAFETY: the pointer is that of a variable of this type, which is full where 0 is answered.
    unsafe {
        match libc::tcgetattr(STDIN_FILENO, now.as_mut_ptr()) {
            0 => Ok(now.assume_init()),
            _ => Err(io::Error::last_os_error()),
        }
    }
}

/// Sets the terminal's settings.
fn set(wanted: &termios) -> io::Result<()> {
    loop {
        // SAFETY: the pointer comes from a reference.
        if unsafe { libc::tcsetattr(STDIN_FILENO, libc::TCSANOW, wanted) } == 0 {
            return Ok(());
        }
        let error = io::Error::last_os_error();
        if error.kind() != io::ErrorKind::Interrupted {
            return Err(error);
        }
    }
}
