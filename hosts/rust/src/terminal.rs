//! The terminal of the process: standard input and output.

use std::io::{self, IsTerminal, Write};
use std::mem::MaybeUninit;
use std::sync::Once;
use std::sync::atomic::{AtomicBool, Ordering};
use std::{env, thread};

use libc::{STDIN_FILENO, STDOUT_FILENO, c_int, pollfd};

use crate::mode;
use crate::signals::Signals;

/// The columns and rows of a terminal that does not say how many it has.
const USUAL_SIZE: (u16, u16) = (80, 24);

/// What turns the marks before and behind pasted texts on.
const PASTE_ON: &[u8] = b"\x1b[?2004h";

/// What turns them off.
const PASTE_OFF: &[u8] = b"\x1b[?2004l";

/// Whether a line is read, by whichever editor.
static IS_TAKEN: AtomicBool = AtomicBool::new(false);

/// What ended a wait.
#[derive(Clone, Copy, Debug, PartialEq, Eq)]
pub(crate) enum Wake {
    /// There is input.
    Input,
    /// No input came for as long as was said.
    Pause,
    /// A signal came: the terminal may have another size or other settings.
    Signal,
}

/// Returns whether standard input is a terminal, at which a line can be edited.
pub(crate) fn is_there() -> bool {
    io::stdin().is_terminal()
}

/// Returns whether standard output is a terminal.
pub(crate) fn is_output() -> bool {
    io::stdout().is_terminal()
}

/// Returns whether the terminal cannot move its cursor.
pub(crate) fn is_dumb() -> bool {
    env::var_os("TERM").is_some_and(|name| {
        ["dumb", "cons25", "emacs"]
            .into_iter()
            .any(|dumb| name.eq_ignore_ascii_case(dumb))
    })
}

/// Returns the columns and rows of the terminal, if standard output is one.
pub(crate) fn size() -> Option<(u16, u16)> {
    size_of(STDOUT_FILENO)
}

/// Returns the columns and rows of a file, if it is a terminal.
fn size_of(file: c_int) -> Option<(u16, u16)> {
    let mut size = MaybeUninit::<libc::winsize>::zeroed();
    // SAFETY: the pointer is that of a variable of this type, in which zero is a value, too.
    let (done, size) = unsafe {
        let done = libc::ioctl(file, libc::TIOCGWINSZ, size.as_mut_ptr());
        (done, size.assume_init())
    };
    let found = match (size.ws_col, size.ws_row) {
        (0, _) => USUAL_SIZE,
        (columns, 0) => (columns, USUAL_SIZE.1),
        found => found,
    };
    (done == 0).then_some(found)
}

/// Returns the columns and rows that a line is drawn for. Where output is no terminal, as a pipe to
/// one, they are those of the terminal at which the line is typed.
pub(crate) fn size_or_usual() -> (u16, u16) {
    let size = size().or_else(|| size_of(STDIN_FILENO));
    size.unwrap_or(USUAL_SIZE)
}

/// Writes all bytes to standard output, behind what the program wrote there.
pub(crate) fn write_all(mut bytes: &[u8]) -> io::Result<()> {
    io::stdout().flush()?;
    while !bytes.is_empty() {
        // SAFETY: the bytes are as many as their length says.
        let written = unsafe { libc::write(STDOUT_FILENO, bytes.as_ptr().cast(), bytes.len()) };
        match usize::try_from(written) {
            Ok(0) => return Err(io::ErrorKind::WriteZero.into()),
            Ok(written) => bytes = bytes.get(written..).unwrap_or_default(),
            Err(_) => wait_for_room(io::Error::last_os_error())?,
        }
    }
    Ok(())
}

/// Waits until standard output takes bytes again, unless it failed for another reason.
fn wait_for_room(error: io::Error) -> io::Result<()> {
    match error.kind() {
        io::ErrorKind::Interrupted => Ok(()),
        io::ErrorKind::WouldBlock => {
            poll(&mut [waited_for(STDOUT_FILENO, libc::POLLOUT)], -1).map(drop)
        }
        _ => Err(error),
    }
}

/// The terminal, raw, while a line is read. It is set back when this is dropped, also where the
/// program panics.
pub(crate) struct Terminal {
    signals: Signals,
    marks_pastes: bool,
    _taken: Taken,
}

impl Terminal {
    /// Makes the terminal raw, and catches the signals.
    ///
    /// # Errors
    /// Another line is read (`ResourceBusy`), or standard input is no terminal.
    pub(crate) fn take(marks_pastes: bool) -> io::Result<Self> {
        static AT_EXIT: Once = Once::new();
        let taken = Taken::new()?;
        // SAFETY: the function takes nothing, and may be called at any time. Where the system has
        // no room to note it, an exit in the middle of a line leaves the terminal raw.
        AT_EXIT.call_once(|| unsafe {
            libc::atexit(mode::set_back_at_exit);
        });
        let terminal = Self {
            signals: Signals::catch()?,
            marks_pastes,
            _taken: taken,
        };
        mode::take_broken_off();
        mode::make_raw()?;
        Ok(terminal)
    }

    /// Makes the terminal raw again, and catches the signals again.
    ///
    /// # Errors
    /// Standard input is no terminal any more, or output fails.
    pub(crate) fn take_again(&self) -> io::Result<()> {
        self.signals.catch_again();
        mode::make_raw()?;
        write_all(if self.marks_pastes { PASTE_ON } else { b"" })
    }

    /// Stops the process and those that were started with it, as a terminal does at C-z, until it
    /// is told to go on.
    ///
    /// # Errors
    /// As `take_again`.
    pub(crate) fn suspend(&self) -> io::Result<()> {
        mode::set_back(PASTE_OFF);
        self.signals.stop();
        self.take_again()
    }

    /// Sets the terminal back in the middle of a line: what comes next stands below it.
    pub(crate) fn break_off(&self) {
        mode::break_off();
    }

    /// Returns whether a signal broke the line off: what was drawn stands above the cursor.
    pub(crate) fn is_broken_off(&self) -> bool {
        mode::is_broken_off()
    }

    /// Returns whether a signal broke the line off, which is over now.
    pub(crate) fn take_broken_off(&self) -> bool {
        mode::take_broken_off()
    }

    /// Waits for input, for so many milliseconds or without end.
    ///
    /// # Errors
    /// Those of the system.
    pub(crate) fn wait(&self, milliseconds: Option<u16>) -> io::Result<Wake> {
        loop {
            if self.signals.take_upset() {
                return Ok(Wake::Signal);
            }
            let mut files =
                [STDIN_FILENO, self.signals.woken()].map(|file| waited_for(file, libc::POLLIN));
            let found = match poll(&mut files, milliseconds.map_or(-1, c_int::from)) {
                Err(error) if error.kind() == io::ErrorKind::Interrupted => continue,
                found => found?,
            };
            let [input, woken] = files.map(|file| file.revents != 0);
            if woken {
                self.signals.drain();
            } else if input {
                return Ok(Wake::Input);
            } else if found == 0 {
                return Ok(Wake::Pause);
            }
        }
    }

    /// Reads what there is into a buffer, and returns how many bytes that is; `None` where there
    /// is nothing yet.
    ///
    /// # Errors
    /// Those of the system.
    pub(crate) fn read(&self, buffer: &mut [u8]) -> io::Result<Option<usize>> {
        // SAFETY: the buffer is as long as its length says.
        let read = unsafe { libc::read(STDIN_FILENO, buffer.as_mut_ptr().cast(), buffer.len()) };
        if let Ok(read) = usize::try_from(read) {
            return Ok(Some(read));
        }
        let error = io::Error::last_os_error();
        match error.kind() {
            io::ErrorKind::Interrupted | io::ErrorKind::WouldBlock => Ok(None),
            _ => Err(error),
        }
    }
}

impl Drop for Terminal {
    fn drop(&mut self) {
        if thread::panicking() {
            mode::break_off();
        } else {
            mode::set_back(b"");
        }
    }
}

/// The right to read a line, which one editor at a time has.
struct Taken;

impl Taken {
    fn new() -> io::Result<Self> {
        if IS_TAKEN.swap(true, Ordering::AcqRel) {
            return Err(io::Error::new(
                io::ErrorKind::ResourceBusy,
                "another line is being read",
            ));
        }
        Ok(Self)
    }
}

impl Drop for Taken {
    fn drop(&mut self) {
        IS_TAKEN.store(false, Ordering::Release);
    }
}

/// Returns what `poll` is handed for a file.
fn waited_for(file: c_int, events: i16) -> pollfd {
    pollfd {
        fd: file,
        events,
        revents: 0,
    }
}

/// Waits for files, and returns how many of them are ready. Below 0 milliseconds it waits without
/// end.
fn poll(files: &mut [pollfd], milliseconds: c_int) -> io::Result<c_int> {
    let count = libc::nfds_t::try_from(files.len()).unwrap_or(0);
    // SAFETY: the files are as many as their count says, or more.
    match unsafe { libc::poll(files.as_mut_ptr(), count, milliseconds) } {
        found if found >= 0 => Ok(found),
        _ => Err(io::Error::last_os_error()),
    }
}
