//! A terminal with a program at it: this test program again, with a scene.

use std::fs::{self, File};
use std::io::{self, Read, Write};
use std::os::fd::{AsRawFd, FromRawFd, RawFd};
use std::os::unix::process::CommandExt;
use std::process::{Child, Command, ExitStatus};
use std::time::{Duration, Instant};
use std::{env, ptr, thread};

/// The variable that names the scene.
pub const SCENE: &str = "COMVIZGA_SCENE";

/// How many milliseconds a test waits for what should be shown.
const PATIENCE: i32 = 10_000;

/// How many columns a terminal has.
pub const COLUMNS: u16 = 60;

/// How a program is started at a terminal.
#[derive(Clone, Copy)]
pub struct Start {
    /// The scene.
    pub scene: &'static str,
    /// What a shell does, for which `"$@"` is the program.
    pub script: &'static str,
    /// Whether the terminal is the one that controls the program.
    pub is_controlling: bool,
    /// The kind of the terminal.
    pub term: &'static str,
}

/// A program that reads lines at the terminal that controls it.
pub const LINES: Start = Start {
    scene: "lines",
    script: "exec \"$@\"",
    is_controlling: true,
    term: "xterm",
};

/// A terminal with a program at it.
pub struct Screen {
    ours: File,
    theirs: File,
    program: Child,
    seen: String,
}

impl Screen {
    /// Opens a terminal, starts a program at it, and waits for the prompt.
    pub fn start(start: &Start) -> io::Result<Self> {
        let (ours, theirs) = open_terminal()?;
        let mut command = Command::new("sh");
        command.args(["-c", start.script, "sh"]);
        command.arg(env::current_exe()?);
        command.args(["scene", "--exact", "--ignored", "--nocapture"]);
        command.env(SCENE, start.scene).env("TERM", start.term);
        command.stdin(theirs.try_clone()?);
        command.stdout(theirs.try_clone()?);
        command.stderr(theirs.try_clone()?);
        let is_controlling = start.is_controlling;
        // SAFETY: the calls may be made between fork and exec, and take no pointer.
        unsafe {
            command.pre_exec(move || {
                libc::setsid();
                if is_controlling && libc::ioctl(libc::STDIN_FILENO, libc::TIOCSCTTY, 0) != 0 {
                    return Err(io::Error::last_os_error());
                }
                Ok(())
            });
        }
        let program = command.spawn()?;
        let mut screen = Self {
            ours,
            theirs,
            program,
            seen: String::new(),
        };
        screen.wait_for("> ")?;
        Ok(screen)
    }

    /// Types a line, and waits until it is answered and the next one is begun. What is typed before
    /// then may reach a terminal that is not raw.
    pub fn enter(&mut self, typed: &str, answer: &str) -> io::Result<()> {
        self.type_for(typed, answer)?;
        self.wait_for("> ").map(drop)
    }

    /// Types a text.
    pub fn type_text(&mut self, typed: &str) -> io::Result<()> {
        self.ours.write_all(typed.as_bytes())
    }

    /// Types a text, and waits until another one is shown. Returns what is shown before that.
    pub fn type_for(&mut self, typed: &str, shown: &str) -> io::Result<String> {
        self.type_text(typed)?;
        self.wait_for(shown)
    }

    /// Waits until a text is shown, and returns what is shown before it.
    pub fn wait_for(&mut self, shown: &str) -> io::Result<String> {
        loop {
            if let Some(place) = self.seen.find(shown) {
                let before = self.seen[..place].to_owned();
                self.seen.drain(..place + shown.len());
                return Ok(before);
            }
            if !self.see(PATIENCE)? {
                return Err(io::Error::other(format!(
                    "{shown:?} is not in {:?}",
                    self.seen
                )));
            }
        }
    }

    /// Returns what is shown until nothing has come for a while.
    pub fn rest(&mut self) -> io::Result<String> {
        while self.see(300)? {}
        Ok(std::mem::take(&mut self.seen))
    }

    /// Waits for more, for so many milliseconds, and returns whether something came.
    fn see(&mut self, milliseconds: i32) -> io::Result<bool> {
        let mut buffer = [0; 4096];
        let mut file = libc::pollfd {
            fd: self.ours.as_raw_fd(),
            events: libc::POLLIN,
            revents: 0,
        };
        // SAFETY: the pointer is that of the one file that is named.
        if unsafe { libc::poll(&mut file, 1, milliseconds) } != 1 {
            return Ok(false);
        }
        let read = self.ours.read(&mut buffer)?;
        self.seen += &String::from_utf8_lossy(&buffer[..read]);
        Ok(true)
    }

    /// Sends a signal to the program.
    pub fn signal(&self, signal: i32) -> io::Result<()> {
        let program = libc::pid_t::try_from(self.program.id()).map_err(io::Error::other)?;
        // SAFETY: this call takes no pointer. The program was not waited for.
        unsafe { libc::kill(program, signal) };
        Ok(())
    }

    /// Sends a signal to the thread of the program that reads lines, which the harness of the tests
    /// starts beside its own.
    pub fn signal_reader(&self, signal: i32) -> io::Result<()> {
        let program = self.program.id();
        for thread in fs::read_dir(format!("/proc/{program}/task"))? {
            let thread: u32 = thread?
                .file_name()
                .to_string_lossy()
                .parse()
                .unwrap_or(program);
            if thread != program {
                // SAFETY: this call takes no pointer.
                unsafe { libc::syscall(libc::SYS_tgkill, program, thread, signal) };
            }
        }
        Ok(())
    }

    /// Sends a signal to those processes that the terminal would send it to.
    pub fn signal_foreground(&self, signal: i32) {
        // SAFETY: these calls take no pointer.
        unsafe { libc::kill(-libc::tcgetpgrp(self.ours.as_raw_fd()), signal) };
    }

    /// Ends the input, and checks that the program ends well and leaves the terminal as it was.
    pub fn end(mut self) -> io::Result<()> {
        self.ours.write_all(b"\x04")?;
        assert!(self.status()?.success());
        assert!(!self.is_raw());
        Ok(())
    }

    /// Waits until the program has ended.
    pub fn status(&mut self) -> io::Result<ExitStatus> {
        let patience = Duration::from_millis(PATIENCE.unsigned_abs().into());
        let started = Instant::now();
        while started.elapsed() < patience {
            if let Some(status) = self.program.try_wait()? {
                return Ok(status);
            }
            thread::sleep(Duration::from_millis(1));
        }
        Err(io::Error::other("the program has not ended"))
    }

    /// Returns whether keys come at once.
    pub fn is_raw(&self) -> bool {
        is_raw(self.theirs.as_raw_fd())
    }
}

impl Drop for Screen {
    fn drop(&mut self) {
        let _ = self.program.kill();
        let _ = self.program.wait();
    }
}

/// Returns whether keys come at once at a terminal.
pub fn is_raw(terminal: RawFd) -> bool {
    let mut settings = std::mem::MaybeUninit::<libc::termios>::zeroed();
    // SAFETY: the pointer is that of a variable, in which zero is a value, too.
    let settings = unsafe {
        libc::tcgetattr(terminal, settings.as_mut_ptr());
        settings.assume_init()
    };
    settings.c_lflag & libc::ICANON == 0
}

/// Returns both ends of a new terminal.
fn open_terminal() -> io::Result<(File, File)> {
    let (mut ours, mut theirs) = (-1, -1);
    let size = libc::winsize {
        ws_row: 20,
        ws_col: COLUMNS,
        ws_xpixel: 0,
        ws_ypixel: 0,
    };
    // SAFETY: the pointers are those of variables, or null where nothing is wanted. Both files are
    // our own where 0 is answered.
    unsafe {
        let null = ptr::null_mut();
        match libc::openpty(&mut ours, &mut theirs, null, ptr::null(), &raw const size) {
            // The copies are closed in the programs that are started, and these here.
            0 => Ok((
                File::from_raw_fd(ours).try_clone()?,
                File::from_raw_fd(theirs).try_clone()?,
            )),
            _ => Err(io::Error::last_os_error()),
        }
    }
}
