//! The library's handle, made safe: each call hands pointers over that the library may use, and
//! turns the status into a `Result`.

use std::io;
use std::ptr;

use crate::error::{ReadlineError, Result};
use crate::ffi::{self, RawHandle, RawSettings, status};

/// How many bytes are taken from the library at once.
const PIECE: usize = 4096;

/// What has come of the line that is read.
#[derive(Clone, Copy, Debug, PartialEq, Eq)]
pub(crate) enum Progress {
    /// The line goes on: more bytes are wanted.
    Reading,
    /// The line was submitted.
    Submitted,
    /// The input ended.
    Ended,
    /// The person pressed C-c.
    Interrupted,
    /// The person asked to suspend the program.
    Suspended,
}

/// Returns the progress that a status stands for.
fn progress(code: u32) -> Result<Progress> {
    match code {
        status::OK => Ok(Progress::Reading),
        status::SUBMITTED => Ok(Progress::Submitted),
        status::ENDED => Ok(Progress::Ended),
        status::INTERRUPTED => Ok(Progress::Interrupted),
        status::SUSPENDED => Ok(Progress::Suspended),
        _ => Err(ReadlineError::of_status(code)),
    }
}

/// Returns nothing for the status OK, and an error for any other.
fn done(code: u32) -> Result<()> {
    match code {
        status::OK => Ok(()),
        _ => Err(ReadlineError::of_status(code)),
    }
}

/// A line editor of the library, freed when it is dropped. The pointer inside keeps it to the thread
/// that made it.
pub(crate) struct Handle {
    raw: RawHandle,
}

impl Handle {
    /// Makes an editor.
    pub(crate) fn new(settings: &RawSettings) -> Result<Self> {
        let mut handle = Self {
            raw: RawHandle {
                at: ptr::null_mut(),
            },
        };
        // SAFETY: both pointers come from references, and the handle holds nothing yet.
        done(unsafe { ffi::line_c_new(settings, &mut handle.raw) })?;
        Ok(handle)
    }

    /// Begins a line, with a text before and one after the cursor. A line that goes on is dropped.
    pub(crate) fn begin(
        &mut self,
        prompt: &str,
        styled: &str,
        (left, right): (&str, &str),
    ) -> Result<Progress> {
        // SAFETY: the handle holds an editor, and each text is as long as its length says.
        progress(unsafe {
            ffi::line_c_begin_with(
                &mut self.raw,
                prompt.as_ptr(),
                prompt.len(),
                styled.as_ptr(),
                styled.len(),
                left.as_ptr(),
                left.len(),
                right.as_ptr(),
                right.len(),
            )
        })
    }

    /// Hands the terminal's bytes over. None of them draws a suspended line anew.
    pub(crate) fn feed(&mut self, bytes: &[u8]) -> Result<Progress> {
        // SAFETY: the handle holds an editor, and the bytes are as many as their length says.
        progress(unsafe { ffi::line_c_feed(&mut self.raw, bytes.as_ptr(), bytes.len()) })
    }

    /// Settles the bytes that wait for others: a lone Esc is the Esc key.
    pub(crate) fn flush(&mut self) -> Result<Progress> {
        // SAFETY: the handle holds an editor.
        progress(unsafe { ffi::line_c_flush(&mut self.raw) })
    }

    /// Says that the input has ended: a line that would go on is dropped.
    pub(crate) fn finish(&mut self) -> Result<Progress> {
        // SAFETY: the handle holds an editor.
        progress(unsafe { ffi::line_c_finish(&mut self.raw) })
    }

    /// Says how many columns and rows the terminal has.
    pub(crate) fn resize(&mut self, columns: u16, rows: u16) -> Result<()> {
        // SAFETY: the handle holds an editor.
        done(unsafe { ffi::line_c_resize(&mut self.raw, columns, rows) })
    }

    /// Returns whether bytes wait for others that `flush` would settle.
    pub(crate) fn is_waiting(&mut self) -> Result<bool> {
        let mut waiting = 0;
        // SAFETY: the handle holds an editor, and the answer goes to a variable beside it.
        done(unsafe { ffi::line_c_is_waiting(&mut self.raw, &mut waiting) })?;
        Ok(waiting != 0)
    }

    /// Takes the bytes that are to be written to the terminal.
    pub(crate) fn take_output(&mut self) -> Result<Vec<u8>> {
        self.take_pieces(|raw, buffer, taken| {
            // SAFETY: the handle holds an editor, the buffer has room for as many bytes as are
            // named, and the count goes to a variable beside both.
            unsafe { ffi::line_c_output(raw, buffer.as_mut_ptr(), buffer.len(), taken) }
        })
    }

    /// Returns the line that goes on, or else the one that was submitted last.
    pub(crate) fn line(&mut self) -> Result<String> {
        let mut buffer = vec![0; PIECE];
        let mut length = 0;
        loop {
            // SAFETY: the handle holds an editor, the buffer has room for as many bytes as are
            // named, and the length goes to a variable beside both.
            let code = unsafe {
                ffi::line_c_line(
                    &mut self.raw,
                    buffer.as_mut_ptr(),
                    buffer.len(),
                    &mut length,
                )
            };
            if code != status::TOO_SMALL || length <= buffer.len() {
                done(code)?;
                buffer.truncate(length);
                return text_of(buffer);
            }
            buffer.resize(length, 0);
        }
    }

    /// Returns the byte of the line at which the cursor stands, or `None` where no line goes on.
    pub(crate) fn cursor(&mut self) -> Result<Option<usize>> {
        let mut cursor = 0;
        // SAFETY: the handle holds an editor, and the answer goes to a variable beside it.
        match unsafe { ffi::line_c_cursor(&mut self.raw, &mut cursor) } {
            status::NO_LINE => Ok(None),
            code => done(code).map(|()| Some(cursor)),
        }
    }

    /// Drops the line that an error left going on, and what is drawn of it. Keys that were typed
    /// ahead are kept. Returns whether a line went on.
    pub(crate) fn drop_line(&mut self) -> Result<bool> {
        self.take_output()?;
        // SAFETY: the handle holds an editor.
        match unsafe { ffi::line_c_abandon(&mut self.raw) } {
            status::NO_LINE => Ok(false),
            code => {
                done(code)?;
                self.take_output()?;
                Ok(true)
            }
        }
    }

    /// Adds a line to the history, which may leave it out.
    pub(crate) fn add_history(&mut self, line: &str) -> Result<()> {
        // SAFETY: the handle holds an editor, and the text is as long as its length says.
        done(unsafe { ffi::line_c_history_add(&mut self.raw, line.as_ptr(), line.len()) })
    }

    /// Adds the lines of a text to the history.
    pub(crate) fn load_history(&mut self, text: &[u8]) -> Result<()> {
        // SAFETY: the handle holds an editor, and the text is as long as its length says.
        done(unsafe { ffi::line_c_history_load(&mut self.raw, text.as_ptr(), text.len()) })
    }

    /// Returns the history as a text: all lines behind a header, or those alone that are new since
    /// the last call of this or of `load_history`.
    pub(crate) fn history_text(&mut self, only_new: bool) -> Result<String> {
        // SAFETY: the handle holds an editor.
        done(unsafe { ffi::line_c_history_save(&mut self.raw, only_new.into()) })?;
        let text = self.take_pieces(|raw, buffer, taken| {
            // SAFETY: the handle holds an editor, the buffer has room for as many bytes as are
            // named, and the count goes to a variable beside both.
            unsafe { ffi::line_c_saved(raw, buffer.as_mut_ptr(), buffer.len(), taken) }
        })?;
        text_of(text)
    }

    /// Sets the words for completion, one a line.
    pub(crate) fn set_words(&mut self, words: &str) -> Result<()> {
        // SAFETY: the handle holds an editor, and the text is as long as its length says.
        done(unsafe { ffi::line_c_set_words(&mut self.raw, words.as_ptr(), words.len()) })
    }

    /// Binds keys to a command, each by its name.
    pub(crate) fn bind(&mut self, keys: &str, command: &str) -> Result<()> {
        // SAFETY: the handle holds an editor, and each text is as long as its length says.
        let code = unsafe {
            ffi::line_c_bind(
                &mut self.raw,
                keys.as_ptr(),
                keys.len(),
                command.as_ptr(),
                command.len(),
            )
        };
        match code {
            status::NO_KEY => Err(ReadlineError::refused(format!("no key is called {keys}"))),
            status::NO_COMMAND => Err(ReadlineError::refused(format!(
                "no command is called {command}"
            ))),
            _ => done(code),
        }
    }

    /// Calls the library for pieces of a text until it has no more.
    fn take_pieces(
        &mut self,
        take: impl Fn(&mut RawHandle, &mut [u8], &mut usize) -> u32,
    ) -> Result<Vec<u8>> {
        let mut bytes = Vec::new();
        let mut buffer = [0; PIECE];
        loop {
            let mut taken = 0;
            done(take(&mut self.raw, &mut buffer, &mut taken))?;
            match buffer.get(..taken) {
                Some([]) => return Ok(bytes),
                Some(piece) => bytes.extend_from_slice(piece),
                None => return Err(ReadlineError::of_status(status::TOO_SMALL)),
            }
        }
    }
}

impl Drop for Handle {
    fn drop(&mut self) {
        // SAFETY: the handle is no longer used. One that holds nothing is answered by a status.
        unsafe { ffi::line_c_free(&mut self.raw) };
    }
}

/// Returns bytes as a text.
fn text_of(bytes: Vec<u8>) -> Result<String> {
    String::from_utf8(bytes)
        .map_err(|error| io::Error::new(io::ErrorKind::InvalidData, error).into())
}

#[cfg(test)]
mod tests {
    use super::*;
    use crate::config::Config;

    #[test]
    fn a_line_that_is_dropped_is_no_longer_in_the_way() -> Result<()> {
        let mut handle = Handle::new(&Config::default().to_raw((80, 24), false))?;
        assert!(!handle.drop_line()?);
        handle.begin("> ", "> ", ("ab", ""))?;
        assert!(handle.add_history("c").is_err());
        assert!(handle.drop_line()?);
        assert_eq!(handle.cursor()?, None);
        assert!(handle.take_output()?.is_empty());
        handle.add_history("c")?;
        assert_eq!(handle.history_text(false)?, "#V3\nc\n");
        Ok(())
    }

    #[test]
    fn the_end_of_the_input_ends_a_line() -> Result<()> {
        let mut handle = Handle::new(&Config::default().to_raw((80, 24), false))?;
        handle.begin("> ", "> ", ("", ""))?;
        assert_eq!(handle.feed(b"ab\x1b[")?, Progress::Reading);
        assert_eq!(handle.finish()?, Progress::Ended);
        assert_eq!(handle.cursor()?, None);
        Ok(())
    }
}
