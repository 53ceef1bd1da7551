//! Why no line was read.

use std::error::Error;
use std::{fmt, io};

use crate::ffi::status;

/// What a call answers that can fail.
pub type Result<T, E = ReadlineError> = std::result::Result<T, E>;

/// Why no line was read, or why another call did not do what it was asked.
#[derive(Debug)]
#[non_exhaustive]
pub enum ReadlineError {
    /// Input, output or a file failed; memory ran out (`OutOfMemory`); or what was asked for is not
    /// there (`InvalidInput`).
    Io(io::Error),
    /// The input has ended, as by C-d on an empty line.
    Eof,
    /// The person pressed C-c.
    Interrupted,
}

impl ReadlineError {
    /// Returns the error for what a caller asked for that is not there.
    pub(crate) fn refused(what: impl Into<String>) -> Self {
        Self::Io(io::Error::new(io::ErrorKind::InvalidInput, what.into()))
    }

    /// Returns the error that a status of the library stands for.
    pub(crate) fn of_status(status: u32) -> Self {
        let (kind, what) = match status {
            status::NO_MEMORY => return io::ErrorKind::OutOfMemory.into(),
            status::FAILED => (io::ErrorKind::Other, "the editor's input or output failed"),
            status::NOT_TEXT => (io::ErrorKind::InvalidData, "the text is not UTF-8"),
            status::NO_KEY => (io::ErrorKind::InvalidInput, "no key is called so"),
            status::NO_COMMAND => (io::ErrorKind::InvalidInput, "no command is called so"),
            status::BAD_SETTING => (
                io::ErrorKind::InvalidInput,
                "a terminal has at least one column",
            ),
            status::NO_LINE => (io::ErrorKind::Other, "no line is being read"),
            status::HAS_LINE => (io::ErrorKind::Other, "a line is being read"),
            status::EMPTY | status::IN_USE | status::NULL => {
                (io::ErrorKind::Other, "the editor was handed over wrongly")
            }
            _ => (
                io::ErrorKind::Other,
                "the editor answered an unknown status",
            ),
        };
        Self::Io(io::Error::new(kind, what))
    }
}

impl fmt::Display for ReadlineError {
    fn fmt(&self, f: &mut fmt::Formatter<'_>) -> fmt::Result {
        match self {
            Self::Io(error) => error.fmt(f),
            Self::Eof => f.write_str("the input has ended"),
            Self::Interrupted => f.write_str("interrupted"),
        }
    }
}

impl Error for ReadlineError {
    fn source(&self) -> Option<&(dyn Error + 'static)> {
        match self {
            Self::Io(error) => Some(error),
            Self::Eof | Self::Interrupted => None,
        }
    }
}

impl From<io::Error> for ReadlineError {
    fn from(error: io::Error) -> Self {
        Self::Io(error)
    }
}

impl From<io::ErrorKind> for ReadlineError {
    fn from(kind: io::ErrorKind) -> Self {
        Self::Io(kind.into())
    }
}
