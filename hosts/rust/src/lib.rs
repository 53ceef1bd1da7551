//! A line editor for the terminal, with the names of rustyline. Keys are read, and the line is
//! edited and drawn, by a library whose functions are proved to meet their contracts; this crate
//! makes the terminal raw, reads its bytes and writes what the library draws.
//!
//! ```no_run
//! use comvizga::{DefaultEditor, Result};
//!
//! fn main() -> Result<()> {
//!     let mut editor = DefaultEditor::new()?;
//!     for line in editor.iter("> ") {
//!         println!("{}", line?);
//!     }
//!     Ok(())
//! }
//! ```
//!
//! The crate is for Linux. Places in a line are counted in bytes, sizes of a terminal in columns and
//! rows, and times in milliseconds. While a line is read, the signals `WINCH` and `CONT` are
//! caught, and where the program does not handle them itself `TSTP` and those that end a process,
//! before which the terminal is set back. So it is before `SEGV` and `BUS`, also where they have a
//! handler, which is then called.
#![warn(missing_docs)]
#![warn(clippy::undocumented_unsafe_blocks)]

mod binding;
mod command;
pub mod config;
mod editor;
pub mod error;
mod faults;
mod ffi;
mod handle;
pub mod history;
mod history_file;
mod keys;
mod mode;
mod prompt;
mod session;
mod signals;
mod terminal;
mod turn;

pub use binding::{Event, EventHandler};
pub use command::{Anchor, At, CharSearch, Cmd, Movement, RepeatCount, Word};
pub use config::{Builder, ColorMode, CompletionType, Config, EditMode, HistoryDuplicates};
pub use editor::{DefaultEditor, Editor, Helper};
pub use error::{ReadlineError, Result};
pub use keys::{KeyCode, KeyEvent, Modifiers};
pub use prompt::Prompt;
