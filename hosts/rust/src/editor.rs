//! The editor.

use std::path::Path;
use std::{fmt, mem};

use crate::binding::{Event, EventHandler};
use crate::command::Cmd;
use crate::config::Config;
use crate::error::{ReadlineError, Result};
use crate::handle::Handle;
use crate::history::{DefaultHistory, History};
use crate::history_file::{self, Form};
use crate::prompt::Prompt;
use crate::session::{self, Completer, Session, Start};
use crate::terminal::{self, Terminal};

/// What helps an editor. There is none but `()`: hints and brackets are settings of [`Config`], and
/// words come from [`Editor::set_completer`].
pub trait Helper {}

impl Helper for () {}

/// An editor without a helper, with the usual history.
pub type DefaultEditor = Editor<(), DefaultHistory>;

/// A line editor at the terminal of the process. It stays in the thread that made it:
///
/// ```compile_fail
/// fn needs_send<T: Send>() {}
/// needs_send::<comvizga::DefaultEditor>();
/// ```
pub struct Editor<H: Helper = (), I: History = DefaultHistory> {
    handle: Handle,
    config: Config,
    helper: Option<H>,
    history: I,
    completer: Option<Completer>,
    bound: Vec<(String, Cmd)>,
    typed: Vec<u8>,
}

impl<H: Helper> Editor<H, DefaultHistory> {
    /// Makes an editor with the usual settings.
    ///
    /// # Errors
    /// Memory ran out.
    pub fn new() -> Result<Self> {
        Self::with_config(Config::default())
    }

    /// Makes an editor with settings.
    ///
    /// # Errors
    /// Memory ran out.
    pub fn with_config(config: Config) -> Result<Self> {
        let bound = vec![("C-Z".to_owned(), Cmd::Suspend)];
        Ok(Self {
            handle: make_handle(&config, &bound)?,
            history: DefaultHistory::with_most(config.max_history_size()),
            config,
            helper: None,
            completer: None,
            bound,
            typed: Vec::new(),
        })
    }

    /// Reads a line. Where standard input is a terminal, the prompt is shown and the line is edited;
    /// elsewhere a line of standard input is read as it is.
    ///
    /// # Errors
    /// [`ReadlineError::Eof`] where the input has ended, [`ReadlineError::Interrupted`] at C-c, and
    /// [`ReadlineError::Io`] where input or output failed, a line of a file is not UTF-8, memory
    /// ran out, or another line is being read.
    pub fn readline<P: Prompt + ?Sized>(&mut self, prompt: &P) -> Result<String> {
        self.readline_with_initial(prompt, ("", ""))
    }

    /// Reads a line as [`readline`](Self::readline) does, which begins with a text before and one
    /// behind the cursor.
    ///
    /// # Errors
    /// Those of [`readline`](Self::readline).
    pub fn readline_with_initial<P: Prompt + ?Sized>(
        &mut self,
        prompt: &P,
        initial: (&str, &str),
    ) -> Result<String> {
        if !terminal::is_there() {
            return session::read_plain(None);
        }
        if terminal::is_dumb() {
            return session::read_plain(Some(prompt.raw()));
        }
        let mut session = Session {
            terminal: Terminal::take(self.config.enable_bracketed_paste())?,
            handle: &mut self.handle,
            typed: &mut self.typed,
            completer: self.completer.as_mut(),
            timeout: self.config.keyseq_timeout(),
            last: session::Last::default(),
        };
        let answer = session.read(&Start {
            prompt: prompt.raw(),
            styled: if self.config.has_colors(terminal::is_output()) {
                prompt.styled()
            } else {
                prompt.raw()
            },
            initial,
        });
        drop(session);
        if self.config.auto_add_history() && answer.is_ok() {
            // Where memory runs out, the line is noted with the next one.
            let _ = self.note_new_lines();
        }
        answer
    }

    /// Returns the lines that are read behind the same prompt, up to the end of the input.
    pub fn iter<'a, P: Prompt + ?Sized>(
        &'a mut self,
        prompt: &'a P,
    ) -> impl Iterator<Item = Result<String>> + 'a {
        std::iter::from_fn(move || match self.readline(prompt) {
            Err(ReadlineError::Eof) => None,
            answer => Some(answer),
        })
    }

    /// Adds a line to the history. Returns whether the history took it: it leaves out an empty
    /// line, and those that the settings name.
    ///
    /// # Errors
    /// Memory ran out.
    pub fn add_history_entry<S: AsRef<str> + Into<String>>(&mut self, line: S) -> Result<bool> {
        self.note_new_lines()?;
        self.handle.add_history(line.as_ref())?;
        self.note_new_lines()
    }

    /// Adds the lines of a file to the history. The file is one that
    /// [`save_history`](Self::save_history) or rustyline made, or has plain lines.
    ///
    /// # Errors
    /// The file is not there, cannot be read or is not UTF-8, or memory ran out.
    pub fn load_history<P: AsRef<Path> + ?Sized>(&mut self, path: &P) -> Result<()> {
        let text = history_file::read(path.as_ref())?;
        self.note_new_lines()?;
        if let Err(error) = self.handle.load_history(&text) {
            // The lines before the fault are there, as new ones.
            self.note_new_lines()?;
            return Err(error);
        }
        let lines = self.handle.history_text(false)?;
        self.history.take_all(&lines);
        Ok(())
    }

    /// Puts the history in place of what a file holds. The file is written beside the old one, which
    /// is locked, and then renamed; its owner alone can read it.
    ///
    /// # Errors
    /// A file cannot be made or written, and the old one is as it was; or memory ran out.
    pub fn save_history<P: AsRef<Path> + ?Sized>(&mut self, path: &P) -> Result<()> {
        self.note_new_lines()?;
        let text = self.whole_text()?;
        history_file::write(path.as_ref(), text.as_bytes())?;
        self.history.set_written();
        Ok(())
    }

    /// Appends those lines to a file, which is locked, that came since the history was last loaded,
    /// saved or appended. A file that is empty or not there gets the whole history.
    ///
    /// # Errors
    /// The file cannot be made or written; or it is rustyline's, or has plain lines where the settings
    /// do not say so; or memory ran out. The lines are then appended the next time.
    pub fn append_history<P: AsRef<Path> + ?Sized>(&mut self, path: &P) -> Result<()> {
        self.note_new_lines()?;
        let wanted = if self.config.history_plain() {
            Form::Plain
        } else {
            Form::Escaped
        };
        let whole = self.whole_text()?;
        let lines = |form| self.history.unwritten_text(form);
        history_file::append(path.as_ref(), wanted, lines, &whole)?;
        self.history.set_written();
        Ok(())
    }

    /// Sets how many lines the history keeps, and drops the oldest where there are more. Where the
    /// number is another one, the editor is made anew for it, as by
    /// [`clear_history`](Self::clear_history).
    ///
    /// # Errors
    /// Memory ran out, and the number is as it was.
    pub fn set_max_history_size(&mut self, lines: usize) -> Result<()> {
        if lines == self.config.max_history_size() {
            return Ok(());
        }
        self.note_new_lines()?;
        let mut config = self.config.clone();
        config.set_max_history_size(lines);
        let mut handle = make_handle(&config, &self.bound)?;
        handle.load_history(self.handle.history_text(false)?.as_bytes())?;
        self.history.set_most(lines);
        (self.config, self.handle) = (config, handle);
        Ok(())
    }

    /// Drops all lines of the history. The editor is made anew for it: what was killed is dropped
    /// too, and so are keys that were typed ahead.
    ///
    /// # Errors
    /// Memory ran out.
    pub fn clear_history(&mut self) -> Result<()> {
        self.handle = make_handle(&self.config, &self.bound)?;
        self.history.clear();
        Ok(())
    }

    /// Binds a key or a sequence of keys to a command that has a readline name. Returns what it was
    /// bound to before by this call; C-z is bound to [`Cmd::Suspend`] at first.
    ///
    /// # Errors
    /// The keys have no name, or the command has none (`InvalidInput`); or memory ran out.
    pub fn bind_sequence<E: Into<Event>, R: Into<EventHandler>>(
        &mut self,
        key_seq: E,
        handler: R,
    ) -> Result<Option<EventHandler>> {
        let (event, EventHandler::Simple(command)) = (key_seq.into(), handler.into());
        let Some(keys) = event.names() else {
            return Err(ReadlineError::refused("the event is no sequence of keys"));
        };
        let mut bound = self.bound.iter_mut();
        match bound.find(|(bound, _)| *bound == keys) {
            // The library would keep each binding, and look at all of them.
            Some((_, before)) if *before == command => Ok(Some(EventHandler::Simple(command))),
            Some((_, before)) => {
                bind(&mut self.handle, &keys, &command)?;
                let before = mem::replace(before, command);
                Ok(Some(EventHandler::Simple(before)))
            }
            None => {
                bind(&mut self.handle, &keys, &command)?;
                self.bound.push((keys, command));
                Ok(None)
            }
        }
    }

    /// Sets who is asked for words when the terminal sends a Tab. It is handed the line and the
    /// cursor's place in bytes, and answers the words from which the editor completes the one at
    /// the cursor; empty words and those with a line break are left out. Another key that is bound
    /// to [`Cmd::Complete`] completes by the words of the last Tab.
    pub fn set_completer<F>(&mut self, completer: F)
    where
        F: FnMut(&str, usize) -> Vec<String> + 'static,
    {
        self.completer = Some(Box::new(completer));
    }

    /// Clears the screen.
    ///
    /// # Errors
    /// Output failed.
    pub fn clear_screen(&mut self) -> Result<()> {
        Ok(session::clear_screen()?)
    }

    /// Returns the columns and rows of the terminal, or `None` where standard output is none.
    #[must_use]
    pub fn dimensions(&mut self) -> Option<(usize, usize)> {
        terminal::size().map(|(columns, rows)| (columns.into(), rows.into()))
    }

    /// Returns the whole history as it goes into a file.
    fn whole_text(&mut self) -> Result<String> {
        if self.config.history_plain() {
            Ok(self.history.plain_text())
        } else {
            self.handle.history_text(false)
        }
    }

    /// Takes lines over that are new in the library's history, and returns whether there are any.
    fn note_new_lines(&mut self) -> Result<bool> {
        self.handle.drop_line()?;
        let text = self.handle.history_text(true)?;
        Ok(self.history.take_new(&text))
    }
}

impl<H: Helper, I: History> Editor<H, I> {
    /// Returns the history.
    pub fn history(&self) -> &I {
        &self.history
    }

    /// Keeps a helper, which does nothing.
    pub fn set_helper(&mut self, helper: Option<H>) {
        self.helper = helper;
    }

    /// Returns the helper that was kept.
    pub fn helper(&self) -> Option<&H> {
        self.helper.as_ref()
    }

    /// Returns the helper that was kept.
    pub fn helper_mut(&mut self) -> Option<&mut H> {
        self.helper.as_mut()
    }

    /// Returns the settings.
    pub fn config(&self) -> &Config {
        &self.config
    }
}

impl<H: Helper, I: History> fmt::Debug for Editor<H, I> {
    fn fmt(&self, f: &mut fmt::Formatter<'_>) -> fmt::Result {
        f.debug_struct("Editor")
            .field("config", &self.config)
            .field("lines", &self.history.len())
            .field("bound", &self.bound)
            .finish_non_exhaustive()
    }
}

/// Makes an editor of the library, with keys bound to commands.
fn make_handle(config: &Config, bound: &[(String, Cmd)]) -> Result<Handle> {
    let colors = config.has_colors(terminal::is_output());
    let mut handle = Handle::new(&config.to_raw(terminal::size_or_usual(), colors))?;
    for (keys, command) in bound {
        bind(&mut handle, keys, command)?;
    }
    Ok(handle)
}

/// Binds keys, by their names, to a command.
fn bind(handle: &mut Handle, keys: &str, command: &Cmd) -> Result<()> {
    match command.readline_name() {
        Some(name) => handle.bind(keys, name),
        None => Err(ReadlineError::refused(format!(
            "{command:?} has no readline name"
        ))),
    }
}

#[cfg(test)]
mod tests {
    use super::*;
    use crate::keys::{KeyCode, KeyEvent, Modifiers};
    use std::time::{Duration, Instant};

    /// Returns how long it takes to type some keys, when nothing comes in between.
    fn time_of_keys(editor: &mut DefaultEditor) -> Result<Duration> {
        let mut best = Duration::MAX;
        for _ in 0..5 {
            editor.handle.begin("> ", "> ", ("", ""))?;
            let started = Instant::now();
            for _ in 0..20 {
                editor.handle.feed(b"a")?;
            }
            best = best.min(started.elapsed());
            editor.handle.drop_line()?;
        }
        Ok(best)
    }

    #[test]
    fn a_key_that_is_bound_again_takes_no_more_time() -> Result<()> {
        let mut editor = DefaultEditor::new()?;
        let before = time_of_keys(&mut editor)?;
        let keys = [5, 6].map(|number| KeyEvent(KeyCode::F(number), Modifiers::NONE));
        for _ in 0..50_000 {
            editor.bind_sequence(keys[0], Cmd::Undo(1))?;
            editor.bind_sequence(keys[1], Cmd::ClearScreen)?;
        }
        let after = time_of_keys(&mut editor)?;
        assert!(after < 20 * before, "{before:?}, then {after:?}");
        Ok(())
    }
}
