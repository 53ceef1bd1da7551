//! A line, from its prompt to its end.

use std::io::{self, BufRead, Write};
use std::ops::Range;

use crate::error::{ReadlineError, Result};
use crate::handle::{Handle, Progress};
use crate::terminal::{self, Terminal, Wake};

/// How many bytes are read at once.
const PIECE: usize = 4096;

/// What asks the terminal to show what follows at once.
const AT_ONCE: &[u8] = b"\x1b[?2026h";

/// What clears the rows of a line, from the first one on, before it is drawn in full.
const CLEAR: &[u8] = b"\r\x1b[J";

/// The key at which words are completed.
const TAB: u8 = b'\t';

/// What begins most sequences, and is a key by itself.
const ESC: u8 = b'\x1b';

/// How many milliseconds a pause lasts behind the first one.
const PAUSE: u16 = 50;

/// How many pauses settle what has begun, whatever it is.
const PAUSES: u16 = 20;

/// Gives the words that may complete a line, which it is handed with the cursor's place in bytes.
pub(crate) type Completer = Box<dyn FnMut(&str, usize) -> Vec<String>>;

/// What a line begins with.
pub(crate) struct Start<'a> {
    /// The prompt without escape sequences.
    pub(crate) prompt: &'a str,
    /// The prompt as it is shown.
    pub(crate) styled: &'a str,
    /// The texts before and behind the cursor.
    pub(crate) initial: (&'a str, &'a str),
}

/// What a line is read with.
pub(crate) struct Session<'a> {
    /// The editor.
    pub(crate) handle: &'a mut Handle,
    /// Bytes that were read and not yet handed over.
    pub(crate) typed: &'a mut Vec<u8>,
    /// Who is asked for words.
    pub(crate) completer: Option<&'a mut Completer>,
    /// How many milliseconds the byte behind an Esc is waited for; `None` stands for without end.
    pub(crate) timeout: Option<u16>,
    /// What came last.
    pub(crate) last: Last,
    /// The terminal.
    pub(crate) terminal: Terminal,
}

/// What came last: a byte, and whether a pause came behind it.
#[derive(Default)]
pub(crate) struct Last {
    byte: Option<u8>,
    has_paused: bool,
}

impl Session<'_> {
    /// Reads a line. Where that fails, the line is dropped: what was drawn of it stays, and what
    /// comes next stands below.
    pub(crate) fn read(&mut self, start: &Start<'_>) -> Result<String> {
        let answer = self.read_to_end(start);
        // The error that came first is the one that is told.
        if matches!(answer, Err(ReadlineError::Io(_)))
            && !matches!(self.handle.drop_line(), Ok(false))
        {
            self.terminal.break_off();
        }
        answer
    }

    /// Reads a line to its end.
    fn read_to_end(&mut self, start: &Start<'_>) -> Result<String> {
        let (columns, rows) = terminal::size_or_usual();
        self.handle.resize(columns, rows)?;
        let mut progress = self.handle.begin(start.prompt, start.styled, start.initial);
        loop {
            self.show()?;
            progress = match progress? {
                Progress::Reading if self.typed.is_empty() => self.await_more(),
                Progress::Reading => self.feed_typed(),
                Progress::Suspended => {
                    self.terminal.suspend()?;
                    self.draw_anew()
                }
                Progress::Submitted => return self.handle.line(),
                Progress::Ended => return Err(ReadlineError::Eof),
                Progress::Interrupted => return Err(ReadlineError::Interrupted),
            };
        }
    }

    /// Writes what was drawn, unless the line was broken off: then it is to be drawn anew.
    fn show(&mut self) -> Result<()> {
        let drawn = self.handle.take_output()?;
        if self.terminal.is_broken_off() {
            return Ok(());
        }
        Ok(terminal::write_all(&drawn)?)
    }

    /// Draws the line anew, for the size that the terminal has now. One that was broken off is drawn
    /// where the cursor stands. What was typed behind the key that suspended the line is read.
    fn draw_anew(&mut self) -> Result<Progress> {
        let (columns, rows) = terminal::size_or_usual();
        self.handle.resize(columns, rows)?;
        let first = self.handle.take_output()?;
        let progress = self.handle.feed(&[]);
        let again = self.handle.take_output()?;
        let mut drawn = drawn_once(first, &again);
        if self.terminal.take_broken_off() {
            drawn.drain(way_up(&drawn));
        }
        terminal::write_all(&drawn)?;
        progress
    }

    /// Waits for what comes next.
    fn await_more(&mut self) -> Result<Progress> {
        let limit = if self.handle.is_waiting()? {
            self.pause_length()
        } else {
            None
        };
        match self.terminal.wait(limit)? {
            Wake::Input => self.take_input(),
            Wake::Pause => self.settle(),
            Wake::Signal => {
                self.terminal.take_again()?;
                self.draw_anew()
            }
        }
    }

    /// Returns how many milliseconds what belongs to the bytes so far is waited for. Where an Esc may
    /// last without end, what has begun otherwise is waited for until it is settled.
    fn pause_length(&self) -> Option<u16> {
        match self.timeout {
            Some(_) if self.last.has_paused => Some(PAUSE),
            None if self.last.byte != Some(ESC) => Some(PAUSE * PAUSES),
            timeout => timeout,
        }
    }

    /// Settles what has begun, as no byte came for a pause; or for so many, where a single one is not
    /// looked at.
    fn settle(&mut self) -> Result<Progress> {
        self.last.has_paused = true;
        let mut progress = self.handle.flush()?;
        if self.timeout.is_none() {
            for _ in 1..PAUSES {
                if !matches!(progress, Progress::Reading) {
                    break;
                }
                progress = self.handle.flush()?;
            }
        }
        Ok(progress)
    }

    /// Reads what was typed, or finds that nothing will come any more.
    fn take_input(&mut self) -> Result<Progress> {
        let mut buffer = [0; PIECE];
        match self.terminal.read(&mut buffer)? {
            Some(0) => self.handle.finish(),
            Some(read) => {
                self.typed
                    .extend_from_slice(buffer.get(..read).unwrap_or_default());
                self.feed_typed()
            }
            None => Ok(Progress::Reading),
        }
    }

    /// Hands what was typed over. Where there is a completer, what stands before a Tab goes first,
    /// so that the completer sees the line as it is at the Tab.
    fn feed_typed(&mut self) -> Result<Progress> {
        self.last = Last {
            byte: self.typed.last().copied(),
            has_paused: false,
        };
        let Some(completer) = &mut self.completer else {
            return self.handle.feed(&std::mem::take(self.typed));
        };
        if self.typed.first() == Some(&TAB) {
            let cursor = self.handle.cursor()?.unwrap_or(0);
            let words = completer(&self.handle.line()?, cursor);
            self.handle.set_words(&one_a_line(&words))?;
        }
        let piece: Vec<u8> = self.typed.drain(..piece_len(self.typed)).collect();
        self.handle.feed(&piece)
    }
}

/// Returns one drawing for two, as the library draws a line at a new size and again before it reads.
/// What leads to the line is that of the first one, and what follows that of the second.
fn drawn_once(mut first: Vec<u8>, again: &[u8]) -> Vec<u8> {
    let place_in = |drawn: &[u8]| drawn.windows(CLEAR.len()).position(|bytes| bytes == CLEAR);
    match (place_in(&first), place_in(again)) {
        (Some(lead), Some(rest)) => {
            first.truncate(lead);
            first.extend_from_slice(again.get(rest..).unwrap_or_default());
        }
        _ => first.extend_from_slice(again),
    }
    first
}

/// Returns which bytes of a drawing move the cursor from its row up to the first one. They come
/// first, or behind what asks the terminal to show all at once.
fn way_up(drawn: &[u8]) -> Range<usize> {
    let begin = if drawn.starts_with(AT_ONCE) {
        AT_ONCE.len()
    } else {
        0
    };
    let steps = drawn.get(begin..).unwrap_or_default();
    let steps = steps.strip_prefix(b"\x1b[").unwrap_or_default();
    let digits = steps
        .iter()
        .take_while(|byte| byte.is_ascii_digit())
        .count();
    match steps.get(digits) {
        Some(b'A') => begin..begin + 3 + digits,
        _ => begin..begin,
    }
}

/// Returns how many bytes are handed over at once: a Tab that stands first, and what follows it up
/// to the next one.
fn piece_len(typed: &[u8]) -> usize {
    let next_tab = typed.iter().skip(1).position(|byte| *byte == TAB);
    next_tab.map_or(typed.len(), |place| place + 1)
}

/// Returns words as the library takes them. Those that are empty or have a line break are left out.
fn one_a_line(words: &[String]) -> String {
    words
        .iter()
        .filter(|word| !word.is_empty() && !word.contains(['\n', '\r']))
        .map(|word| format!("{word}\n"))
        .collect()
}

/// Reads a line of standard input as it is: it is no terminal, or one that cannot move its cursor.
/// A prompt is shown at a terminal alone.
pub(crate) fn read_plain(prompt: Option<&str>) -> Result<String> {
    terminal::write_all(prompt.unwrap_or_default().as_bytes())?;
    let mut line = Vec::new();
    if io::stdin().lock().read_until(b'\n', &mut line)? == 0 {
        return Err(ReadlineError::Eof);
    }
    if line.ends_with(b"\n") {
        line.pop();
        if line.ends_with(b"\r") {
            line.pop();
        }
    }
    String::from_utf8(line)
        .map_err(|error| io::Error::new(io::ErrorKind::InvalidData, error).into())
}

/// Clears the screen, behind what the program wrote.
pub(crate) fn clear_screen() -> io::Result<()> {
    let mut output = io::stdout().lock();
    output.write_all(b"\x1b[H\x1b[2J")?;
    output.flush()
}

#[cfg(test)]
mod tests {
    use super::*;

    #[test]
    fn a_piece_ends_before_a_tab() {
        assert_eq!(piece_len(b""), 0);
        assert_eq!(piece_len(b"ab"), 2);
        assert_eq!(piece_len(b"ab\tc"), 2);
        assert_eq!(piece_len(b"\tc\td"), 2);
        assert_eq!(piece_len(b"\t\t"), 1);
        assert_eq!(piece_len(b"\tcd"), 3);
    }

    #[test]
    fn the_way_up_begins_a_drawing() {
        assert_eq!(way_up(b"\x1b[12A\r\x1b[J> a"), 0..5);
        assert_eq!(way_up(b"\x1b[?2026h\x1b[1A\r\x1b[J> a"), 8..12);
        assert_eq!(way_up(b"\x1b[?2026h\r\x1b[J> a\x1b[1A"), 8..8);
        assert_eq!(way_up(b"\x1b[3B"), 0..0);
        assert_eq!(way_up(b""), 0..0);
    }

    #[test]
    fn two_drawings_are_shown_as_one() {
        let once = |first: &str, again: &str| drawn_once(first.into(), again.as_bytes());
        let first = "\x1b[?2026h\x1b[2A\r\x1b[J> a\x1b[?2026l";
        let again = "\x1b[?2026h\x1b[1A\r\x1b[J> ab\x1b[?2026lc";
        assert_eq!(
            once(first, again),
            b"\x1b[?2026h\x1b[2A\r\x1b[J> ab\x1b[?2026lc"
        );
        assert_eq!(once(first, "c"), [first.as_bytes(), b"c"].concat());
        assert_eq!(once("", again), again.as_bytes());
    }

    #[test]
    fn words_stand_one_a_line() {
        let words = ["let", "", "two\nlines", "é"].map(String::from);
        assert_eq!(one_a_line(&words), "let\né\n");
        assert_eq!(one_a_line(&[]), "");
    }
}
