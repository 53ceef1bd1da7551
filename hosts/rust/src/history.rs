//! The lines that were entered before.

use std::collections::VecDeque;

use crate::history_file::Form;

/// Lines that were entered before, the oldest first.
pub trait History {
    /// Returns how many lines there are.
    fn len(&self) -> usize;

    /// Returns whether there are none.
    fn is_empty(&self) -> bool;
}

/// The history of an editor that is not said to have another one.
pub type DefaultHistory = FileHistory;

/// A history that can be kept in a file. It shows the lines that the library holds.
#[derive(Clone, Debug)]
pub struct FileHistory {
    lines: VecDeque<String>,
    // The newest lines, as they go into a file, that were not yet written to one.
    unwritten: VecDeque<String>,
    most: usize,
}

impl FileHistory {
    /// Returns an empty history that keeps so many lines.
    pub(crate) fn with_most(most: usize) -> Self {
        Self {
            lines: VecDeque::new(),
            unwritten: VecDeque::new(),
            most,
        }
    }

    /// Returns the lines, the oldest first.
    pub fn iter(&self) -> impl DoubleEndedIterator<Item = &String> {
        self.lines.iter()
    }

    /// Takes lines that are new, from a text as it goes into a file. Returns whether there are any.
    pub(crate) fn take_new(&mut self, text: &str) -> bool {
        for line in text.lines() {
            push(&mut self.lines, unescape(line), self.most);
            push(&mut self.unwritten, line.to_owned(), self.most);
        }
        !text.is_empty()
    }

    /// Takes all lines anew, from a text with a header. None of them is new.
    pub(crate) fn take_all(&mut self, text: &str) {
        self.lines.clear();
        self.unwritten.clear();
        for line in text.lines().skip(1) {
            push(&mut self.lines, unescape(line), self.most);
        }
    }

    /// Says how many lines are kept, and drops the oldest where there are more.
    pub(crate) fn set_most(&mut self, most: usize) {
        self.most = most;
        for lines in [&mut self.lines, &mut self.unwritten] {
            lines.drain(..lines.len().saturating_sub(most));
        }
    }

    /// Returns the lines that were not yet written, as they go into a file of a form.
    pub(crate) fn unwritten_text(&self, form: Form) -> String {
        let formed = |line: &String| match form {
            Form::Escaped => ended(line),
            Form::Plain => ended(unescape(line)),
        };
        self.unwritten.iter().map(formed).collect()
    }

    /// Returns all lines as they are.
    pub(crate) fn plain_text(&self) -> String {
        self.lines.iter().map(ended).collect()
    }

    /// Says that all lines were written.
    pub(crate) fn set_written(&mut self) {
        self.unwritten.clear();
    }

    /// Drops all lines.
    pub(crate) fn clear(&mut self) {
        self.lines.clear();
        self.unwritten.clear();
    }
}

impl History for FileHistory {
    fn len(&self) -> usize {
        self.lines.len()
    }

    fn is_empty(&self) -> bool {
        self.lines.is_empty()
    }
}

/// Returns a line with what ends it in a file.
fn ended(line: impl AsRef<str>) -> String {
    let mut line = line.as_ref().to_owned();
    line.push('\n');
    line
}

/// Puts a line behind others, and drops the oldest where there are too many.
fn push(lines: &mut VecDeque<String>, line: String, most: usize) {
    lines.push_back(line);
    if lines.len() > most {
        lines.pop_front();
    }
}

/// Returns the line that is written so in a file: `\n`, `\r` and `\\` stand for what they say.
fn unescape(line: &str) -> String {
    let mut plain = String::with_capacity(line.len());
    let mut chars = line.chars();
    while let Some(c) = chars.next() {
        let is_escape = c == '\\';
        match if is_escape { chars.next() } else { Some(c) } {
            Some('n') if is_escape => plain.push('\n'),
            Some('r') if is_escape => plain.push('\r'),
            Some(c) => plain.push(c),
            None => plain.push('\\'),
        }
    }
    plain
}

#[cfg(test)]
mod tests {
    use super::*;

    fn lines(history: &FileHistory) -> Vec<&str> {
        history.iter().map(String::as_str).collect()
    }

    #[test]
    fn new_lines_wait_to_be_written() {
        let mut history = FileHistory::with_most(2);
        assert!(history.is_empty());
        assert!(history.take_new("a\nb\\nc\n"));
        assert!(history.take_new("\\\\d\n"));
        assert!(!history.take_new(""));
        assert_eq!(lines(&history), ["b\nc", "\\d"]);
        assert_eq!(history.unwritten_text(Form::Escaped), "b\\nc\n\\\\d\n");
        history.set_written();
        assert_eq!(history.unwritten_text(Form::Escaped), "");
        assert_eq!(history.len(), 2);
    }

    #[test]
    fn a_new_limit_drops_the_oldest_lines() {
        let mut history = FileHistory::with_most(usize::MAX);
        history.take_all("#V3\na\n");
        history.take_new("b\nc\\nd\ne\\\\\n");
        history.set_most(2);
        assert_eq!(history.plain_text(), "c\nd\ne\\\n");
        assert_eq!(history.unwritten_text(Form::Plain), "c\nd\ne\\\n");
        history.set_most(3);
        history.take_new("f\n");
        assert_eq!(lines(&history), ["c\nd", "e\\", "f"]);
        history.set_most(0);
        assert!(!history.take_new("") && history.is_empty());
    }

    #[test]
    fn loaded_lines_are_not_new() {
        let mut history = FileHistory::with_most(10);
        history.take_new("old\n");
        history.take_all("#V3\nold\nb\\r\n\\\\n\n");
        assert_eq!(lines(&history), ["old", "b\r", "\\n"]);
        assert_eq!(history.unwritten_text(Form::Escaped), "");
    }

    #[test]
    fn a_backslash_at_the_end_stays() {
        assert_eq!(unescape("a\\"), "a\\");
        assert_eq!(unescape("\\\\\\n"), "\\\n");
    }
}
