//! Commands, and their readline names.

/// How many times a command is done.
pub type RepeatCount = u16;

/// A command of the editor. Keys can be bound to those that have a readline name, which stands
/// first in what is said of each; [`Editor::bind_sequence`](crate::Editor::bind_sequence) refuses
/// the others.
#[derive(Clone, Debug, PartialEq, Eq)]
#[non_exhaustive]
pub enum Cmd {
    /// `abort`: leaves a search or a completion.
    Abort,
    /// `accept-line`: submits the line, or breaks it where a bracket is open and settings say so.
    AcceptLine,
    /// `beginning-of-history`: shows the oldest line.
    BeginningOfHistory,
    /// `capitalize-word`: makes a capital of the next word's first letter.
    CapitalizeWord,
    /// `clear-screen`: clears the screen, and draws the line at its top.
    ClearScreen,
    /// `complete`: completes the word before the cursor.
    Complete,
    /// `complete-backward`: goes back to the completion before.
    CompleteBackward,
    /// `complete-hint`: takes the hint.
    CompleteHint,
    /// `dedent`, of the whole line: moves it to the left.
    Dedent(Movement),
    /// `downcase-word`: writes the next word in small letters.
    DowncaseWord,
    /// `end-of-file`: ends the input where the line is empty.
    EndOfFile,
    /// `end-of-history`: comes back to the line that is being written.
    EndOfHistory,
    /// `forward-search-history`: searches newer lines while typing.
    ForwardSearchHistory,
    /// `history-search-backward`: shows the next older line with the same beginning.
    HistorySearchBackward,
    /// `history-search-forward`: shows the next newer line with the same beginning.
    HistorySearchForward,
    /// `indent`, of the whole line: moves it to the right.
    Indent(Movement),
    /// No name: types a text.
    Insert(RepeatCount, String),
    /// `interrupt`: drops the line.
    Interrupt,
    /// `backward-delete-char`, `backward-kill-line`, `backward-kill-word`, `delete-char`,
    /// `kill-line`, `kill-whole-line`, `kill-word` and `unix-word-rubout`, by the movement: takes
    /// away what it passes over.
    Kill(Movement),
    /// `backward-char`, `backward-word`, `beginning-of-buffer`, `beginning-of-line`,
    /// `end-of-buffer`, `end-of-line`, `forward-char` and `forward-word`, by the movement: moves
    /// the cursor.
    Move(Movement),
    /// `newline`: types a line break.
    Newline,
    /// `next-history`: shows the next newer line.
    NextHistory,
    /// `no-op`: does nothing.
    Noop,
    /// No name: types a character over another one.
    Overwrite(char),
    /// `previous-history`: shows the next older line.
    PreviousHistory,
    /// `quoted-insert`: types the next key as it is.
    QuotedInsert,
    /// `redraw-current-line`: draws the line anew.
    Repaint,
    /// No name: puts another text in place of what a movement passes over.
    Replace(Movement, Option<String>),
    /// No name: puts another character in place of the next ones.
    ReplaceChar(RepeatCount, char),
    /// `reverse-search-history`: searches older lines while typing.
    ReverseSearchHistory,
    /// No name: types a character.
    SelfInsert(RepeatCount, char),
    /// `suspend`: suspends the program.
    Suspend,
    /// `transpose-chars`: swaps two characters.
    TransposeChars,
    /// `transpose-words`: swaps two words.
    TransposeWords(RepeatCount),
    /// `undo`: takes changes back.
    Undo(RepeatCount),
    /// No name: a key that has no command.
    Unknown,
    /// `upcase-word`: writes the next word in capitals.
    UpcaseWord,
    /// No name: copies what a movement passes over.
    ViYankTo(Movement),
    /// `yank`: puts in what was killed last.
    Yank(RepeatCount, Anchor),
    /// `yank-pop`: puts in what was killed before.
    YankPop,
    /// `previous-line-or-history`: goes a line up, or to the next older line.
    LineUpOrPreviousHistory(RepeatCount),
    /// `next-line-or-history`: goes a line down, or to the next newer line.
    LineDownOrNextHistory(RepeatCount),
    /// `accept-line`, in the middle too: submits the line, or breaks it where it is not whole.
    AcceptOrInsertLine {
        /// Whether the line is submitted also where the cursor is not at its end.
        accept_in_the_middle: bool,
    },
}

impl Cmd {
    /// Returns the name by which the library knows the command, if it has one.
    pub(crate) fn readline_name(&self) -> Option<&'static str> {
        Some(match self {
            Self::Abort => "abort",
            Self::AcceptLine => "accept-line",
            Self::AcceptOrInsertLine {
                accept_in_the_middle: true,
            } => "accept-line",
            Self::CapitalizeWord => "capitalize-word",
            Self::ClearScreen => "clear-screen",
            Self::Complete => "complete",
            Self::CompleteBackward => "complete-backward",
            Self::CompleteHint => "complete-hint",
            Self::Dedent(Movement::WholeLine) => "dedent",
            Self::DowncaseWord => "downcase-word",
            Self::EndOfFile => "end-of-file",
            Self::Indent(Movement::WholeLine) => "indent",
            Self::Interrupt => "interrupt",
            Self::Kill(movement) => return kill_name(movement),
            Self::Move(movement) => return move_name(movement),
            Self::Newline => "newline",
            Self::Noop => "no-op",
            Self::QuotedInsert => "quoted-insert",
            Self::Repaint => "redraw-current-line",
            Self::Suspend => "suspend",
            Self::TransposeChars => "transpose-chars",
            Self::TransposeWords(1) => "transpose-words",
            Self::Undo(1) => "undo",
            Self::UpcaseWord => "upcase-word",
            Self::Yank(1, Anchor::Before) => "yank",
            Self::YankPop => "yank-pop",
            _ => return self.history_name(),
        })
    }

    /// Returns the name of a command on lines of the history.
    fn history_name(&self) -> Option<&'static str> {
        Some(match self {
            Self::BeginningOfHistory => "beginning-of-history",
            Self::EndOfHistory => "end-of-history",
            Self::ForwardSearchHistory => "forward-search-history",
            Self::HistorySearchBackward => "history-search-backward",
            Self::HistorySearchForward => "history-search-forward",
            Self::LineDownOrNextHistory(1) => "next-line-or-history",
            Self::LineUpOrPreviousHistory(1) => "previous-line-or-history",
            Self::NextHistory => "next-history",
            Self::PreviousHistory => "previous-history",
            Self::ReverseSearchHistory => "reverse-search-history",
            _ => return None,
        })
    }
}

/// Returns the name of the command that takes away what a movement passes over.
fn kill_name(movement: &Movement) -> Option<&'static str> {
    Some(match movement {
        Movement::BackwardChar(1) => "backward-delete-char",
        Movement::BackwardWord(1, Word::Emacs) => "backward-kill-word",
        Movement::BackwardWord(1, Word::Big) => "unix-word-rubout",
        Movement::BeginningOfLine => "backward-kill-line",
        Movement::EndOfLine => "kill-line",
        Movement::ForwardChar(1) => "delete-char",
        Movement::ForwardWord(1, At::AfterEnd, Word::Emacs) => "kill-word",
        Movement::WholeLine => "kill-whole-line",
        _ => return None,
    })
}

/// Returns the name of the command that moves the cursor so.
fn move_name(movement: &Movement) -> Option<&'static str> {
    Some(match movement {
        Movement::BackwardChar(1) => "backward-char",
        Movement::BackwardWord(1, Word::Emacs) => "backward-word",
        Movement::BeginningOfBuffer => "beginning-of-buffer",
        Movement::BeginningOfLine => "beginning-of-line",
        Movement::EndOfBuffer => "end-of-buffer",
        Movement::EndOfLine => "end-of-line",
        Movement::ForwardChar(1) => "forward-char",
        Movement::ForwardWord(1, At::AfterEnd, Word::Emacs) => "forward-word",
        _ => return None,
    })
}

/// Where a command moves to, or what it passes over.
#[derive(Clone, Debug, PartialEq, Eq)]
#[non_exhaustive]
pub enum Movement {
    /// All of the line at the cursor.
    WholeLine,
    /// To the line's beginning.
    BeginningOfLine,
    /// To the line's end.
    EndOfLine,
    /// Back over words.
    BackwardWord(RepeatCount, Word),
    /// On over words.
    ForwardWord(RepeatCount, At, Word),
    /// To a character that is searched for.
    ViCharSearch(RepeatCount, CharSearch),
    /// To the first character that is no space.
    ViFirstPrint,
    /// Back over characters.
    BackwardChar(RepeatCount),
    /// On over characters.
    ForwardChar(RepeatCount),
    /// Up to the same column.
    LineUp(RepeatCount),
    /// Down to the same column.
    LineDown(RepeatCount),
    /// All of what is being written.
    WholeBuffer,
    /// To the beginning of what is being written.
    BeginningOfBuffer,
    /// To the end of what is being written.
    EndOfBuffer,
}

/// What a word is.
#[derive(Clone, Copy, Debug, PartialEq, Eq)]
pub enum Word {
    /// Characters that are no spaces.
    Big,
    /// Letters and digits.
    Emacs,
    /// Letters, digits and `_`.
    Vi,
}

/// At which side of a word a movement ends.
#[derive(Clone, Copy, Debug, PartialEq, Eq)]
pub enum At {
    /// At its first character.
    Start,
    /// At its last character.
    BeforeEnd,
    /// Behind its last character.
    AfterEnd,
}

/// At which side of the cursor a text is put in.
#[derive(Clone, Copy, Debug, PartialEq, Eq)]
pub enum Anchor {
    /// Behind the character at the cursor.
    After,
    /// Before the character at the cursor.
    Before,
}

/// A search for a character.
#[derive(Clone, Copy, Debug, PartialEq, Eq)]
pub enum CharSearch {
    /// To the next one.
    Forward(char),
    /// To the place before the next one.
    ForwardBefore(char),
    /// To the last one before the cursor.
    Backward(char),
    /// To the place behind the last one before the cursor.
    BackwardAfter(char),
}

#[cfg(test)]
mod tests {
    use super::*;

    #[test]
    fn commands_have_their_readline_names() {
        let kill = |movement| Cmd::Kill(movement).readline_name();
        let go = |movement| Cmd::Move(movement).readline_name();
        assert_eq!(Cmd::Undo(1).readline_name(), Some("undo"));
        assert_eq!(Cmd::Suspend.readline_name(), Some("suspend"));
        assert_eq!(Cmd::Noop.readline_name(), Some("no-op"));
        assert_eq!(
            Cmd::LineUpOrPreviousHistory(1).readline_name(),
            Some("previous-line-or-history")
        );
        assert_eq!(kill(Movement::EndOfLine), Some("kill-line"));
        assert_eq!(
            kill(Movement::BackwardWord(1, Word::Big)),
            Some("unix-word-rubout")
        );
        assert_eq!(go(Movement::BeginningOfLine), Some("beginning-of-line"));
        assert_eq!(
            go(Movement::ForwardWord(1, At::AfterEnd, Word::Emacs)),
            Some("forward-word")
        );
    }

    #[test]
    fn other_commands_have_none() {
        assert_eq!(Cmd::Unknown.readline_name(), None);
        assert_eq!(Cmd::SelfInsert(1, 'a').readline_name(), None);
        assert_eq!(Cmd::Undo(2).readline_name(), None);
        assert_eq!(Cmd::Yank(1, Anchor::After).readline_name(), None);
        assert_eq!(Cmd::Move(Movement::WholeBuffer).readline_name(), None);
        assert_eq!(Cmd::Kill(Movement::BackwardChar(2)).readline_name(), None);
    }
}
