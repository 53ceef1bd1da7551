//! The settings of an editor.

use std::env;

use crate::error::Result;
use crate::ffi::RawSettings;

/// How long a lone Esc is waited for in Vi's keys, in milliseconds.
const VI_TIMEOUT: u16 = 500;

/// The settings of an editor, made by [`Config::builder`].
#[derive(Clone, Debug, PartialEq, Eq)]
pub struct Config {
    max_history_size: usize,
    history_duplicates: HistoryDuplicates,
    history_ignore_space: bool,
    history_plain: bool,
    completion_type: CompletionType,
    completion_prompt_limit: usize,
    completion_show_all_if_ambiguous: bool,
    keyseq_timeout: Option<u16>,
    edit_mode: EditMode,
    auto_add_history: bool,
    color_mode: ColorMode,
    indent_size: u8,
    bracketed_paste: bool,
    synchronized_output: bool,
    hints: bool,
    brackets: bool,
}

impl Config {
    /// Returns a builder that has the usual settings.
    #[must_use]
    pub fn builder() -> Builder {
        Builder::new()
    }

    /// Returns how many lines the history keeps. Usually it keeps all.
    #[must_use]
    pub fn max_history_size(&self) -> usize {
        self.max_history_size
    }

    /// Returns whether the history takes a line that equals its newest one. Usually it does not.
    #[must_use]
    pub fn history_duplicates(&self) -> HistoryDuplicates {
        self.history_duplicates
    }

    /// Returns whether the history leaves out lines that begin with white space. Usually not.
    #[must_use]
    pub fn history_ignore_space(&self) -> bool {
        self.history_ignore_space
    }

    /// Returns whether files of the history have plain lines. Usually they have the form `#V3`.
    #[must_use]
    pub fn history_plain(&self) -> bool {
        self.history_plain
    }

    /// Returns how words are completed. Usually the candidates are gone through.
    #[must_use]
    pub fn completion_type(&self) -> CompletionType {
        self.completion_type
    }

    /// Returns how many candidates are listed without asking. Usually 100.
    #[must_use]
    pub fn completion_prompt_limit(&self) -> usize {
        self.completion_prompt_limit
    }

    /// Returns whether candidates are listed at the first Tab, not at the second. Usually not.
    #[must_use]
    pub fn completion_show_all_if_ambiguous(&self) -> bool {
        self.completion_show_all_if_ambiguous
    }

    /// Returns how many milliseconds a byte is waited for that may belong to an Esc before it, or
    /// `None` where it is waited for without end: a lone Esc is then no key until another byte
    /// comes. Usually `None`, and 500 with the keys of Vi.
    #[must_use]
    pub fn keyseq_timeout(&self) -> Option<u16> {
        self.keyseq_timeout
    }

    /// Returns whose keys are used. Usually those of Emacs.
    #[must_use]
    pub fn edit_mode(&self) -> EditMode {
        self.edit_mode
    }

    /// Returns whether a line that was read at a terminal goes into the history. Usually not.
    #[must_use]
    pub fn auto_add_history(&self) -> bool {
        self.auto_add_history
    }

    /// Returns whether colors are on. They are usually, where standard output is a terminal; a
    /// variable `NO_COLOR` that is set and not empty disables them.
    #[must_use]
    pub fn color_mode(&self) -> ColorMode {
        let is_unwanted = || env::var_os("NO_COLOR").is_some_and(|value| !value.is_empty());
        match self.color_mode {
            ColorMode::Enabled if is_unwanted() => ColorMode::Disabled,
            mode => mode,
        }
    }

    /// Returns how many spaces a step of indentation has. Usually 2.
    #[must_use]
    pub fn indent_size(&self) -> u8 {
        self.indent_size
    }

    /// Returns whether the terminal marks pasted texts, which are then typed as they are. Usually
    /// it does.
    #[must_use]
    pub fn enable_bracketed_paste(&self) -> bool {
        self.bracketed_paste
    }

    /// Returns whether the terminal is asked to show each drawing at once. Usually it is.
    #[must_use]
    pub fn enable_synchronized_output(&self) -> bool {
        self.synchronized_output
    }

    /// Returns whether hints from the history are shown. Usually not.
    #[must_use]
    pub fn hints(&self) -> bool {
        self.hints
    }

    /// Returns whether Enter breaks the line while a bracket is open, and the bracket is lit that
    /// matches the one at the cursor. Usually not.
    #[must_use]
    pub fn brackets(&self) -> bool {
        self.brackets
    }

    /// Sets how many lines the history keeps.
    pub(crate) fn set_max_history_size(&mut self, lines: usize) {
        self.max_history_size = lines;
    }

    /// Returns whether colors are shown, at an output that is a terminal or not.
    pub(crate) fn has_colors(&self, at_terminal: bool) -> bool {
        match self.color_mode() {
            ColorMode::Enabled => at_terminal,
            ColorMode::Forced => true,
            ColorMode::Disabled => false,
        }
    }

    /// Returns the settings as the library takes them, for a terminal of so many columns and rows.
    pub(crate) fn to_raw(&self, (columns, rows): (u16, u16), colors: bool) -> RawSettings {
        RawSettings {
            max_history_size: self.max_history_size,
            completion_prompt_limit: self.completion_prompt_limit,
            columns,
            rows,
            vi: (self.edit_mode == EditMode::Vi).into(),
            list_completions: (self.completion_type == CompletionType::List).into(),
            show_all_if_ambiguous: self.completion_show_all_if_ambiguous.into(),
            hints: self.hints.into(),
            brackets: self.brackets.into(),
            colors: colors.into(),
            auto_add_history: self.auto_add_history.into(),
            history_ignore_dups: (self.history_duplicates == HistoryDuplicates::IgnoreConsecutive)
                .into(),
            history_ignore_space: self.history_ignore_space.into(),
            bracketed_paste: self.bracketed_paste.into(),
            synchronized_output: self.synchronized_output.into(),
            indent_size: self.indent_size,
        }
    }
}

impl Default for Config {
    fn default() -> Self {
        Self {
            max_history_size: usize::MAX,
            history_duplicates: HistoryDuplicates::IgnoreConsecutive,
            history_ignore_space: false,
            history_plain: false,
            completion_type: CompletionType::Circular,
            completion_prompt_limit: 100,
            completion_show_all_if_ambiguous: false,
            keyseq_timeout: None,
            edit_mode: EditMode::Emacs,
            auto_add_history: false,
            color_mode: ColorMode::Enabled,
            indent_size: 2,
            bracketed_paste: true,
            synchronized_output: true,
            hints: false,
            brackets: false,
        }
    }
}

/// Whether the history takes a line that equals its newest one.
#[derive(Clone, Copy, Debug, PartialEq, Eq)]
pub enum HistoryDuplicates {
    /// It takes it.
    AlwaysAdd,
    /// It leaves it out.
    IgnoreConsecutive,
}

/// How words are completed.
#[derive(Clone, Copy, Debug, PartialEq, Eq)]
#[non_exhaustive]
pub enum CompletionType {
    /// Each Tab puts the next candidate in.
    Circular,
    /// What the candidates have in common is put in, and then they are listed.
    List,
}

/// Whose keys are used.
#[derive(Clone, Copy, Debug, PartialEq, Eq)]
#[non_exhaustive]
pub enum EditMode {
    /// Those of Emacs.
    Emacs,
    /// Those of Vi.
    Vi,
}

/// Whether colors are on.
#[derive(Clone, Copy, Debug, PartialEq, Eq)]
#[non_exhaustive]
pub enum ColorMode {
    /// They are where standard output is a terminal.
    Enabled,
    /// They are, wherever output goes.
    Forced,
    /// They are not.
    Disabled,
}

/// Makes the settings of an editor.
#[derive(Clone, Debug, Default)]
pub struct Builder {
    config: Config,
}

impl Builder {
    /// Returns a builder that has the usual settings.
    #[must_use]
    pub fn new() -> Self {
        Self::default()
    }

    /// Sets how many lines the history keeps: the newest ones.
    /// [`Editor::set_max_history_size`](crate::Editor::set_max_history_size) changes that later.
    ///
    /// # Errors
    /// None; the `Result` is there for programs written for rustyline.
    pub fn max_history_size(mut self, lines: usize) -> Result<Self> {
        self.config.max_history_size = lines;
        Ok(self)
    }

    /// Sets whether the history leaves a line out that equals its newest one.
    ///
    /// # Errors
    /// None; the `Result` is there for programs written for rustyline.
    pub fn history_ignore_dups(mut self, yes: bool) -> Result<Self> {
        self.config.history_duplicates = if yes {
            HistoryDuplicates::IgnoreConsecutive
        } else {
            HistoryDuplicates::AlwaysAdd
        };
        Ok(self)
    }

    /// Sets whose keys are used, and how long a lone Esc is waited for: without end with those of
    /// Emacs, and half a second with those of Vi.
    #[must_use]
    pub fn edit_mode(mut self, mode: EditMode) -> Self {
        self.config.edit_mode = mode;
        self.config.keyseq_timeout = match mode {
            EditMode::Emacs => None,
            EditMode::Vi => Some(VI_TIMEOUT),
        };
        self
    }

    /// Returns the settings.
    #[must_use]
    pub fn build(self) -> Config {
        self.config
    }
}

/// Makes a method of the builder for each of the settings that are set as they are.
macro_rules! setters {
    ($($(#[$says:meta])* $name:ident: $type:ty;)*) => {
        impl Builder {
            $(
                $(#[$says])*
                #[must_use]
                pub fn $name(mut self, value: $type) -> Self {
                    self.config.$name = value;
                    self
                }
            )*
        }
    };
}

setters! {
    /// Sets whether the history leaves out lines that begin with white space.
    history_ignore_space: bool;
    /// Sets whether files of the history have plain lines, as other programs read them: without a
    /// header, and a backslash is one. A line that was broken is several lines then.
    history_plain: bool;
    /// Sets how words are completed.
    completion_type: CompletionType;
    /// Sets how many candidates are listed without asking.
    completion_prompt_limit: usize;
    /// Sets whether candidates are listed at the first Tab, not at the second.
    completion_show_all_if_ambiguous: bool;
    /// Sets how many milliseconds a byte is waited for that may belong to an Esc before it; `None`
    /// stands for without end.
    keyseq_timeout: Option<u16>;
    /// Sets whether a line that was read at a terminal goes into the history.
    auto_add_history: bool;
    /// Sets whether colors are on.
    color_mode: ColorMode;
    /// Sets how many spaces a step of indentation has.
    indent_size: u8;
    /// Sets whether the terminal marks pasted texts.
    bracketed_paste: bool;
    /// Sets whether the terminal is asked to show each drawing at once.
    synchronized_output: bool;
    /// Sets whether hints from the history are shown.
    hints: bool;
    /// Sets whether Enter breaks the line while a bracket is open, and the matching bracket is lit.
    brackets: bool;
}

#[cfg(test)]
mod tests {
    use super::*;

    #[test]
    fn vi_waits_half_a_second_for_what_follows_esc() {
        let emacs = Config::builder().build();
        let vi = Config::builder().edit_mode(EditMode::Vi).build();
        assert_eq!(emacs.keyseq_timeout(), None);
        assert_eq!(vi.keyseq_timeout(), Some(500));
        assert_eq!(
            Config::builder().edit_mode(EditMode::Emacs).build(),
            Config::default()
        );
    }

    #[test]
    fn settings_reach_the_library() -> Result<()> {
        let config = Config::builder()
            .max_history_size(7)?
            .history_ignore_dups(false)?
            .completion_type(CompletionType::List)
            .edit_mode(EditMode::Vi)
            .color_mode(ColorMode::Disabled)
            .indent_size(4)
            .brackets(true)
            .build();
        let raw = config.to_raw((60, 20), config.has_colors(true));
        assert_eq!((raw.columns, raw.rows), (60, 20));
        assert_eq!((raw.max_history_size, raw.history_ignore_dups), (7, 0));
        assert_eq!((raw.list_completions, raw.vi, raw.colors), (1, 1, 0));
        assert_eq!((raw.indent_size, raw.brackets, raw.hints), (4, 1, 0));
        assert!(
            Config::builder()
                .color_mode(ColorMode::Forced)
                .build()
                .has_colors(false)
        );
        Ok(())
    }
}
