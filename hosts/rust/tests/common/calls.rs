//! The calls that programs make most, with the names that rustyline and this crate share. Who
//! includes this has a crate or a module called `rustyline` at its root.

use crate::rustyline;

use rustyline::config::Config;
use rustyline::error::ReadlineError;
use rustyline::{Anchor, At, Cmd, ColorMode, CompletionType, EditMode, Editor, Event};
use rustyline::{EventHandler, KeyCode, KeyEvent, Modifiers, Movement, Result, Word};

/// Returns settings that are not the usual ones.
pub fn settings() -> Config {
    Config::builder()
        .history_ignore_space(true)
        .completion_type(CompletionType::List)
        .completion_prompt_limit(50)
        .edit_mode(EditMode::Vi)
        .keyseq_timeout(crate::KEYSEQ_TIMEOUT)
        .color_mode(ColorMode::Disabled)
        .auto_add_history(true)
        .indent_size(4)
        .bracketed_paste(false)
        .build()
}

/// Binds keys to commands.
pub fn bind(editor: &mut Editor<()>) {
    let word = Movement::ForwardWord(1, At::AfterEnd, Word::Emacs);
    let line = Event::from(KeyEvent::new('u', Modifiers::CTRL));
    let _ = editor.bind_sequence(KeyEvent::ctrl('x'), Cmd::Kill(Movement::EndOfLine));
    let _ = editor.bind_sequence(KeyEvent::alt('w'), EventHandler::Simple(Cmd::Move(word)));
    let _ = editor.bind_sequence(KeyEvent(KeyCode::F(2), Modifiers::NONE), Cmd::Undo(1));
    let _ = editor.bind_sequence(line, Cmd::Yank(1, Anchor::Before));
    let _ = editor.bind_sequence(KeyEvent::from('\t'), Cmd::Complete);
}

/// Reads lines to the end of the input, and returns them. The history is kept in a file.
pub fn read_lines(editor: &mut Editor<()>, path: &str) -> Result<Vec<String>> {
    editor.set_helper(Some(()));
    let mut lines = Vec::new();
    if editor.load_history(path).is_err() {
        println!("There is no history yet.");
    }
    loop {
        match editor.readline("> ") {
            Ok(line) if line == "more" => {
                lines.push(editor.readline_with_initial("more> ", ("left ", "right"))?);
            }
            Ok(line) => {
                let _ = editor.add_history_entry(line.as_str());
                lines.push(line);
            }
            Err(ReadlineError::Interrupted) => continue,
            Err(ReadlineError::Eof) => break,
            Err(ReadlineError::Io(error)) => return Err(error.into()),
            Err(error) => return Err(error),
        }
    }
    for line in editor.iter("again> ") {
        lines.push(line?);
    }
    println!("{} lines of history", editor.history().iter().count());
    editor.append_history(path)?;
    editor.save_history(path)?;
    let _ = editor.clear_history();
    let size: Option<(usize, usize)> = editor.dimensions();
    println!("{size:?}");
    Ok(lines)
}
