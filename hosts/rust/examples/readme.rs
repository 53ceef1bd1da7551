//! Reads lines with a history that is kept in a file, until C-c or C-d. A program that was written
//! for rustyline needs the first line alone to be another.

use comvizga as rustyline;

use rustyline::error::ReadlineError;
use rustyline::{DefaultEditor, Result};

const HISTORY: &str = "history.txt";

fn main() -> Result<()> {
    let mut editor = DefaultEditor::new()?;
    if editor.load_history(HISTORY).is_err() {
        println!("There is no history yet.");
    }
    let why = loop {
        match editor.readline(">> ") {
            Ok(line) => {
                editor.add_history_entry(line.as_str())?;
                println!("You typed: {line}");
            }
            Err(ReadlineError::Interrupted) => break "C-c".to_owned(),
            Err(ReadlineError::Eof) => break "C-d".to_owned(),
            Err(error) => break error.to_string(),
        }
    };
    println!("Ended by {why}.");
    editor.save_history(HISTORY)
}
