//! The history of an editor, and its files.

use comvizga::history::History;
use comvizga::{Config, DefaultEditor, ReadlineError, Result};
use std::path::{Path, PathBuf};
use std::{env, fs, io, process};

/// Returns the path of a file that is not there.
fn new_path(name: &str) -> PathBuf {
    let path = env::temp_dir().join(format!("comvizga-{}-{name}", process::id()));
    let _ = fs::remove_file(&path);
    path
}

/// Removes a file, and checks that nothing was left beside it.
fn remove(path: &Path) -> io::Result<()> {
    fs::remove_file(path)?;
    let name = path.file_name().unwrap_or_default().as_encoded_bytes();
    for left in fs::read_dir(env::temp_dir())? {
        let left = left?.file_name();
        assert!(!left.as_encoded_bytes().starts_with(name), "{left:?}");
    }
    Ok(())
}

/// Returns so many lines, each with a newline.
fn numbered(lines: usize) -> String {
    (0..lines)
        .map(|number| format!("line {number}\n"))
        .collect()
}

/// Returns the lines of the history.
fn lines(editor: &DefaultEditor) -> Vec<&str> {
    editor.history().iter().map(String::as_str).collect()
}

#[test]
fn lines_are_taken_or_left_out() -> Result<()> {
    let config = Config::builder()
        .history_ignore_space(true)
        .max_history_size(2)?
        .build();
    let mut editor = DefaultEditor::with_config(config)?;
    assert!(editor.add_history_entry("a")?);
    assert!(!editor.add_history_entry("a")?);
    assert!(!editor.add_history_entry("")?);
    assert!(!editor.add_history_entry(" b")?);
    assert!(editor.add_history_entry("b\nc")?);
    assert!(editor.add_history_entry(String::from("d"))?);
    assert_eq!(lines(&editor), ["b\nc", "d"]);
    assert_eq!(editor.history().len(), 2);
    editor.clear_history()?;
    assert!(editor.history().is_empty());
    assert!(editor.add_history_entry("d")?);
    Ok(())
}

#[test]
fn what_is_saved_is_loaded() -> Result<()> {
    let path = new_path("saved");
    let mut editor = DefaultEditor::new()?;
    for line in ["one", "two\nthree", "back\\slash", "é"] {
        editor.add_history_entry(line)?;
    }
    editor.save_history(&path)?;
    let mut other = DefaultEditor::new()?;
    other.load_history(&path)?;
    assert_eq!(lines(&other), lines(&editor));
    assert!(!other.add_history_entry("é")?);
    remove(&path)?;
    Ok(())
}

#[test]
fn new_lines_are_appended_once() -> Result<()> {
    let path = new_path("appended");
    let mut editor = DefaultEditor::new()?;
    editor.add_history_entry("a")?;
    editor.append_history(&path)?;
    editor.add_history_entry("b")?;
    editor.append_history("/nowhere/history").unwrap_err();
    editor.append_history(&path)?;
    editor.append_history(&path)?;
    assert_eq!(fs::read_to_string(&path)?, "#V3\na\nb\n");
    let mut other = DefaultEditor::new()?;
    other.load_history(&path)?;
    other.add_history_entry("c")?;
    other.append_history(&path)?;
    assert_eq!(fs::read_to_string(&path)?, "#V3\na\nb\nc\n");
    remove(&path)?;
    Ok(())
}

#[test]
fn what_is_read_stays_in_the_file() -> Result<()> {
    let path = new_path("long");
    fs::write(&path, numbered(500))?;
    let mut editor = DefaultEditor::new()?;
    editor.load_history(&path)?;
    editor.save_history(&path)?;
    assert_eq!(
        fs::read_to_string(&path)?,
        format!("#V3\n{}", numbered(500))
    );
    let config = Config::builder().max_history_size(100)?.build();
    let mut other = DefaultEditor::with_config(config)?;
    other.load_history(&path)?;
    assert_eq!(other.history().len(), 100);
    other.add_history_entry("line 500")?;
    other.append_history(&path)?;
    assert_eq!(
        fs::read_to_string(&path)?,
        format!("#V3\n{}", numbered(501))
    );
    remove(&path)?;
    Ok(())
}

#[test]
fn the_limit_changes_at_any_time() -> Result<()> {
    let path = new_path("limited");
    fs::write(&path, "a\nb\nc\nd\n")?;
    let mut editor = DefaultEditor::new()?;
    editor.load_history(&path)?;
    editor.add_history_entry("e")?;
    editor.set_max_history_size(3)?;
    assert_eq!(editor.config().max_history_size(), 3);
    assert_eq!(lines(&editor), ["c", "d", "e"]);
    editor.set_max_history_size(4)?;
    editor.add_history_entry("f")?;
    editor.add_history_entry("g")?;
    assert_eq!(lines(&editor), ["d", "e", "f", "g"]);
    editor.append_history("/dev/null")?;
    editor.save_history(&path)?;
    assert_eq!(fs::read_to_string(&path)?, "#V3\nd\ne\nf\ng\n");
    remove(&path)?;
    Ok(())
}

#[test]
fn plain_lines_are_written_where_they_are_wanted() -> Result<()> {
    let path = new_path("plain");
    let config = Config::builder().history_plain(true).build();
    let mut editor = DefaultEditor::with_config(config.clone())?;
    editor.add_history_entry("C:\\new")?;
    editor.append_history(&path)?;
    editor.add_history_entry("two\nlines")?;
    editor.append_history(&path)?;
    assert_eq!(fs::read_to_string(&path)?, "C:\\new\ntwo\nlines\n");
    let mut other = DefaultEditor::with_config(config)?;
    other.load_history(&path)?;
    assert_eq!(lines(&other), ["C:\\new", "two", "lines"]);
    other.save_history(&path)?;
    assert_eq!(fs::read_to_string(&path)?, "C:\\new\ntwo\nlines\n");
    remove(&path)?;
    Ok(())
}

#[test]
fn what_is_not_there_is_an_error() -> Result<()> {
    let mut editor = DefaultEditor::new()?;
    let missing = editor.load_history(&new_path("missing"));
    assert!(matches!(
        missing,
        Err(ReadlineError::Io(error)) if error.kind() == io::ErrorKind::NotFound
    ));
    let path = new_path("bytes");
    fs::write(&path, b"a\n\xff\n")?;
    let refused = editor.load_history(&path);
    assert!(matches!(
        refused,
        Err(ReadlineError::Io(error)) if error.kind() == io::ErrorKind::InvalidData
    ));
    fs::remove_file(&path)?;
    Ok(())
}
