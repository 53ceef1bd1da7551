//! The common calls, compiled with rustyline 9, where an editor is made without a `Result`.

#[path = "../../common/calls.rs"]
mod calls;

use ::rustyline;

/// In rustyline 9, -1 stands for without end.
const KEYSEQ_TIMEOUT: i32 = 500;

fn main() -> rustyline::Result<()> {
    let mut editor = rustyline::Editor::with_config(calls::settings());
    calls::bind(&mut editor);
    let lines = calls::read_lines(&mut editor, "history.txt")?;
    println!("{lines:?}");
    Ok(())
}
