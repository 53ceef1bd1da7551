//! Which keys and commands can be bound.

use comvizga::{Cmd, DefaultEditor, Event, EventHandler, KeyCode, KeyEvent};
use comvizga::{Modifiers, Movement, ReadlineError, Result};
use std::io;

fn is_refused<T>(answer: Result<T>) -> bool {
    matches!(
        answer,
        Err(ReadlineError::Io(error)) if error.kind() == io::ErrorKind::InvalidInput
    )
}

#[test]
fn a_binding_takes_the_place_of_another() -> Result<()> {
    let mut editor = DefaultEditor::new()?;
    let keys = Event::KeySeq(vec![KeyEvent::ctrl('x'), KeyEvent::ctrl('k')]);
    let kill = Cmd::Kill(Movement::EndOfLine);
    assert_eq!(editor.bind_sequence(keys.clone(), kill.clone())?, None);
    assert_eq!(
        editor.bind_sequence(keys, Cmd::Undo(1))?,
        Some(EventHandler::Simple(kill))
    );
    let f5 = KeyEvent(KeyCode::F(5), Modifiers::NONE);
    assert_eq!(editor.bind_sequence(f5, Cmd::ClearScreen)?, None);
    let suspend = editor.bind_sequence(KeyEvent::ctrl('z'), Cmd::Undo(1))?;
    assert_eq!(suspend, Some(EventHandler::Simple(Cmd::Suspend)));
    Ok(())
}

#[test]
fn what_has_no_name_is_refused() -> Result<()> {
    let mut editor = DefaultEditor::new()?;
    let key = KeyEvent::alt('q');
    assert!(is_refused(
        editor.bind_sequence(Event::Any, Cmd::AcceptLine)
    ));
    assert!(is_refused(
        editor.bind_sequence(Event::KeySeq(Vec::new()), Cmd::AcceptLine)
    ));
    assert!(is_refused(
        editor.bind_sequence(key, Cmd::Insert(1, "text".to_owned()))
    ));
    assert!(is_refused(editor.bind_sequence(key, Cmd::Unknown)));
    Ok(())
}
