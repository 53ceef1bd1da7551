//! What a key can be bound to.

use crate::command::Cmd;
use crate::keys::KeyEvent;

/// What a program can bind.
#[derive(Clone, Debug, PartialEq, Eq, Hash)]
#[non_exhaustive]
pub enum Event {
    /// Each key that has no command of its own. It cannot be bound.
    Any,
    /// Keys, one behind the other.
    KeySeq(Vec<KeyEvent>),
}

impl Event {
    /// Returns the key at a place of a sequence, counted from 0.
    #[must_use]
    pub fn get(&self, place: usize) -> Option<&KeyEvent> {
        match self {
            Self::KeySeq(keys) => keys.get(place),
            Self::Any => None,
        }
    }

    /// Returns the names of the keys with spaces between them, if there is a key.
    pub(crate) fn names(&self) -> Option<String> {
        match self {
            Self::KeySeq(keys) if !keys.is_empty() => {
                let names: Vec<String> = keys.iter().map(|key| key.name()).collect();
                Some(names.join(" "))
            }
            _ => None,
        }
    }
}

impl From<KeyEvent> for Event {
    fn from(key: KeyEvent) -> Self {
        Self::KeySeq(vec![key])
    }
}

/// What is done at a key.
#[derive(Clone, Debug, PartialEq, Eq)]
#[non_exhaustive]
pub enum EventHandler {
    /// This command, always.
    Simple(Cmd),
}

impl From<Cmd> for EventHandler {
    fn from(command: Cmd) -> Self {
        Self::Simple(command)
    }
}

#[cfg(test)]
mod tests {
    use super::*;
    use crate::keys::{KeyCode, Modifiers};

    #[test]
    fn a_sequence_is_its_names_with_spaces() {
        let keys = vec![
            KeyEvent::ctrl('x'),
            KeyEvent(KeyCode::F(2), Modifiers::NONE),
            KeyEvent::from(' '),
        ];
        assert_eq!(Event::KeySeq(keys).names().as_deref(), Some("C-X F2 Space"));
        assert_eq!(
            Event::from(KeyEvent::alt('q')).names().as_deref(),
            Some("M-q")
        );
        assert_eq!(Event::KeySeq(Vec::new()).names(), None);
        assert_eq!(Event::Any.names(), None);
    }
}
