//! Keys, and the names by which the library knows them.

use std::ops::{BitAnd, BitOr, BitOrAssign};

/// A key that was pressed, with its modifiers.
#[derive(Clone, Copy, Debug, PartialEq, Eq, Hash)]
pub struct KeyEvent(pub KeyCode, pub Modifiers);

impl KeyEvent {
    /// Returns the key that types a character, with modifiers. A control character is the key that
    /// sends it: `'\t'` is Tab, and `'\x01'` is C-A.
    #[must_use]
    pub fn new(c: char, modifiers: Modifiers) -> Self {
        let code = match c {
            '\x08' | '\x7f' => KeyCode::Backspace,
            '\t' if modifiers.contains(Modifiers::SHIFT) => {
                return Self(KeyCode::BackTab, modifiers.without(Modifiers::SHIFT));
            }
            '\t' => KeyCode::Tab,
            '\r' => KeyCode::Enter,
            '\x1b' => KeyCode::Esc,
            '\u{9b}' => return Self(KeyCode::Esc, modifiers | Modifiers::SHIFT),
            '\0'..='\x1f' => {
                let sender = char::from_u32(u32::from(c) + 64).unwrap_or(c);
                return Self(KeyCode::Char(sender), modifiers | Modifiers::CTRL);
            }
            _ if c.is_control() => KeyCode::Null,
            _ => return Self(KeyCode::Char(c), modifiers.without(Modifiers::SHIFT)),
        };
        Self(code, modifiers)
    }

    /// Returns the key of a character, held with Ctrl.
    #[must_use]
    pub fn ctrl(c: char) -> Self {
        Self::new(c, Modifiers::CTRL)
    }

    /// Returns the key of a character, held with Alt.
    #[must_use]
    pub fn alt(c: char) -> Self {
        Self::new(c, Modifiers::ALT)
    }

    /// Returns the usual form of a key that can be written in several: C-A for C-a, A for Shift
    /// with A, and `BackTab` for Shift with Tab.
    #[must_use]
    pub fn normalize(self) -> Self {
        let Self(code, modifiers) = self;
        match code {
            KeyCode::Char(c) if c.is_ascii_control() => Self::new(c, modifiers),
            KeyCode::Char(c) if c.is_ascii_lowercase() && modifiers.contains(Modifiers::CTRL) => {
                Self(KeyCode::Char(c.to_ascii_uppercase()), modifiers)
            }
            KeyCode::Char(c) if c.is_ascii_uppercase() => {
                Self(code, modifiers.without(Modifiers::SHIFT))
            }
            KeyCode::Tab if modifiers.contains(Modifiers::SHIFT) => {
                Self(KeyCode::BackTab, modifiers.without(Modifiers::SHIFT))
            }
            _ => self,
        }
    }

    /// Returns the name by which the library knows the key: `C-X`, `M-f`, `S-Left`, `F5`, `Space`.
    pub(crate) fn name(self) -> String {
        // A small letter with Ctrl and Shift has its usual form after two steps.
        let Self(code, modifiers) = self.normalize().normalize();
        let mut name = String::new();
        for (modifier, prefix) in [
            (Modifiers::CTRL, "C-"),
            (Modifiers::ALT, "M-"),
            (Modifiers::SHIFT, "S-"),
        ] {
            if modifiers.contains(modifier) {
                name.push_str(prefix);
            }
        }
        match code {
            KeyCode::Char(' ') => name.push_str("Space"),
            KeyCode::Char(c) => name.push(c),
            KeyCode::F(number) => name.push_str(&format!("F{number}")),
            _ => name.push_str(code.word()),
        }
        name
    }
}

impl From<char> for KeyEvent {
    fn from(c: char) -> Self {
        Self::new(c, Modifiers::NONE)
    }
}

/// A key without its modifiers.
#[derive(Clone, Copy, Debug, PartialEq, Eq, Hash)]
#[non_exhaustive]
pub enum KeyCode {
    /// An escape sequence that stands for no key.
    UnknownEscSeq,
    /// The key that deletes to the left, or C-h.
    Backspace,
    /// Shift with Tab.
    BackTab,
    /// The mark before a pasted text.
    BracketedPasteStart,
    /// The mark behind a pasted text.
    BracketedPasteEnd,
    /// A key that types a character.
    Char(char),
    /// The key that deletes to the right.
    Delete,
    /// The arrow down.
    Down,
    /// End.
    End,
    /// Enter, or C-m.
    Enter,
    /// Esc.
    Esc,
    /// A function key, by its number from 1 to 24.
    F(u8),
    /// Home.
    Home,
    /// Insert.
    Insert,
    /// The arrow to the left.
    Left,
    /// A control character that stands for no key.
    Null,
    /// Page down.
    PageDown,
    /// Page up.
    PageUp,
    /// The arrow to the right.
    Right,
    /// Tab, or C-i.
    Tab,
    /// The arrow up.
    Up,
}

impl KeyCode {
    /// Returns the name of a key that has one of its own.
    fn word(self) -> &'static str {
        match self {
            Self::UnknownEscSeq => "Unknown",
            Self::Backspace => "Backspace",
            Self::BackTab => "BackTab",
            Self::BracketedPasteStart => "PasteStart",
            Self::BracketedPasteEnd => "PasteEnd",
            Self::Delete => "Delete",
            Self::Down => "Down",
            Self::End => "End",
            Self::Enter => "Enter",
            Self::Esc => "Esc",
            Self::Home => "Home",
            Self::Insert => "Insert",
            Self::Left => "Left",
            Self::PageDown => "PageDown",
            Self::PageUp => "PageUp",
            Self::Right => "Right",
            Self::Tab => "Tab",
            Self::Up => "Up",
            Self::Null | Self::Char(_) | Self::F(_) => "Null",
        }
    }
}

/// The modifiers that are held with a key.
#[derive(Clone, Copy, Debug, Default, PartialEq, Eq, Hash)]
pub struct Modifiers(u8);

impl Modifiers {
    /// No modifier.
    pub const NONE: Self = Self(0);
    /// Shift.
    pub const SHIFT: Self = Self(1 << 1);
    /// Alt, or Esc before the key.
    pub const ALT: Self = Self(1 << 2);
    /// Ctrl.
    pub const CTRL: Self = Self(1 << 3);
    /// Ctrl and Shift.
    pub const CTRL_SHIFT: Self = Self(Self::CTRL.0 | Self::SHIFT.0);
    /// Alt and Shift.
    pub const ALT_SHIFT: Self = Self(Self::ALT.0 | Self::SHIFT.0);
    /// Ctrl and Alt.
    pub const CTRL_ALT: Self = Self(Self::CTRL.0 | Self::ALT.0);
    /// Ctrl, Alt and Shift.
    pub const CTRL_ALT_SHIFT: Self = Self(Self::CTRL.0 | Self::ALT.0 | Self::SHIFT.0);

    /// Returns the set as bits: Shift is bit 1, Alt bit 2, Ctrl bit 3.
    #[must_use]
    pub const fn bits(self) -> u8 {
        self.0
    }

    /// Returns whether no modifier is in the set.
    #[must_use]
    pub const fn is_empty(self) -> bool {
        self.0 == 0
    }

    /// Returns whether all modifiers of another set are in this one.
    #[must_use]
    pub const fn contains(self, other: Self) -> bool {
        self.0 & other.0 == other.0
    }

    /// Adds the modifiers of another set.
    pub fn insert(&mut self, other: Self) {
        self.0 |= other.0;
    }

    /// Takes the modifiers of another set away.
    pub fn remove(&mut self, other: Self) {
        *self = self.without(other);
    }

    /// Returns the set without the modifiers of another one.
    const fn without(self, other: Self) -> Self {
        Self(self.0 & !other.0)
    }
}

impl BitOr for Modifiers {
    type Output = Self;

    fn bitor(self, other: Self) -> Self {
        Self(self.0 | other.0)
    }
}

impl BitOrAssign for Modifiers {
    fn bitor_assign(&mut self, other: Self) {
        self.insert(other);
    }
}

impl BitAnd for Modifiers {
    type Output = Self;

    fn bitand(self, other: Self) -> Self {
        Self(self.0 & other.0)
    }
}

#[cfg(test)]
mod tests {
    use super::*;

    #[test]
    fn each_form_of_a_key_has_its_name() {
        let names = [
            (KeyEvent::ctrl('x'), "C-X"),
            (KeyEvent::ctrl('X'), "C-X"),
            (KeyEvent::from('\x18'), "C-X"),
            (KeyEvent(KeyCode::Char('\x18'), Modifiers::NONE), "C-X"),
            (KeyEvent(KeyCode::Char('x'), Modifiers::CTRL_SHIFT), "C-X"),
            (KeyEvent::ctrl('_'), "C-_"),
            (KeyEvent::from('\0'), "C-@"),
            (KeyEvent::alt('f'), "M-f"),
            (KeyEvent::alt('<'), "M-<"),
            (KeyEvent::new('g', Modifiers::CTRL_ALT), "C-M-G"),
            (KeyEvent::from('a'), "a"),
            (KeyEvent(KeyCode::Char('A'), Modifiers::SHIFT), "A"),
            (KeyEvent::from('é'), "é"),
            (KeyEvent::from('-'), "-"),
            (KeyEvent::ctrl('-'), "C--"),
            (KeyEvent::from(' '), "Space"),
            (KeyEvent::ctrl(' '), "C-Space"),
            (KeyEvent::from('\t'), "Tab"),
            (KeyEvent::ctrl('\t'), "C-Tab"),
            (KeyEvent::new('\t', Modifiers::SHIFT), "BackTab"),
            (KeyEvent(KeyCode::Tab, Modifiers::SHIFT), "BackTab"),
            (KeyEvent::from('\r'), "Enter"),
            (KeyEvent::from('\n'), "C-J"),
            (KeyEvent::from('\x1b'), "Esc"),
            (KeyEvent::from('\u{9b}'), "S-Esc"),
            (KeyEvent::from('\x7f'), "Backspace"),
            (KeyEvent::alt('\x08'), "M-Backspace"),
            (KeyEvent::from('\u{85}'), "Null"),
        ];
        for (key, name) in names {
            assert_eq!(key.name(), name, "{key:?}");
        }
    }

    #[test]
    fn each_named_key_has_its_modifiers_before_its_name() {
        let plain = |code: KeyCode| KeyEvent(code, Modifiers::NONE).name();
        assert_eq!(plain(KeyCode::F(5)), "F5");
        assert_eq!(plain(KeyCode::F(24)), "F24");
        assert_eq!(plain(KeyCode::PageUp), "PageUp");
        assert_eq!(plain(KeyCode::Delete), "Delete");
        assert_eq!(KeyEvent(KeyCode::Left, Modifiers::CTRL).name(), "C-Left");
        assert_eq!(
            KeyEvent(KeyCode::Up, Modifiers::CTRL_ALT_SHIFT).name(),
            "C-M-S-Up"
        );
        assert_eq!(
            KeyEvent(KeyCode::F(1), Modifiers::ALT_SHIFT).name(),
            "M-S-F1"
        );
    }

    #[test]
    fn modifiers_are_a_set() {
        let mut set = Modifiers::CTRL | Modifiers::ALT;
        assert_eq!(set, Modifiers::CTRL_ALT);
        assert!(set.contains(Modifiers::ALT));
        set.remove(Modifiers::ALT);
        set |= Modifiers::SHIFT;
        assert_eq!(set & Modifiers::SHIFT, Modifiers::SHIFT);
        assert_eq!(set.bits(), 0b1010);
        assert!(Modifiers::NONE.is_empty());
    }
}
