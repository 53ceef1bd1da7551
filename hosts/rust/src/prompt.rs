//! What stands before a line.

/// A prompt in two forms, equally wide: without and with escape sequences.
pub trait Prompt {
    /// Returns the prompt without escape sequences. Its width is the one that counts.
    fn raw(&self) -> &str;

    /// Returns the prompt as it is shown where colors are on.
    fn styled(&self) -> &str {
        self.raw()
    }
}

impl Prompt for str {
    fn raw(&self) -> &str {
        self
    }
}

impl Prompt for String {
    fn raw(&self) -> &str {
        self
    }
}

impl<R: AsRef<str>, S: AsRef<str>> Prompt for (R, S) {
    fn raw(&self) -> &str {
        self.0.as_ref()
    }

    fn styled(&self) -> &str {
        self.1.as_ref()
    }
}
