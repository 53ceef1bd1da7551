//! The file of a history: read, written anew, and appended to, under a lock.

use std::fs::{self, File, Metadata, OpenOptions};
use std::io::{self, Read, Seek, SeekFrom, Write};
use std::os::unix::fs::{MetadataExt, OpenOptionsExt};
use std::path::{Path, PathBuf};
use std::process;

/// The first line of a file whose lines have escapes.
const HEADER: &[u8] = b"#V3\n";

/// The first line of a file of rustyline, which has fewer escapes.
const OTHER_HEADER: &[u8] = b"#V2\n";

/// The rights of a file that is made: its owner alone reads and writes it.
const PRIVATE: u32 = 0o600;

/// Returns what a file holds.
///
/// # Errors
/// The file is not there, or cannot be read.
pub(crate) fn read(path: &Path) -> io::Result<Vec<u8>> {
    fs::read(path)
}

/// Puts a text in place of what a file holds: it is written beside the file, and then renamed. What
/// is no regular file, such as `/dev/null`, is written to.
///
/// # Errors
/// A file cannot be made or written; the old one is then as it was.
pub(crate) fn write(path: &Path, text: &[u8]) -> io::Result<()> {
    // The old file is locked until it is replaced.
    let (mut file, path) = open_locked(path)?;
    if !file.metadata()?.is_file() {
        return file.write_all(text);
    }
    let beside = with_ending(&path, &process::id().to_string());
    let written = write_new(&beside, text).and_then(|()| fs::rename(&beside, &path));
    if written.is_err() {
        // What is left of it helps nobody; that it cannot be removed is no further error.
        let _ = fs::remove_file(&beside);
    }
    written
}

/// How the lines of a file are written.
#[derive(Clone, Copy, Debug, PartialEq, Eq)]
pub(crate) enum Form {
    /// With escapes, behind the header.
    Escaped,
    /// As they are.
    Plain,
}

/// Appends lines to a file, which are asked for in the form that it has, or gives an empty one the
/// whole text.
///
/// # Errors
/// The file cannot be made or written, or is rustyline's, or has plain lines that are not wanted.
pub(crate) fn append(
    path: &Path,
    wanted: Form,
    lines: impl Fn(Form) -> String,
    whole: &str,
) -> io::Result<()> {
    let (mut file, _) = open_locked(path)?;
    let facts = file.metadata()?;
    if !facts.is_file() || facts.len() == 0 {
        return file.write_all(whole.as_bytes());
    }
    let lines = match form_of(&mut file)? {
        Some(form) if form == wanted || form == Form::Escaped => lines(form),
        _ => {
            return Err(io::Error::new(
                io::ErrorKind::InvalidData,
                "the lines of the file have another form: save_history writes it anew",
            ));
        }
    };
    let mut text = Vec::with_capacity(lines.len() + 1);
    if !ends_in_newline(&mut file)? {
        // The last line was cut off when it was written.
        text.push(b'\n');
    }
    text.extend_from_slice(lines.as_bytes());
    file.write_all(&text)
}

/// Opens a file to append to it, which is made if it is not there, and waits for its lock, which is
/// held until it is closed. Returns it with the name to which all symbolic links lead. What is no
/// regular file is not locked.
fn open_locked(path: &Path) -> io::Result<(File, PathBuf)> {
    loop {
        let (file, path) = open(path)?;
        let facts = file.metadata()?;
        if !facts.is_file() {
            return Ok((file, path));
        }
        file.lock()?;
        // Another program that had the lock may have put a new file in its place.
        if is_named(&facts, &path)? {
            return Ok((file, path));
        }
    }
}

/// Opens a file to append to it, which is made if it is not there. Returns it with the name to
/// which all symbolic links lead.
fn open(path: &Path) -> io::Result<(File, PathBuf)> {
    let file = OpenOptions::new()
        .read(true)
        .append(true)
        .create(true)
        .mode(PRIVATE)
        .open(path)?;
    Ok((file, fs::canonicalize(path)?))
}

/// Returns whether a name leads to a file.
fn is_named(file: &Metadata, path: &Path) -> io::Result<bool> {
    match fs::metadata(path) {
        Ok(named) => Ok((named.dev(), named.ino()) == (file.dev(), file.ino())),
        Err(error) if error.kind() == io::ErrorKind::NotFound => Ok(false),
        Err(error) => Err(error),
    }
}

/// Writes a file that nobody else reads, down to the disk. One that was left there is replaced.
fn write_new(path: &Path, text: &[u8]) -> io::Result<()> {
    match fs::remove_file(path) {
        Err(error) if error.kind() != io::ErrorKind::NotFound => return Err(error),
        Ok(()) | Err(_) => {}
    }
    let mut file = OpenOptions::new()
        .write(true)
        .create_new(true)
        .mode(PRIVATE)
        .open(path)?;
    file.write_all(text)?;
    file.sync_all()
}

/// Returns a path with an ending behind a dot.
fn with_ending(path: &Path, ending: &str) -> PathBuf {
    let mut name = path.as_os_str().to_os_string();
    name.push(".");
    name.push(ending);
    name.into()
}

/// Returns the form of a file that is not empty, if this crate writes it.
fn form_of(file: &mut File) -> io::Result<Option<Form>> {
    let mut front = Vec::new();
    file.seek(SeekFrom::Start(0))?;
    file.take(HEADER.len() as u64).read_to_end(&mut front)?;
    Ok(match front.as_slice() {
        HEADER => Some(Form::Escaped),
        OTHER_HEADER => None,
        _ => Some(Form::Plain),
    })
}

/// Returns whether a file that is not empty ends in a newline.
fn ends_in_newline(file: &mut File) -> io::Result<bool> {
    let mut last = [0];
    file.seek(SeekFrom::End(-1))?;
    file.read_exact(&mut last)?;
    Ok(last == *b"\n")
}

#[cfg(test)]
mod tests {
    use super::*;
    use std::os::unix::fs::PermissionsExt;
    use std::time::Duration;
    use std::{env, thread};

    /// A folder that is removed when it is dropped.
    struct Folder(PathBuf);

    impl Folder {
        fn new(name: &str) -> io::Result<Self> {
            let path = env::temp_dir().join(format!("comvizga-{}-{name}", process::id()));
            fs::create_dir(&path)?;
            Ok(Self(path))
        }
    }

    impl Drop for Folder {
        fn drop(&mut self) {
            let _ = fs::remove_dir_all(&self.0);
        }
    }

    #[test]
    fn what_is_written_is_read_and_nothing_else_is_left() -> io::Result<()> {
        let folder = Folder::new("write")?;
        let path = folder.0.join("history");
        write(&path, b"#V3\na\n")?;
        write(&path, b"#V3\nb\n")?;
        assert_eq!(read(&path)?, b"#V3\nb\n");
        assert_eq!(fs::metadata(&path)?.permissions().mode() & 0o777, PRIVATE);
        let names: Vec<_> = fs::read_dir(&folder.0)?.flatten().collect();
        assert_eq!(names.len(), 1, "{names:?}");
        Ok(())
    }

    /// Returns a line that tells its form.
    fn line(form: Form) -> String {
        format!("{form:?}\n")
    }

    #[test]
    fn lines_are_appended_behind_a_whole_line() -> io::Result<()> {
        let folder = Folder::new("append")?;
        let path = folder.0.join("history");
        let cases = [
            ("", Form::Escaped, "whole"),
            ("", Form::Plain, "whole"),
            ("#V3\na\n", Form::Escaped, "#V3\na\nEscaped\n"),
            ("#V3\na\n", Form::Plain, "#V3\na\nEscaped\n"),
            ("#V3\ncut", Form::Escaped, "#V3\ncut\nEscaped\n"),
            ("plain", Form::Plain, "plain\nPlain\n"),
        ];
        for (before, wanted, after) in cases {
            fs::write(&path, before)?;
            append(&path, wanted, line, "whole")?;
            assert_eq!(read(&path)?, after.as_bytes());
        }
        fs::remove_file(&path)?;
        append(&path, Form::Escaped, line, "whole")?;
        assert_eq!(read(&path)?, b"whole");
        Ok(())
    }

    #[test]
    fn a_file_that_is_replaced_meanwhile_is_opened_anew() -> io::Result<()> {
        let folder = Folder::new("replaced")?;
        let (path, other) = (folder.0.join("history"), folder.0.join("other"));
        let locked = open_locked(&path)?;
        thread::scope(|scope| {
            let appended = scope.spawn(|| append(&path, Form::Escaped, line, ""));
            // So that it waits for the lock.
            thread::sleep(Duration::from_millis(100));
            fs::write(&other, b"#V3\na\n")?;
            fs::rename(&other, &path)?;
            drop(locked);
            appended
                .join()
                .unwrap_or_else(|_| Err(io::Error::other("a panic")))
        })?;
        assert_eq!(read(&path)?, b"#V3\na\nEscaped\n");
        Ok(())
    }

    #[test]
    fn other_files_are_left_alone() -> io::Result<()> {
        let folder = Folder::new("other")?;
        let path = folder.0.join("history");
        for (text, wanted) in [
            ("plain\n", Form::Escaped),
            ("#V2\na\n", Form::Escaped),
            ("#V2\na\n", Form::Plain),
        ] {
            fs::write(&path, text)?;
            let refused = append(&path, wanted, line, "");
            assert!(refused.is_err_and(|error| error.kind() == io::ErrorKind::InvalidData));
            assert_eq!(read(&path)?, text.as_bytes());
        }
        write(Path::new("/dev/null"), b"a\n")?;
        append(Path::new("/dev/null"), Form::Escaped, line, "")?;
        assert!(!fs::metadata("/dev/null")?.is_file());
        Ok(())
    }

    #[test]
    fn a_link_stays_a_link() -> io::Result<()> {
        let folder = Folder::new("link")?;
        let (path, link) = (folder.0.join("history"), folder.0.join("link"));
        fs::write(&path, b"#V3\n")?;
        std::os::unix::fs::symlink(&path, &link)?;
        write(&link, b"#V3\na\n")?;
        assert!(fs::symlink_metadata(&link)?.is_symlink());
        assert_eq!(read(&path)?, b"#V3\na\n");
        Ok(())
    }
}
