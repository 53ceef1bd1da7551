//! A program that makes the common calls compiles with this crate and with Debian's rustyline.

#[path = "common/calls.rs"]
mod calls;

use comvizga as rustyline;

use rustyline::{DefaultEditor, Result};
use std::path::Path;
use std::process::Command;
use std::{env, fs, io};

const KEYSEQ_TIMEOUT: Option<u16> = Some(500);

/// Where Debian's package librust-rustyline-dev stands.
const REGISTRY: &str = "/usr/share/cargo/registry";

#[test]
fn they_compile_with_this_crate() -> Result<()> {
    // Standard input may be that of whoever runs the tests, so that no line is read.
    let _: fn(&mut DefaultEditor, &str) -> Result<Vec<String>> = calls::read_lines;
    let mut editor = DefaultEditor::with_config(calls::settings())?;
    calls::bind(&mut editor);
    assert_eq!(editor.config().indent_size(), 4);
    Ok(())
}

#[test]
fn they_compile_with_rustyline() -> io::Result<()> {
    let mut packages = fs::read_dir(REGISTRY)?.flatten();
    if !packages.any(|package| {
        package
            .file_name()
            .as_encoded_bytes()
            .starts_with(b"rustyline-")
    }) {
        eprintln!("librust-rustyline-dev is not there: nothing is compiled");
        return Ok(());
    }
    let manifest = Path::new(env!("CARGO_MANIFEST_DIR")).join("tests/with_rustyline/Cargo.toml");
    let checked = Command::new(env!("CARGO"))
        .args(["check", "--offline", "--quiet", "--manifest-path"])
        .arg(manifest)
        .current_dir(env!("CARGO_MANIFEST_DIR"))
        .env("CARGO_TARGET_DIR", env!("CARGO_TARGET_TMPDIR"))
        .status()?;
    assert!(checked.success());
    Ok(())
}
