//! Finds the library of the editor: in the folder that `COMVIZGA_LIB_DIR` names, or in a usual one.

use std::env;
use std::path::{Path, PathBuf};
use std::process;

/// Where `hosts/build` leaves the library, and where it lies beside an installed crate.
const USUAL_FOLDERS: [&str; 2] = ["../out", "../../../lib"];

fn main() {
    println!("cargo::rerun-if-env-changed=COMVIZGA_LIB_DIR");
    let folders = match env::var_os("COMVIZGA_LIB_DIR") {
        Some(folder) => vec![PathBuf::from(folder)],
        None => USUAL_FOLDERS
            .map(|folder| Path::new(env!("CARGO_MANIFEST_DIR")).join(folder))
            .to_vec(),
    };
    let Some((folder, names)) = folders
        .iter()
        .find_map(|folder| Some((folder, libraries_in(folder)?)))
    else {
        println!(
            "cargo::error=no libcomvizga.a in {}: run hosts/build, or set COMVIZGA_LIB_DIR",
            folders[0].display()
        );
        process::exit(1);
    };
    println!("cargo::rustc-link-search=native={}", folder.display());
    for name in names {
        let file = folder.join(format!("lib{name}.a"));
        println!("cargo::rerun-if-changed={}", file.display());
        println!("cargo::rustc-link-lib=static={name}");
    }
}

/// Returns the names of the libraries to link: the whole one, or else its two parts.
fn libraries_in(folder: &Path) -> Option<&'static [&'static str]> {
    let choices: [&[&str]; 2] = [&["comvizga"], &["line_c", "libc_c"]];
    choices.into_iter().find(|names| {
        names
            .iter()
            .all(|name| folder.join(format!("lib{name}.a")).is_file())
    })
}
