//! Where the archive is that a test links, and what it needs beside it.

use std::env;
use std::path::{Path, PathBuf};
use std::process::Command;

#[allow(dead_code)]
pub fn archive() -> PathBuf {
    let package = Path::new(env!("CARGO_MANIFEST_DIR"));
    match env::var_os("DUKNAVET_ARCHIVE_DIR") {
        Some(directory) => package.join(directory),
        None => package.join("../../target/staticlib"),
    }
    .join("libexports.a")
}

/// The program `duknavet`, as `rt ci` or `rt run` leaves it in the folder of its crate.
#[allow(dead_code)]
pub fn program() -> PathBuf {
    let package = Path::new(env!("CARGO_MANIFEST_DIR"));
    let program = package.join("../../crates/duknavet/out/duknavet");
    assert!(
        program.is_file(),
        "there is no {}: run `rt run` in crates/duknavet",
        program.display()
    );
    program
}

/// That a program is installed. A test that needs it fails where it is not: one that passed would have checked nothing.
#[allow(dead_code)]
pub fn needed(program: &str) {
    let found = Command::new(program).arg("--version").output();
    assert!(
        found.is_ok(),
        "there is no {program}, which this test needs"
    );
}
