//! The C header compiles without a warning, as C and as C++, and a program that uses it gets the right answers.

mod archive;

use archive::archive;
use std::path::{Path, PathBuf};
use std::process::Command;

fn compile(compiler: &str, words: &[&str]) -> PathBuf {
    let package = Path::new(env!("CARGO_MANIFEST_DIR"));
    let name = format!("header-{compiler}-{}", std::process::id());
    let program = Path::new(env!("CARGO_TARGET_TMPDIR")).join(name);
    let output = Command::new(compiler)
        .args(["-Wall", "-Wextra", "-Wpedantic", "-Werror"])
        .args(words)
        .arg("-I")
        .arg(package.join("../../include"))
        .arg("-o")
        .arg(&program)
        .arg(package.join("tests/header.c"))
        .args(["-x", "none"])
        .arg(archive())
        .output()
        .expect("the compiler runs");
    let said = String::from_utf8_lossy(&output.stderr);
    assert!(output.status.success(), "{compiler}: {said}");
    program
}

fn check(compiler: &str, words: &[&str]) {
    archive::needed(compiler);
    let program = compile(compiler, words);
    let ran = Command::new(&program).output().expect("the program runs");
    std::fs::remove_file(&program).expect("the program is a file of this test");
    let said = String::from_utf8_lossy(&ran.stdout);
    assert!(ran.status.success(), "the program found:\n{said}");
}

#[test]
fn c99() {
    check("cc", &["-std=c99"]);
}

#[test]
fn cpp() {
    check("c++", &["-std=c++11", "-x", "c++"]);
}
