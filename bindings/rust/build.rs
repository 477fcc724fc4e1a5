//! Links the archive that `bindings/archive` writes.

use std::env;
use std::path::PathBuf;

fn main() {
    println!("cargo:rerun-if-env-changed=DUKNAVET_ARCHIVE_DIR");
    let directory = match env::var_os("DUKNAVET_ARCHIVE_DIR") {
        Some(directory) => PathBuf::from(directory),
        None => {
            let package = env::var_os("CARGO_MANIFEST_DIR").expect("cargo names the package");
            PathBuf::from(package).join("../../target/staticlib")
        }
    };
    let archive = directory.join("libexports.a");
    println!("cargo:rerun-if-changed={}", archive.display());
    if !archive.is_file() {
        eprintln!("duknavet: there is no archive at {}", archive.display());
        eprintln!("duknavet: run `bindings/archive` at the root of the repository, or name the archive's directory in DUKNAVET_ARCHIVE_DIR");
        std::process::exit(1);
    }
    // A relative directory is meant from where cargo runs this script, the package's root.
    let directory = directory.canonicalize().unwrap_or(directory);
    println!("cargo:rustc-link-search=native={}", directory.display());
    println!("cargo:rustc-link-lib=static=exports");
}
