//! The page of the architecture names every crate and every module of this package.

use std::fs;
use std::path::Path;

use super::reading::repository::Repository;

fn root() -> std::path::PathBuf {
    Path::new(env!("CARGO_MANIFEST_DIR")).join("../..")
}

/// The crates that the list has a line for.
fn listed(list: &str) -> Vec<&str> {
    let lines = list.lines().filter(|line| !line.starts_with('#'));
    let names = lines.filter_map(|line| line.split_once(':'));
    names
        .filter_map(|(named, _)| named.split_whitespace().next())
        .collect()
}

/// The names, quoted as code, that a page does not have.
fn missing<'a>(page: &str, names: &[&'a str]) -> Vec<&'a str> {
    let has = |name: &&str| page.contains(&format!("`{name}`"));
    names.iter().copied().filter(|name| !has(name)).collect()
}

#[test]
fn the_architecture_names_every_crate_and_module() {
    let repository = Repository::here();
    let page = fs::read_to_string(root().join("docs/ARCHITECTURE.md")).expect("the page");
    let crates = listed(
        repository
            .text("crates.txt")
            .expect("the list of the crates"),
    );
    assert!(crates.len() >= 130, "only {} crates", crates.len());
    assert_eq!(missing(&page, &crates), [] as [&str; 0]);
    let library = fs::read_to_string(root().join("bindings/rust/src/lib.rs")).expect("the package");
    let modules = library.lines().filter_map(|line| {
        let rest = line.strip_prefix("pub mod ").or(line.strip_prefix("mod "));
        rest.and_then(|rest| rest.strip_suffix(';'))
    });
    let modules: Vec<&str> = modules.collect();
    assert!(modules.len() >= 15, "only {} modules", modules.len());
    assert_eq!(missing(&page, &modules), [] as [&str; 0]);
}

#[test]
fn a_crate_that_the_page_lacks_is_found() {
    let list = "# a group\nfirst: second\nsecond staticlib:\n";
    assert_eq!(listed(list), ["first", "second"]);
    assert_eq!(missing("`first`, second", &listed(list)), ["second"]);
}
