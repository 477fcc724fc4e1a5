//! The files of `crates/` and the list of the crates, from the disk or made up. What rt built in a crate is none of them.

use std::collections::{BTreeMap, BTreeSet};
use std::fs;
use std::path::Path;

/// The name of the list of the crates, which stands beside `crates/`.
const LIST: &str = "crates.txt";

/// The directory of a crate that rt writes what it built to, copies of sources among it.
const BUILT: &str = "out";

/// Texts by their paths from `crates/` on, as `answer/specs/Checks.antt`, and that of `crates.txt`.
pub struct Repository {
    files: BTreeMap<String, String>,
}

impl Repository {
    /// The repository that this package stands in.
    pub fn here() -> Repository {
        let root = Path::new(env!("CARGO_MANIFEST_DIR")).join("../..");
        let mut files = BTreeMap::new();
        collect(&root.join("crates"), "", &mut files);
        let list = fs::read_to_string(root.join(LIST)).expect("the list of the crates");
        files.insert(LIST.to_string(), list);
        Repository { files }
    }

    pub fn made_up(files: &[(&str, &str)]) -> Repository {
        let own = |&(path, text): &(&str, &str)| (path.to_string(), text.to_string());
        Repository {
            files: files.iter().map(own).collect(),
        }
    }

    pub fn text(&self, path: &str) -> Option<&str> {
        self.files.get(path).map(String::as_str)
    }

    /// The crates, and every crate below them: those that a line of the list names, `name: used used ..`, and so on down. Behind a name may
    /// stand what kind of library it is, as in `name staticlib: used`.
    pub fn with_all_below(&self, crates: &[&str]) -> BTreeSet<&str> {
        let list = self.text(LIST).expect("the list of the crates");
        let lines = list.lines().filter(|line| !line.starts_with('#'));
        let uses = lines.filter_map(|line| {
            let (named, used) = line.split_once(':')?;
            Some((named.split_whitespace().next()?, used))
        });
        let uses: BTreeMap<&str, &str> = uses.collect();
        let mut found = BTreeSet::new();
        let mut waiting: Vec<&str> = crates.to_vec();
        while let Some(name) = waiting.pop() {
            let (name, used) = uses
                .get_key_value(name)
                .unwrap_or_else(|| panic!("{LIST} has no line of {name}"));
            if found.insert(*name) {
                waiting.extend(used.split_whitespace());
            }
        }
        found
    }

    /// The files with the ending, as `.antt`.
    pub fn ending<'a>(&'a self, ending: &'a str) -> impl Iterator<Item = (&'a str, &'a str)> {
        self.files
            .iter()
            .filter(move |(path, _)| path.ends_with(ending))
            .map(|(path, text)| (path.as_str(), text.as_str()))
    }
}

fn collect(directory: &Path, path: &str, files: &mut BTreeMap<String, String>) {
    for entry in fs::read_dir(directory).expect("a directory of sources") {
        let entry = entry.expect("an entry of a directory");
        let name = entry.file_name().into_string().expect("a plain name");
        let below = if path.is_empty() {
            name
        } else {
            format!("{path}/{name}")
        };
        let place = entry.path();
        if place.is_dir() {
            if !is_built(&below) {
                collect(&place, &below, files);
            }
        } else if below.ends_with(".antt") || below.ends_with(".rt") {
            let text = fs::read_to_string(&place).expect("a source is text");
            files.insert(below, text);
        }
    }
}

/// Whether the path from `crates/` on is that of a crate's own directory `out`.
fn is_built(path: &str) -> bool {
    matches!(path.split_once('/'), Some((_, BUILT)))
}

#[test]
fn what_rt_built_in_a_crate_is_not_read() {
    assert!(is_built("answer/out"));
    for source in ["out", "answer/src", "answer/src/out", "answer/out.rt"] {
        assert!(!is_built(source), "{source}");
    }
}
