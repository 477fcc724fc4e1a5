//! The wrong programs that docs/CALLS.md names are edits that the gate tries, and every file beside them is an edit too: one
//! that ends otherwise would be tried by nobody.

use std::collections::BTreeSet;
use std::fs;
use std::path::{Path, PathBuf};

/// As many edits had the repository, and as many did CALLS.md name, when this was written. Raise them as they grow.
const FOUND: [usize; 2] = [507, 96];

fn root() -> PathBuf {
    Path::new(env!("CARGO_MANIFEST_DIR")).join("../..")
}

/// The files of all directories `must-fail`, as `CRATE/NAME.edit`.
fn files() -> Vec<String> {
    let mut found = Vec::new();
    let entries = |directory: &Path| -> Vec<PathBuf> {
        let entries = fs::read_dir(directory).expect("a directory");
        entries
            .map(|entry| entry.expect("an entry").path())
            .collect()
    };
    let name = |path: &Path| {
        path.file_name()
            .map(|own| own.to_string_lossy().into_owned())
    };
    for crate_directory in entries(&root().join("crates")) {
        let edits = crate_directory.join("must-fail");
        if edits.is_dir() {
            let own = name(&crate_directory).expect("a crate's name");
            let names = entries(&edits).into_iter().filter_map(|path| name(&path));
            found.extend(names.map(|edit| format!("{own}/{edit}")));
        }
    }
    found
}

/// The edits as `CRATE/NAME`, and the files that are none.
fn edits(files: &[String]) -> (BTreeSet<&str>, Vec<&str>) {
    let mut edits = BTreeSet::new();
    let mut others = Vec::new();
    for file in files {
        match file.strip_suffix(".edit") {
            Some(edit) => drop(edits.insert(edit)),
            None => others.push(file.as_str()),
        }
    }
    (edits, others)
}

/// What each section of CALLS.md rules out: its heading, and the edits that its items `Rules out` name.
fn ruled_out(calls: &str) -> Vec<(&str, Vec<&str>)> {
    let mut sections: Vec<(&str, Vec<&str>)> = Vec::new();
    let mut within = false;
    for line in calls.lines() {
        if let Some(heading) = line.strip_prefix("## ") {
            sections.push((heading, Vec::new()));
        }
        within = match line.starts_with("- ") || line.starts_with('#') || line.is_empty() {
            true => line.starts_with("- Rules out"),
            false => within,
        };
        if let Some((_, named)) = sections.last_mut().filter(|_| within) {
            let quoted = line.split('`').skip(1).step_by(2);
            named.extend(quoted.filter(|own| own.matches('/').count() == 1));
        }
    }
    sections
}

/// What is wrong with what CALLS.md names.
fn faults(calls: &str, edits: &BTreeSet<&str>) -> Vec<String> {
    let mut faults = Vec::new();
    for (heading, named) in ruled_out(calls) {
        if named.len() < 2 {
            faults.push(format!("{heading}: fewer than two wrong programs"));
        }
        let unknown = named.into_iter().filter(|own| !edits.contains(own));
        faults.extend(unknown.map(|own| format!("{heading}: there is no edit {own}")));
    }
    faults
}

#[test]
fn every_wrong_program_is_an_edit() {
    let calls = fs::read_to_string(root().join("docs/CALLS.md")).expect("docs/CALLS.md");
    let files = files();
    let (edits, others) = edits(&files);
    assert_eq!(others, Vec::<&str>::new(), "files that are no edits");
    assert_eq!(faults(&calls, &edits), Vec::<String>::new());
    let named: usize = ruled_out(&calls).iter().map(|(_, own)| own.len()).sum();
    println!(
        "edits, and those that CALLS.md names: {} {named}",
        edits.len()
    );
    assert!(
        edits.len() >= FOUND[0] && named >= FOUND[1],
        "only {} and {named}",
        edits.len()
    );
}

#[test]
fn what_is_missing_is_found() {
    let files = ["one/a.edit", "one/b.edit", "two/c.edit.orig", "two/d"].map(str::to_string);
    let (edits, others) = edits(&files);
    assert_eq!(others, ["two/c.edit.orig", "two/d"]);
    let calls = "`one/x`\n## first\n- Promise: `three/specs`\n- Rules out: this (`one/a`;\n  that, `one/b`) and\n  `word`\n\
        ## second\n- Rules out, of `x`: this (`one/a`)\n- Not `two/y`\n## third\n- Rules out: (`two/c`) (`one/a`).\n\n`one/z`\n";
    let expected = [
        "second: fewer than two wrong programs",
        "third: there is no edit two/c",
    ];
    assert_eq!(faults(calls, &edits), expected);
}
