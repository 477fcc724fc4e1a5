//! The page of theorems tells where each stands, and none is missing: a record, and the function of `theorems` whose contract it is.

use std::collections::BTreeSet;
use std::fs;
use std::path::Path;

use super::reading::library::code_path;
use super::reading::library::Library;
use super::reading::module::Module;
use super::reading::repository::Repository;

const HOME: &str = "theorems";

/// A row of the page.
struct Row {
    record: String,
    stands: String,
    function: String,
    shown: String,
}

/// The rows of the page's table, without its heading.
fn rows(page: &str) -> Vec<Row> {
    let cells = |line: &str| {
        let inner = line.trim_matches('|');
        let cells = inner
            .rsplitn(5, '|')
            .map(|cell| cell.trim().replace('`', ""));
        cells.collect::<Vec<String>>()
    };
    let table = page.lines().filter(|line| line.starts_with('|'));
    let rows = table.skip(2).map(|line| match cells(line).as_slice() {
        [shown, function, stands, record, _] => Row {
            record: record.clone(),
            stands: stands.clone(),
            function: function.clone(),
            shown: shown.clone(),
        },
        _ => panic!("a row of the page has five cells: {line}"),
    });
    rows.collect()
}

/// What is wrong with the page.
fn faults(page: &str, repository: &Repository) -> Vec<String> {
    let rows = rows(page);
    let library = Library::of(repository);
    let code = library.code(HOME).expect("the code of the theorems");
    let mut found = Vec::new();
    for row in &rows {
        let module = repository.text(&format!("{}.antt", row.stands));
        let record = module.and_then(|text| Module::read(text).definition(&row.record));
        if record.is_none() {
            found.push(format!("{} does not define {}", row.stands, row.record));
        }
        if repository.text(&format!("{}.antt", row.shown)).is_none() {
            found.push(format!("there is no {}", row.shown));
        }
        let function = code.function_named(&row.function);
        let says = |clause: &Vec<_>| clause_says(clause, &row.record);
        match function {
            None => found.push(format!("there is no function {}", row.function)),
            Some(own) if !own.ensures.iter().any(says) || !own.requires.is_empty() => {
                found.push(format!("{} does not promise {}", row.function, row.record));
            }
            Some(_) => {}
        }
    }
    let listed: BTreeSet<&str> = rows.iter().map(|row| row.function.as_str()).collect();
    let missing = code
        .functions
        .iter()
        .filter(|own| !listed.contains(own.name.as_str()));
    found.extend(missing.map(|own| format!("the page has no {}", own.name)));
    found
}

/// Whether a clause is a record by itself, `{ Record }`.
fn clause_says(clause: &[super::reading::words::Word], record: &str) -> bool {
    let words: Vec<&str> = clause.iter().map(|word| word.text.as_str()).collect();
    words == [record]
}

fn page() -> String {
    let root = Path::new(env!("CARGO_MANIFEST_DIR")).join("../..");
    fs::read_to_string(root.join("docs/THEOREMS.md")).expect("the page of theorems")
}

#[test]
fn the_page_has_every_theorem_where_it_stands() {
    let repository = Repository::here();
    let page = page();
    assert!(rows(&page).len() >= 12, "only {} rows", rows(&page).len());
    let faults = faults(&page, &repository);
    assert!(faults.is_empty(), "{}", faults.join("\n"));
}

#[test]
fn a_row_that_leads_nowhere_and_a_theorem_without_a_row_are_found() {
    let repository = Repository::here();
    let page = page();
    let without = |word: &str| -> String {
        let lines = page.lines().filter(|line| !line.contains(word));
        lines.map(|line| format!("{line}\n")).collect()
    };
    assert_eq!(
        faults(&without("numbers_theorem"), &repository),
        ["the page has no numbers_theorem"]
    );
    let elsewhere = page.replace("promises/specs/PrintTheorem", "promises/specs/Printed");
    assert_eq!(
        faults(&elsewhere, &repository),
        ["promises/specs/Printed does not define PrintTheorem"]
    );
    let other = page
        .replace("`PrintTheorem`", "`Prints`")
        .replace("specs/PrintTheorem", "specs/Printed");
    assert_eq!(
        faults(&other, &repository),
        ["print_theorem does not promise Prints"]
    );
    assert_eq!(code_path(HOME), "theorems/src/lib.rt");
}
