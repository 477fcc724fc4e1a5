//! The programs stand above the library and see only its public calls; the header and the Rust package declare the exports as they are.

use super::reading::code::Code;
use super::reading::repository::Repository;

const LIBRARY: &str = "/src/lib.rt";
const PROGRAM: &str = "/src/main.rt";

/// The names of the crates.
fn crates(repository: &Repository) -> Vec<&str> {
    let files = repository
        .ending(LIBRARY)
        .chain(repository.ending(PROGRAM))
        .map(|(path, _)| path.split('/').next().expect("the crate of a file"));
    files.collect()
}

/// Whether a source names something of the crate, as `name::item`.
fn names(source: &str, name: &str) -> bool {
    let path = format!("{name}::");
    source.lines().any(|line| {
        let code = line.split("//").next().unwrap_or("");
        code.match_indices(&path).any(|(at, _)| {
            !code[..at].ends_with(|c: char| c.is_alphanumeric() || c == '_' || c == ':')
        })
    })
}

#[test]
fn programs_name_only_the_public_library() {
    let repository = Repository::here();
    // The board and the rules of formulas are products above the library, and have programs of their own.
    let allowed = |program: &str, name: &str| match name {
        "rules" | "example_text" => true,
        "board" => program.starts_with("run_boards/"),
        "formula_call" => program.starts_with("run_formulas/"),
        _ => false,
    };
    let mut programs = 0;
    for (program, text) in repository.ending(PROGRAM) {
        programs += 1;
        assert!(names(text, "rules"), "{program} does not use the library");
        for name in crates(&repository) {
            assert!(
                allowed(program, name) || !names(text, name),
                "{program} names {name}"
            );
        }
    }
    assert!(programs >= 9, "only {programs} programs were found");
}

/// The crates of the board that have code, each with what its code may name beside the library's face and the board's own types.
const BOARD: [(&str, &[&str]); 5] = [
    ("board_values", &[]),
    ("board_answers", &[]),
    ("board_buffers", &[]),
    ("board_pass", &["board_values", "board_answers"]),
    (
        "board",
        &[
            "board_values",
            "board_answers",
            "board_buffers",
            "board_pass",
        ],
    ),
];

/// The crates that their proofs may rest on beside each other: what the library and the board promise, and the definitions that they promise by.
const PROMISED: [&str; 6] = [
    "answer",
    "finite",
    "theory",
    "formats",
    "promises",
    "board_promises",
];

/// The crate of the toolchain whose words every file may use.
const STD: &str = "std";

/// The crates of this repository that the `use` lines of a file of antt name.
fn homes(text: &str) -> impl Iterator<Item = &str> {
    let uses = text
        .lines()
        .filter_map(|line| line.strip_prefix("use Rattle."));
    let homes = uses.map(|rest| rest.split('.').next().unwrap_or(""));
    homes.filter(|home| *home != STD)
}

#[test]
fn the_board_sees_only_the_promises_of_the_library() {
    let repository = Repository::here();
    for (own, allowed) in BOARD {
        let text = repository
            .text(&format!("{own}{LIBRARY}"))
            .expect("the code of the board");
        assert!(names(text, "rules"), "{own} does not use the library");
        for name in crates(&repository) {
            let allowed = ["rules", "board_promises"].contains(&name) || allowed.contains(&name);
            assert!(allowed || !names(text, name), "{own} names {name}");
        }
        let mut uses = 0;
        let files = repository.ending(".antt");
        for (path, text) in files.filter(|(path, _)| path.starts_with(&format!("{own}/"))) {
            for home in homes(text) {
                uses += 1;
                assert!(
                    home == own || PROMISED.contains(&home) || allowed.contains(&home),
                    "{path} rests on {home}"
                );
            }
        }
        assert!(uses >= 8, "only {uses} uses were found in {own}");
    }
}

/// What holds after many calls of the board is shown by promises alone too: this crate has proofs and no code.
const HISTORIES: &str = "board_histories";

#[test]
fn the_histories_of_the_board_rest_on_promises() {
    let repository = Repository::here();
    let mut uses = 0;
    let files = repository.ending(".antt");
    for (path, text) in files.filter(|(path, _)| path.starts_with(&format!("{HISTORIES}/"))) {
        for home in homes(text) {
            uses += 1;
            assert!(
                home == HISTORIES || PROMISED.contains(&home),
                "{path} rests on {home}"
            );
        }
    }
    assert!(uses >= 80, "only {uses} uses were found in {HISTORIES}");
}

#[test]
fn no_public_call_asks_anything_of_its_caller() {
    let repository = Repository::here();
    let code = |home: &str| {
        let text = repository.text(&format!("{home}{LIBRARY}"));
        Code::read(text.expect("the code of a crate"))
    };
    let mut calls = 0;
    for face in ["rules", "board"].map(code) {
        let passed = face.imports.iter().filter(|import| import.passed_on);
        let homes: Vec<(Code, &str)> = passed
            .map(|import| (code(&import.home), import.item.as_str()))
            .collect();
        let passed = homes
            .iter()
            .filter_map(|(home, item)| home.function_named(item));
        let own = face.functions.iter().filter(|function| function.public);
        for call in passed.chain(own) {
            calls += 1;
            assert!(call.requires.is_empty(), "{} has a requires", call.name);
        }
    }
    assert!(calls >= 30, "only {calls} calls were found");
}

#[test]
fn only_programs_use_the_text_of_the_examples() {
    let repository = Repository::here();
    let readers = ["example_parts", "example_lists", "example_text"];
    let of_readers = |path: &str| {
        readers
            .iter()
            .any(|name| path == format!("{name}{LIBRARY}"))
    };
    for (library, text) in repository
        .ending(LIBRARY)
        .filter(|(path, _)| !of_readers(path))
    {
        for reader in readers {
            assert!(!names(text, reader), "{library} uses {reader}");
        }
    }
    let users = repository
        .ending(PROGRAM)
        .filter(|(_, text)| names(text, "example_text"))
        .count();
    assert!(users >= 7, "only {users} programs use it");
}

/// An argument of an exported function: its name, and what is handed over.
#[derive(Debug, PartialEq)]
struct Argument {
    name: String,
    kind: &'static str,
}

/// The functions of a text whose names begin with `duknavet_`, each with the arguments that `read` finds in what stands between its
/// parentheses. A declaration begins with `before`.
fn declared(
    text: &str,
    before: &str,
    read: impl Fn(&str) -> Vec<Argument>,
) -> Vec<(String, Vec<Argument>)> {
    let begin = format!("{before} duknavet_");
    let declarations = text.split(&begin).skip(1).map(|rest| {
        let (name, rest) = rest.split_once('(').expect("arguments");
        let (arguments, _) = rest.split_once(')').expect("their end");
        (name.to_string(), read(arguments))
    });
    let mut declarations: Vec<_> = declarations.collect();
    declarations.sort_by(|one, other| one.0.cmp(&other.0));
    declarations
}

/// The names and types of arguments `name: type`; a slice is handed over as a pointer and a length.
fn typed(arguments: &str) -> Vec<Argument> {
    let pairs = arguments.split(',').filter_map(|one| one.split_once(':'));
    let arguments = pairs.flat_map(|(name, kind)| {
        let name = name.trim();
        let argument = |name: &str, kind| Argument {
            name: name.to_string(),
            kind,
        };
        let length = argument(&format!("{name}_length"), "size");
        match kind.trim() {
            "&[u8]" => vec![argument(name, "read"), length],
            "&mut [u8]" => vec![argument(name, "written"), length],
            "*const u8" => vec![argument(name, "read")],
            "*mut u8" => vec![argument(name, "written")],
            "usize" => vec![argument(name, "size")],
            "u8" => vec![argument(name, "byte")],
            other => panic!("an argument of type {other}"),
        }
    });
    arguments.collect()
}

/// The same of C.
fn of_header(arguments: &str) -> Vec<Argument> {
    let arguments = arguments.split(',').map(str::trim);
    let arguments = arguments.filter(|one| *one != "void").map(|one| {
        let at = one.rfind([' ', '*']).expect("a type and a name") + 1;
        let kind = match one[..at].trim() {
            "const uint8_t *" => "read",
            "uint8_t *" => "written",
            "size_t" => "size",
            "uint8_t" => "byte",
            other => panic!("an argument of type {other}"),
        };
        Argument {
            name: one[at..].to_string(),
            kind,
        }
    });
    arguments.collect()
}

/// The header, the Rust package and the Python package have one version.
#[test]
fn one_version() {
    let root = std::path::Path::new(env!("CARGO_MANIFEST_DIR")).join("../..");
    let version = env!("CARGO_PKG_VERSION");
    let named = [
        ("include/duknavet.h", "#define DUKNAVET_VERSION"),
        ("bindings/python/pyproject.toml", "version ="),
        ("bindings/python/backend/duknavet_backend.py", "VERSION ="),
        ("bindings/python/duknavet/__init__.py", "__version__ ="),
    ];
    for (path, name) in named {
        let text = std::fs::read_to_string(root.join(path)).expect("a file");
        let versions = text.lines().filter_map(|line| line.strip_prefix(name));
        let versions: Vec<&str> = versions.map(str::trim).collect();
        assert_eq!(versions, [format!("\"{version}\"")], "{path}");
    }
}

/// Two arguments of one type that change places are no fault to a compiler.
#[test]
fn arguments_are_declared_as_they_are_exported() {
    let repository = Repository::here();
    let code = |home: &str| repository.text(&format!("{home}{LIBRARY}"));
    let linked = code("exports_c").expect("what the archive has");
    let exports = declared(linked, "extern \"C\" fn", typed);
    assert!(exports.len() > 19, "only {} exports", exports.len());
    let proved = code("exports").expect("the exports");
    assert_eq!(declared(proved, "fn", typed), exports);
    let header = include_str!("../../../../include/duknavet.h");
    assert_eq!(declared(header, "\nuint64_t", of_header), exports);
    let raw = include_str!("../../src/raw.rs");
    assert_eq!(declared(raw, " =", typed), exports);
}
