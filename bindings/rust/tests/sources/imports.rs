//! No file brings in a name that it does not write: an idle `use` line tells of a dependence that is none.

use std::collections::{BTreeMap, HashSet};

use super::reading::code::{Code, CodeImport};
use super::reading::module::{Import, Module};
use super::reading::names::pattern_words;
use super::reading::repository::Repository;
use super::reading::words::{part_written, parts, roles, Role, Word};

/// The words by which a text can write a name that was brought in.
#[derive(Default)]
struct Written {
    words: HashSet<String>,
    /// Those before a dot: only so can a module be written.
    before_dots: HashSet<String>,
}

impl Written {
    fn add(&mut self, words: &[Word]) {
        for (at, (word, role)) in words.iter().zip(roles(words)).enumerate() {
            if role != Role::Name {
                continue;
            }
            self.words.insert(word.text.clone());
            self.words.insert(part_written(&word.text).to_string());
            if words.get(at + 1).is_some_and(|next| next.is(".")) {
                self.before_dots.insert(word.text.clone());
            }
        }
    }

    fn has(&self, import: &Import) -> bool {
        let name = import.name.as_str();
        if import.item.is_none() {
            return self.before_dots.contains(name);
        }
        if self.words.contains(name) {
            return true;
        }
        // Not written, but meant: `do` stands for the two operators that join its lines.
        if ["◌>>=◌", "◌>>◌"].contains(&name) {
            return self.words.contains("do");
        }
        let parts = parts(name);
        !parts.is_empty() && parts.iter().all(|part| self.words.contains(*part))
    }
}

/// Traits of the toolchain are not written where they are meant: one of these methods of each is.
const METHODS: [(&str, &[&str]); 3] = [
    (
        "BufRead",
        &["read_line", "read_until", "lines", "split", "fill_buf"],
    ),
    ("Read", &["read", "read_to_end", "read_exact", "bytes"]),
    ("Write", &["write", "write_all", "flush"]),
];

/// Whether code writes what a `use` item brings in, or means it.
fn is_written(code: &Code, import: &CodeImport) -> bool {
    let written = |name: &str| code.identifiers.iter().any(|own| own == name);
    let mut methods = METHODS
        .iter()
        .filter(|(name, _)| import.home == "std" && import.item == *name)
        .flat_map(|(_, methods)| *methods);
    written(&import.item) || methods.any(|method| written(method))
}

/// The faults of all files: names brought in and not written, and `use` lines that cannot be read.
fn faults(repository: &Repository) -> Vec<String> {
    let mut found = Vec::new();
    for (path, text) in repository.ending(".antt") {
        let module = Module::read(text);
        let mut written = Written::default();
        written.add(&module.words);
        // A `use` line may begin with a module that another brought in.
        let heads = module.imports.iter().map(|import| &import.path[0]);
        written.before_dots.extend(heads.cloned());
        let unread = module.unread.iter().filter(|(_, form)| form == "use");
        found.extend(unread.map(|(line, form)| format!("crates/{path}:{line}: {form} not read")));
        // What is passed on is for others to write.
        let own = module.imports.iter().filter(|import| !import.passed_on);
        let idle = own.filter(|import| !written.has(import));
        found.extend(idle.map(|import| idle_fault(path, import.line, &import.name)));
    }
    for (path, text) in repository.ending(".rt") {
        let code = Code::read(text);
        let mut written = Written::default();
        for function in &code.functions {
            for clause in function.requires.iter().chain(&function.ensures) {
                written.add(clause);
            }
        }
        let unread = code.unread.iter();
        found.extend(unread.map(|(line, form)| format!("crates/{path}:{line}: {form} not read")));
        let idle = code
            .ghost_imports
            .iter()
            .filter(|import| !written.has(import));
        found.extend(idle.map(|import| idle_fault(path, import.line, &import.name)));
        let own = code.imports.iter().filter(|import| !import.passed_on);
        let idle = own.filter(|import| !is_written(&code, import));
        found.extend(idle.map(|import| idle_fault(path, import.line, &import.item)));
    }
    found
}

fn idle_fault(path: &str, line: usize, name: &str) -> String {
    format!("crates/{path}:{line}: {name} is brought in and not written")
}

#[test]
fn every_name_brought_in_is_written() {
    let repository = Repository::here();
    let modules = repository.ending(".antt").count();
    let codes = repository.ending(".rt").count();
    assert!(
        modules >= 700 && codes >= 70,
        "only {modules} and {codes} files were found"
    );
    let faults = faults(&repository);
    assert!(
        faults.is_empty(),
        "{} idle names:\n{}",
        faults.len(),
        faults.join("\n")
    );
}

/// Constructors of the toolchain: a pattern has them, and does not bind them.
const CONSTRUCTORS: [&str; 16] = [
    "zero", "suc", "true", "false", "inl", "inr", "refl", "yes", "no", "tt", "[]", "∷", "Some",
    "None", "Ok", "Err",
];

/// Names that are brought in and that a pattern binds all the same: there they mean something else.
fn rebound(repository: &Repository) -> Vec<String> {
    let modules: BTreeMap<&str, Module> = repository
        .ending(".antt")
        .map(|(path, text)| (path, Module::read(text)))
        .collect();
    let constructors: HashSet<&str> = modules
        .values()
        .flat_map(|module| &module.definitions)
        .flat_map(|definition| &definition.with_it)
        .map(String::as_str)
        .chain(CONSTRUCTORS)
        .collect();
    let mut found = Vec::new();
    for (path, module) in &modules {
        let functions = module.imports.iter().filter(|import| {
            let variant = import.path.iter().any(|word| word == "TheVariants");
            let item = import.item.as_deref().unwrap_or("");
            !variant && parts(item).is_empty() && !constructors.contains(item)
        });
        let functions: Vec<&Import> = functions.filter(|own| own.item.is_some()).collect();
        for definition in &module.definitions {
            let clauses = definition.items.iter().skip(1);
            let words: HashSet<&str> = clauses.flat_map(|clause| pattern_words(clause)).collect();
            let bound = functions
                .iter()
                .filter(|import| words.contains(import.name.as_str()));
            found.extend(bound.map(|import| {
                format!(
                    "crates/{path}:{}: {} is brought in and bound",
                    definition.line, import.name
                )
            }));
        }
    }
    found
}

#[test]
fn no_name_brought_in_is_bound() {
    let found = rebound(&Repository::here());
    assert!(
        found.is_empty(),
        "{} names:\n{}",
        found.len(),
        found.join("\n")
    );
}

#[test]
fn a_library_name_bound_in_a_pattern_is_found() {
    let text = "use Rattle.std.specs.Prelude.{length}
use made.Answers.{Answer, Rule, none}

told : Answer → ℕ
told (Rule length) = length
told Answer.none = 0
told none = 0
";
    let answers = "data Answer : Type 0 where
  Rule : ℕ → Answer
  none : Answer
";
    let files = [
        ("made/specs/Up.antt", text),
        ("made/specs/Answers.antt", answers),
    ];
    assert_eq!(
        rebound(&Repository::made_up(&files)),
        ["crates/made/specs/Up.antt:4: length is brought in and bound"]
    );
}

/// The names that are idle in one made-up file.
fn idle(path: &str, text: &str) -> Vec<String> {
    let faults = faults(&Repository::made_up(&[(path, text)]));
    let names = faults.iter().filter_map(|fault| fault.split(' ').nth(1));
    names.map(str::to_string).collect()
}

fn idle_in_module(text: &str) -> Vec<String> {
    idle("made/proofs/Up.antt", text)
}

#[test]
fn an_idle_name_is_found() {
    let text = "-- With sym in a comment.
use mathlib.Core.Path.{◌≡◌, refl, sym}
use Rattle.sym.specs.Other.{first as second, third as fourth}

same : (n : ℕ) → n ≡ first n -- refl, {- sym -}
same n = fourth {- sym -} n
";
    assert_eq!(idle_in_module(text), ["refl", "sym", "second"]);
    let faults = faults(&Repository::made_up(&[("made/proofs/Up.antt", text)]));
    assert_eq!(
        faults[0],
        "crates/made/proofs/Up.antt:2: refl is brought in and not written"
    );
}

#[test]
fn an_idle_operator_is_found() {
    let text = "use Rattle.std.specs.Prelude.{ℕ, ◌+◌, ◌*◌, ◌-◌, ◌<◌, ◌≤◌}
use made.Logic.{if◌then◌else◌, when◌do◌}

small : (n : ℕ) → n < ap (◌+ 1) (if n then n-1 else n)
small n = when ◌≤◌ n n
";
    assert_eq!(idle_in_module(text), ["◌*◌", "◌-◌", "when◌do◌"]);
}

#[test]
fn a_field_and_a_label_write_no_name() {
    let text = "use made.Fields.{place, size, body}

at : (m : Morphism) → Place
at m = record { place = m .size; rest = λ x.body }
";
    assert_eq!(idle_in_module(text), ["place", "size"]);
}

#[test]
fn an_idle_module_is_found() {
    let text = "use made.First as first
use made.Second as second
use made.Third as third
use third.{one}

both : first.Both
both second = one
";
    assert_eq!(idle_in_module(text), ["second"]);
}

#[test]
fn what_is_passed_on_or_meant_is_not_idle() {
    let text = "pub use made.First.{one}
use made.Second.{◌>>=◌, ◌>>◌}

two : State
two = do one
";
    assert_eq!(idle_in_module(text), [] as [&str; 0]);
    let without = text.replace("do one", "one");
    assert_eq!(idle_in_module(&without), ["◌>>=◌", "◌>>◌"]);
}

#[test]
fn idle_imports_of_code_are_found() {
    let text = "// Refusal
use answer::Refusal;
use answer::{number, none};
use std::fs::{self, File};
use std::io::{BufRead, Read, Write};
use answer::Read;
pub use answer::Passed;
ghost use Rattle.std.specs.Prelude.{◌<◌, ◌≤◌};
ghost use Rattle.std.specs.Prelude.{length};

pub fn short(bytes: &[u8]) -> [u8; 2]
    requires { 1 ≤ 2 } // length
{
    let length = \"number\";
    none(fs::open(file.read_to_end()));
    out.write_all(bytes);
    if 1 < 2 {
        return 3;
    }
}
";
    assert_eq!(
        idle("made/src/lib.rt", text),
        ["◌<◌", "length", "Refusal", "number", "File", "BufRead", "Read"]
    );
}

#[test]
fn a_use_that_cannot_be_read_is_found() {
    assert_eq!(
        idle("made/src/lib.rt", "use answer::{Refusal, *};\n"),
        ["use"]
    );
    assert_eq!(idle_in_module("use made.First.{one\n"), ["use"]);
}
