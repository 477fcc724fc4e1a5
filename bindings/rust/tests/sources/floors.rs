//! What a public promise rests on stands on the floors of mathematics and promises, in `specs/`: to know what is promised, a reader
//! reads those files and no others.

use super::reading::repository::Repository;
use super::walk::{Sources, Walk};

/// The crates in whose `specs/` a definition may stand that a public promise rests on.
const FLOORS: [&str; 8] = [
    "theory",
    "temporal",
    "buchi",
    "formats",
    "promises",
    "temporal_promises",
    "finite",
    "answer",
];

/// The one more for the board, which stands above the library with promises of its own.
const FLOORS_OF_BOARD: [&str; 7] = [
    "theory",
    "buchi",
    "formats",
    "promises",
    "finite",
    "answer",
    "board_promises",
];

/// The eight more for the calls for C and Rust, whose promises say how an answer is packed, and how a board stands in bytes.
const FLOORS_OF_EXPORTS: [&str; 16] = [
    "theory",
    "temporal",
    "buchi",
    "formats",
    "promises",
    "temporal_promises",
    "formula_promises",
    "finite",
    "answer",
    "board_promises",
    "board_state",
    "packing",
    "packing_counts",
    "packing_decisions",
    "packing_monitors",
    "exports",
];

/// Those for the theorems, with what holds after many calls of the board, by value and in bytes.
const FLOORS_OF_THEOREMS: [&str; 19] = [
    "theory",
    "temporal",
    "temporal_laws",
    "buchi",
    "formats",
    "promises",
    "temporal_promises",
    "formula_promises",
    "finite",
    "answer",
    "board_promises",
    "board_histories",
    "board_state",
    "packing",
    "packing_counts",
    "packing_decisions",
    "packing_monitors",
    "exports",
    "unpacking",
];

/// The theorem that is said of the engine: two ways to the rule of an automaton are no promise of a call, and leave the same.
const OF_THE_ENGINE: [&str; 1] = ["ready_theorem"];

/// As many definitions and types were followed when this was written. Raise it as promises grow: fewer would mean that the walk has a gap.
const FOLLOWED: usize = 475;

#[test]
fn promises_rest_on_their_floors() {
    let sources = Sources::of(&Repository::here());
    let calls = Walk::over(&sources, &FLOORS).follow_face("rules");
    let board = Walk::over(&sources, &FLOORS_OF_BOARD)
        .follow_face("board")
        .follow_crate("board");
    let exports = Walk::over(&sources, &FLOORS_OF_EXPORTS)
        .follow_crate("exports")
        .follow_crate("exports_c");
    let theorems =
        Walk::over(&sources, &FLOORS_OF_THEOREMS).follow_all_but("theorems", &OF_THE_ENGINE);
    let faults: std::collections::BTreeSet<&String> = [&calls, &board, &exports, &theorems]
        .into_iter()
        .flat_map(|walk| &walk.faults)
        .collect();
    let faults: Vec<&str> = faults.into_iter().map(String::as_str).collect();
    assert!(
        faults.is_empty(),
        "{} faults:\n{}",
        faults.len(),
        faults.join("\n")
    );
    let followed = calls.followed.union(&exports.followed).count();
    println!("{followed} definitions and types were followed");
    assert!(
        followed >= FOLLOWED,
        "only {followed} definitions and types were followed"
    );
}

/// A repository with one call, whose promise rests on what it may; a test puts other files in place of these or beside them.
const SOUND: [(&str, &str); 6] = [
    (
        "rules/src/lib.rt",
        "pub use engine::call;\npub use promises::Answer;\n",
    ),
    (
        "engine/src/lib.rt",
        "use promises::Answer;
ghost use Rattle.promises.specs.Call.{Promise};

// Says yes.
pub fn call(rule: &[u8], room: [u8; 2]) -> Answer
    ensures { Promise rule.now result }
{
    Answer::Yes
}
",
    ),
    (
        "promises/src/lib.rt",
        "use answer::Refusal;\n\npub enum Answer {\n    Yes,\n    Refused(Refusal),\n}\n",
    ),
    ("answer/src/lib.rt", "pub enum Refusal {\n    Short,\n}\n"),
    (
        "promises/specs/Call.antt",
        "-- What `call` promises, not Stray.
use Rattle.std.specs.Prelude.{ℕ, ◌+◌, List, [], ◌∷◌}
use Rattle.theory.specs.Words.{Word as Text, ◌before◌}
use Rattle.promises.specs.declared.Answer.{Answer}
use Rattle.promises.specs.declared.Answer.TheVariants.{Yes, Refused}

pub record Promise (bytes : List ℕ) (answer : Answer) : Type 0 where
  pub said : Said bytes answer

abbrev pub Said : List ℕ → Answer → Type 0
Said bytes Yes = Text (1 + 1)
Said [] (Refused refusal) = ⊥
Said (x ∷ rest) (Refused refusal) = (λ y. y before x) x
",
    ),
    (
        "theory/specs/Words.antt",
        "use Rattle.std.specs.Prelude.{ℕ}

pub data Word : ℕ → Type 0 where
  one two : {n : ℕ} → Word n
  deriving Discrete as Word_discrete

pub ◌before◌ : ℕ → ℕ → Type 0
a before b = Word a
",
    ),
];

/// The faults of the made-up repository with some files changed, and how much was followed.
fn walked(changes: &[(&str, &str)]) -> (Vec<String>, usize) {
    let repository = Repository::made_up(&[&SOUND[..], changes].concat());
    let sources = Sources::of(&repository);
    let walk = Walk::over(&sources, &FLOORS).follow_face("rules");
    (walk.faults.into_iter().collect(), walk.followed.len())
}

/// Whether one fault is reported, and it begins and ends so.
fn one_fault(changes: &[(&str, &str)], begins: &str, ends: &str) {
    let (faults, _) = walked(changes);
    assert_eq!(faults.len(), 1, "{faults:?}");
    assert!(
        faults[0].starts_with(begins) && faults[0].ends_with(ends),
        "{faults:?}"
    );
}

/// A file of the sound repository with one text in place of another.
fn turned(path: &str, old: &str, new: &str) -> String {
    let (_, text) = SOUND.iter().find(|(own, _)| *own == path).expect("a file");
    assert!(text.contains(old), "{old} does not stand in {path}");
    text.replacen(old, new, 1)
}

const STRAY: &str = "use Rattle.std.specs.Prelude.{ℕ}\n\npub Stray : ℕ → Type 0\nStray n = ⊥\n";

#[test]
fn a_sound_promise_has_no_fault() {
    // Promise, Said, Word, ◌before◌; Answer and Refusal
    assert_eq!(walked(&[]), (Vec::new(), 6));
}

#[test]
fn a_definition_of_another_crate_is_found() {
    let call = turned(
        "promises/specs/Call.antt",
        "theory.specs.Words.{Word as Text",
        "engine.specs.Words.{Stray as Text",
    );
    let call = call.replace(", ◌before◌}", "}\nuse Rattle.theory.specs.Words.{◌before◌}");
    one_fault(
        &[
            ("promises/specs/Call.antt", &call),
            ("engine/specs/Words.antt", STRAY),
        ],
        "Stray (crates/engine/specs/Words.antt:3): stands on no floor",
        "Said (crates/promises/specs/Call.antt:11) names it",
    );
}

#[test]
fn a_definition_of_proofs_is_found() {
    let words = turned("theory/specs/Words.antt", "= Word a", "= Stray a");
    let words = format!("use Rattle.theory.proofs.Words.{{Stray}}\n{words}");
    one_fault(
        &[
            ("theory/specs/Words.antt", &words),
            ("theory/proofs/Words.antt", STRAY),
        ],
        "Stray (crates/theory/proofs/Words.antt:3): stands on no floor",
        "◌before◌ (crates/theory/specs/Words.antt:8) names it",
    );
}

#[test]
fn a_definition_of_a_promise_itself_is_found() {
    let engine = turned(
        "engine/src/lib.rt",
        "promises.specs.Call",
        "engine.specs.Call",
    );
    let call = "use Rattle.std.specs.Prelude.{ℕ, List}\nuse Rattle.promises.specs.declared.Answer.{Answer}\n
pub record Promise (bytes : List ℕ) (answer : Answer) : Type 0 where\n  pub said : ⊥\n";
    one_fault(
        &[
            ("engine/src/lib.rt", &engine),
            ("engine/specs/Call.antt", call),
        ],
        "Promise (crates/engine/specs/Call.antt:4): stands on no floor",
        "call (crates/engine/src/lib.rt:5) names it",
    );
}

#[test]
fn an_operator_of_another_crate_is_found() {
    let call = turned(
        "promises/specs/Call.antt",
        ", ◌before◌}",
        "}\nuse Rattle.engine.specs.Order.{◌before◌}",
    );
    let order =
        "use Rattle.std.specs.Prelude.{ℕ}\n\npub ◌before◌ : ℕ → ℕ → Type 0\n◌before◌ a b = ⊥\n";
    one_fault(
        &[
            ("promises/specs/Call.antt", &call),
            ("engine/specs/Order.antt", order),
        ],
        "◌before◌ (crates/engine/specs/Order.antt:3): stands on no floor",
        "names it",
    );
}

#[test]
fn a_name_passed_on_is_found_where_it_stands() {
    let words = turned("theory/specs/Words.antt", "pub data Word", "pub data Term");
    let words = words
        .replace("Word n", "Term n")
        .replace("= Word a", "= Term a");
    let words = format!("pub use Rattle.engine.specs.Words.{{Stray as Word}}\n{words}");
    one_fault(
        &[
            ("theory/specs/Words.antt", &words),
            ("engine/specs/Words.antt", STRAY),
        ],
        "Stray (crates/engine/specs/Words.antt:3): stands on no floor",
        "Said (crates/promises/specs/Call.antt:10) names it",
    );
}

#[test]
fn a_definition_by_its_whole_way_is_found() {
    let words = turned(
        "theory/specs/Words.antt",
        "= Word a",
        "= Rattle.engine.specs.Words.Stray a",
    );
    one_fault(
        &[
            ("theory/specs/Words.antt", &words),
            ("engine/specs/Words.antt", STRAY),
        ],
        "Stray (crates/engine/specs/Words.antt:3): stands on no floor",
        "names it",
    );
}

#[test]
fn a_type_declared_elsewhere_is_found() {
    let promises = turned(
        "promises/src/lib.rt",
        "use answer::Refusal;",
        "use engine::Refusal;",
    );
    let engine = turned(
        "engine/src/lib.rt",
        "// Says yes.",
        "pub struct Refusal {\n    pub place: usize,\n}\n",
    );
    one_fault(
        &[
            ("promises/src/lib.rt", &promises),
            ("engine/src/lib.rt", &engine),
        ],
        "Refusal (crates/engine/src/lib.rt:4): declared on no floor",
        "Answer (crates/promises/src/lib.rt:3) names it",
    );
}

#[test]
fn a_name_that_nothing_has_is_found() {
    let words = turned("theory/specs/Words.antt", "= Word a", "= Wort a");
    one_fault(
        &[("theory/specs/Words.antt", &words)],
        "◌before◌ (crates/theory/specs/Words.antt:7): nothing has the name Wort",
        "",
    );
    let call = turned("promises/specs/Call.antt", "{Word as Text", "{Wort as Text");
    one_fault(
        &[("promises/specs/Call.antt", &call)],
        "Said (crates/promises/specs/Call.antt:10): Rattle.theory.specs.Words.Wort is not there",
        "",
    );
    let call = turned(
        "promises/specs/Call.antt",
        "{Yes, Refused}",
        "{Yes, No, Refused}",
    );
    let call = call.replace("Said bytes Yes", "Said bytes No");
    one_fault(
        &[("promises/specs/Call.antt", &call)],
        "Said (crates/promises/specs/Call.antt:10): Rattle.promises.specs.declared.Answer.TheVariants.No is not there",
        "",
    );
    let face = "pub use engine::call;\npub use engine::other;\n";
    one_fault(
        &[("rules/src/lib.rt", face)],
        "rules::other: nothing declares other",
        "",
    );
}

#[test]
fn a_form_that_is_not_read_is_found() {
    let words = turned(
        "theory/specs/Words.antt",
        "pub data",
        "ruleset Words_simp = (one)\n\npub data",
    );
    one_fault(
        &[("theory/specs/Words.antt", &words)],
        "crates/theory/specs/Words.antt:3: ruleset is not read here",
        "",
    );
    let face = "pub use engine::call;\npub use promises::*;\n";
    one_fault(
        &[("rules/src/lib.rt", face)],
        "crates/rules/src/lib.rt:2: use is not read here",
        "",
    );
}

#[test]
fn a_call_without_a_promise_is_found() {
    let (_, engine) = SOUND[1];
    let lines = engine.lines().filter(|line| !line.contains("ensures"));
    let engine = lines.collect::<Vec<_>>().join("\n");
    let changes = [("engine/src/lib.rt", engine.as_str())];
    one_fault(
        &changes,
        "call (crates/engine/src/lib.rt:5): promises nothing",
        "",
    );
}

#[test]
fn a_constant_declared_elsewhere_is_found() {
    let face = |home: &str| {
        format!("pub use engine::call;\npub use promises::Answer;\npub use {home}::SIZE;\n")
    };
    let constant = "pub const SIZE: usize = 2;\n";
    let promises = turned(
        "promises/src/lib.rt",
        "pub enum",
        &format!("{constant}\npub enum"),
    );
    let changes = [
        ("rules/src/lib.rt", face("promises")),
        ("promises/src/lib.rt", promises),
    ];
    let changes = changes
        .each_ref()
        .map(|(path, text)| (*path, text.as_str()));
    assert_eq!(walked(&changes), (Vec::new(), 6));
    let engine = turned("engine/src/lib.rt", "// Says yes.", constant);
    one_fault(
        &[
            ("rules/src/lib.rt", &face("engine")),
            ("engine/src/lib.rt", &engine),
        ],
        "rules::SIZE: declared on no floor of promises, in engine",
        "",
    );
}
