//! What is wrong with a formula is told with its place, and nothing that is written makes the reader fail.

use super::{letters, propositions, read};
use duknavet::formulas::{Alphabet, Document, Program};

fn fault(text: &str, alphabet: &Alphabet) -> String {
    match Document::read(text, alphabet) {
        Ok(_) => panic!("{text} was read"),
        Err(fault) => fault.to_string(),
    }
}

fn told(text: &str, expected: &str) {
    let alphabet = letters(&["alarm", "pump", "shut"]);
    assert_eq!(fault(text, &alphabet), expected);
}

#[test]
fn the_place_has_a_caret() {
    told(
        "G (alarm ->",
        "line 1, column 12: the formula ends where a part is wanted\n  G (alarm ->\n             ^",
    );
    told(
        "alarm &&\n  pmp",
        "line 2, column 3: `pmp` is no letter; there are alarm, pump, shut\n    pmp\n    ^",
    );
    told(
        "alarm)",
        "line 1, column 6: there is no `(` for this `)`\n  alarm)\n       ^",
    );
    told("", "line 1, column 1: there is no formula\n  \n  ^");
    told(
        "alarm @ pump",
        "line 1, column 7: `@` means nothing in a formula\n  alarm @ pump\n        ^",
    );
    told(
        "alarm pump",
        "line 1, column 7: expected an operator before this name\n  alarm pump\n        ^",
    );
    told(
        "\"alarm",
        "line 1, column 1: the name in quotes does not end\n  \"alarm\n  ^",
    );
}

#[test]
fn chains_are_told_with_both_readings() {
    told(
        "alarm U pump U shut",
        "line 1, column 7: this can be read as `(alarm U pump) U shut` or as `alarm U (pump U shut)`; brackets say which\n  alarm U pump U shut\n        ^",
    );
    told(
        "alarm -> pump <-> shut",
        "line 1, column 7: this can be read as `(alarm -> pump) <-> shut` or as `alarm -> (pump <-> shut)`; brackets say which\n  alarm -> pump <-> shut\n        ^",
    );
}

#[test]
fn operators_that_grew_into_a_name_are_taken_apart() {
    told(
        "GFpump",
        "line 1, column 1: `GFpump` is no letter; there are alarm, pump, shut; operators are words of their own: `G F pump`\n  GFpump\n  ^",
    );
}

#[test]
fn sets_and_universality_are_for_their_alphabets() {
    let alphabet = propositions(&["a", "b"]);
    assert!(fault("{a, b}", &alphabet).contains("a set is of letters"));
    told(
        "universality(alarm)",
        "line 1, column 1: universality is of propositions: of letters exactly one holds at a place\n  universality(alarm)\n  ^",
    );
    told(
        "{alarm pump}",
        "line 1, column 8: expected `,` or `}`\n  {alarm pump}\n         ^",
    );
}

/// Runs in a thread with a stack of 2 MB.
fn in_small_thread(run: impl FnOnce() + Send + 'static) {
    let thread = std::thread::Builder::new().stack_size(2 << 20).spawn(run);
    thread.expect("a thread").join().expect("no panic");
}

#[test]
fn long_and_deep_formulas_are_told() {
    for piece in [
        "(", "!", "X ", "a U ", "a && ", "a -> (", "(a && ", "{", "a,", "absence(",
    ] {
        in_small_thread(move || {
            let alphabet = letters(&["a", "b"]);
            let text = piece.repeat(100_000);
            assert!(read(&text, &alphabet).is_err(), "{piece}");
            let ended = format!("{text}a");
            assert!(read(&ended, &alphabet).is_err(), "{piece}");
        });
    }
    in_small_thread(|| {
        let alphabet = letters(&["a", "b"]);
        assert!(read(&"a".repeat(100_000), &alphabet).is_err());
        let within = format!("{}a", "X ".repeat(190));
        assert!(read(&within, &alphabet).is_ok());
        let beyond = format!("{}a", "X ".repeat(201));
        let fault = read(&beyond, &alphabet).expect_err("too deep");
        assert!(fault.message.contains("more than 200 deep"));
    });
}

/// The same in a document: as a part and with a grade, and so many lines.
#[test]
fn long_documents_are_told() {
    for piece in ["(", "!", "X ", "a U ", "# ", "a\n b "] {
        in_small_thread(move || {
            let alphabet = letters(&["a", "b"]);
            let long = piece.repeat(100_000);
            for text in [
                format!("duknavet formula 1\npart = {long}\nG a\n"),
                format!("duknavet formula 1\ntolerable: {long}\n"),
            ] {
                assert!(Document::read(&text, &alphabet).is_err(), "{piece}");
            }
        });
    }
    in_small_thread(|| {
        let alphabet = letters(&["a", "b"]);
        let parts: String = (0..10_000).map(|at| format!("part{at} = X a\n")).collect();
        let text = format!("duknavet formula 1\n{parts}G part9999\n");
        let document = Document::read(&text, &alphabet).expect("a document");
        assert_eq!(document.lines[0].tree.to_string(), "G X a");
        let lines = |count: usize| {
            let lines = "poor: F a\n".repeat(count);
            Document::read(&format!("duknavet formula 1\n{lines}"), &alphabet)
        };
        let document = lines(200).expect("a document");
        let formula = document.formula(&alphabet).expect("moderate length");
        assert!(Program::of(&formula).is_ok());
        let fault = lines(100_000).expect_err("too many formulas");
        assert_eq!(fault.message, "there are more than 200 formulas");
        assert_eq!(fault.place.line, 202);
    });
    // Each part has the one before it twice.
    in_small_thread(|| {
        let alphabet = letters(&["a", "b"]);
        let doubled = |count: usize| {
            let parts = (1..count).map(|at| format!("part{at} = X part{0} U part{0}\n", at - 1));
            let parts: String = parts.collect();
            let text = format!("duknavet formula 1\npart0 = X a\n{parts}F a\n");
            Document::read(&text, &alphabet)
        };
        assert!(doubled(10).is_ok());
        let fault = doubled(60).expect_err("too long");
        assert!(fault.message.contains("more than 65535 names"), "{fault}");
        // wide8 has some four thousand.
        let mut wide = "wide = X a U a\n".to_string();
        let names = [
            "wide", "wide0", "wide1", "wide2", "wide3", "wide4", "wide5", "wide6", "wide7",
        ];
        for (at, before) in names.into_iter().enumerate() {
            wide += &format!("wide{at} = X {before} U X {before}\n");
        }
        let many = |count: usize| -> String {
            let lines = (0..count).map(|at| format!("more{at} = X wide8\n"));
            format!(
                "duknavet formula 1\n{wide}{}F a\n",
                lines.collect::<String>()
            )
        };
        assert!(Document::read(&many(10), &alphabet).is_ok());
        let fault = Document::read(&many(100_000), &alphabet).expect_err("too long");
        assert!(
            fault.message.contains("names and operators together"),
            "{fault}"
        );
    });
}

#[test]
fn nothing_at_all_is_told() {
    let alphabet = letters(&["a", "b"]);
    for text in ["", " ", "\n", "# a comment", "()", "duknavet formula 1"] {
        assert!(Document::read(text, &alphabet).is_err(), "{text:?}");
    }
}

#[test]
fn repeated_parts_are_bounded() {
    in_small_thread(|| {
        let alphabet = propositions(&["a", "b"]);
        let mut text = "F a".to_string();
        for _ in 0..40 {
            text = format!("(X {text} <-> F b)");
        }
        let tree = read(&text, &alphabet).expect("a formula").tree;
        assert_eq!(duknavet::formulas::Formula::of(&tree, &alphabet), None);
    });
}
