//! Formulas from the command line: their own subcommand, and where a rule is wanted.

use crate::program::{run, run_with, Scrap};
use crate::samples::{AUTOMATON, NAMED, W};

const DOCUMENT: &[u8] =
    b"duknavet formula 1\n# the flap\nagain = G F open\nproper: again\npoor: F shut\n";

#[test]
fn where_a_rule_is_wanted() {
    let letters = ["--letters", "open,shut"];
    let asked = |words: &[&str]| run(&[words, &letters].concat());
    let formula = "f:G F open";
    assert_eq!(asked(&["strong", formula]).printed(0), "strong\n");
    let line = "elements 2 letters 2 marks 1 linked 3 classes 3 strong 1 reduced 2\n";
    assert_eq!(asked(&["summary", formula]).printed(0), line);
    let line = "rule elements 2 letters 2 marks 1\n";
    assert_eq!(asked(&["check", formula]).printed(0), line);
    let member = asked(&["member", formula, "u: open  v: shut"]);
    assert_eq!(member.printed(1), "grade 0 turns 1\n");
    let compared = asked(&["compare", formula, "f:F G open"]);
    assert_eq!(compared.printed(1), "u:  v: open shut\ngrades 3 0\n");
    let included = asked(&["included", "f:F G open", formula]);
    assert_eq!(included.printed(0), "included\n");
    let included = asked(&["included", formula, "f:F G open"]);
    assert_eq!(included.printed(1), "u:  v: open shut\ngrades 3 0\n");
    let page = asked(&["page", formula]);
    assert!(page.printed(0).contains("<h1>G F open</h1>"), "{page:?}");
    let input = b"shut\nopen\nverdict\n";
    let followed = run_with(&[&["follow", formula][..], &letters].concat(), input);
    let lines = "before none since 1\nbefore none since 0\ngrade 3 turns 1\n";
    assert_eq!(followed.printed(0), lines);
    let written = asked(&["convert", "--to", "bytes", formula]);
    assert_eq!((written.status, written.out.as_slice()), (0, W));
    let next = asked(&["next", "f:open"]);
    let lines = "duknavet rule 1\n# next of:\n#   open\nelements 6\n";
    assert!(next.printed(0).starts_with(lines), "{next:?}");
    for name in [
        "classes",
        "complement",
        "rounds",
        "states",
        "show",
        "picture",
    ] {
        assert!(!asked(&[name, formula]).printed(0).is_empty(), "{name}");
    }
    let renamed = asked(&["letters", formula, "--rename", "open=up"]);
    assert!(renamed.printed(0).contains("\n  up 0\n"), "{renamed:?}");
}

#[test]
fn documents_stand_for_their_rules() {
    let document = Scrap::holding(DOCUMENT);
    for (lasso, status, grade) in [("v: open", 0, 3), ("v: shut", 0, 1), ("v: 0", 0, 3)] {
        let ran = run(&["member", document.name(), lasso, "--letters", "open,shut"]);
        assert_eq!(ran.printed(status), format!("grade {grade} turns 1\n"));
    }
    let made = run(&["formula", document.name(), "--letters", "open,shut"]);
    let rule = Scrap::holding(made.printed(0).as_bytes());
    let compared = run_with(&["compare", rule.name(), "-"], DOCUMENT);
    let equal = "equal: both reduce to the same 2 elements\n";
    assert_eq!(compared.printed(0), equal);
    let page = run(&["page", document.name(), "--letters", "open,shut"]);
    assert!(page
        .text()
        .contains(&format!("<h1>{}</h1>", document.name())));
    let torn = [DOCUMENT, b"\xff"].concat();
    run_with(&["strong", "-", "--letters", "open,shut"], &torn)
        .said(2, "standard input: the text is not in UTF-8");
}

/// A formula beside a rule, or beside an automaton, has the letters of that one.
#[test]
fn letters_of_the_rule_beside_it() {
    let named = Scrap::holding(NAMED.as_bytes());
    let equal = "equal: both reduce to the same 2 elements\n";
    assert_eq!(
        run(&["compare", named.name(), "f:G F open"]).printed(0),
        equal
    );
    assert_eq!(
        run(&["compare", "f:G F open", named.name()]).printed(0),
        equal
    );
    assert_eq!(
        run(&["included", named.name(), "f:F open"]).printed(0),
        "included\n"
    );
    let bytes = Scrap::holding(W);
    assert_eq!(run(&["compare", bytes.name(), "f:G F 0"]).printed(0), equal);
    let automaton = Scrap::holding(AUTOMATON);
    assert_eq!(
        run(&["compare", "f:G F 0", automaton.name()]).printed(0),
        equal
    );
    let both = run(&["combine", "both", named.name(), "f:G F shut"]);
    assert!(
        both.printed(0).contains("#   G F shut\nelements 3\n"),
        "{both:?}"
    );
    let until = run(&["until", "f:G F shut", named.name()]);
    assert!(until.printed(0).contains("\n  open "), "{until:?}");
    // Names that an option gives meet those of the file.
    let words = [
        "compare",
        named.name(),
        "f:G F open",
        "--letters",
        "shut,open",
    ];
    assert_eq!(run(&words).printed(0), equal);
    let words = ["compare", named.name(), "f:G F up", "--letters", "up,shut"];
    run(&words).said(2, "the letters have different names");
}

#[test]
fn told() {
    let named = Scrap::holding(NAMED.as_bytes());
    run(&["strong", "f:G a"]).said(3, "a formula needs `--letters` or `--ap`");
    run(&["compare", "f:G a", "f:F a"]).said(3, "a formula needs `--letters` or `--ap`");
    let words = ["strong", "f:G a", "--letters", "a,b", "--ap", "a"];
    run(&words).said(3, "`--letters` and `--ap` do not go together");
    run(&["strong", named.name(), "--ap", "a"]).said(3, "are for a formula, and none is given");
    let words = ["strong", "f:G c", "--letters", "a,b"];
    run(&words).said(
        2,
        "the formula: line 1, column 3: `c` is no letter; there are a, b\n  G c\n    ^\n",
    );
    let words = ["compare", "f:G a", "f:G c", "--ap", "a"];
    run(&words).said(
        2,
        "the second formula: line 1, column 3: `c` is no proposition",
    );
    let words = ["strong", "f:G a", "--ap", "a,b,c,d,e"];
    run(&words).said(3, "strong: ");
    let refused = "a formula is not taken here; `duknavet-tool formula` writes its rule to a file";
    run(&["reduce", "f:G a"]).said(2, &format!("f:G a: {refused}"));
    run_with(&["reduce", "-"], DOCUMENT).said(2, &format!("standard input: {refused}"));
    run(&["stretch", "v: 0", "0", "--rule", "f:G a"]).said(2, refused);
    let board = run_with(&["board", "--letters", "a,b"], b"enter 0 \"f:G a\"\n");
    assert_eq!((board.status, board.text()), (1, "not understood\n"));
    assert!(
        board.err.contains(&format!("line 1: f:G a: {refused}")),
        "{board:?}"
    );
    // What is told of a formula is told wherever it stands.
    let words = ["strong", "f:a || b && c", "--ap", "a,b,c"];
    run(&words).noted(0, "read as (a || (b && c)); Spin reads && and || otherwise");
    let words = ["strong", "f:a U (b || !b)", "--ap", "a,b"];
    assert!(run(&words).err.contains("always holds"));
}

#[test]
fn the_subcommand_takes_them_so_too() {
    let words = |formula| ["formula", formula, "--letters", "open,shut"];
    let made = run(&words("G F open"));
    assert_eq!(run(&words("f:G F open")).out, made.out);
    let rule = Scrap::holding(W);
    let numbered = run(&["formula", "G F 0", "--rule", rule.name(), "--to", "bytes"]);
    assert_eq!((numbered.status, numbered.out.as_slice()), (0, W));
    run(&["formula", "G F 0"]).said(3, "one of --letters, --ap and --rule is given");
    let words = ["formula", "G F 0", "--rule", rule.name(), "--ap", "a"];
    run(&words).said(3, "one of --letters, --ap and --rule is given");
    let deep = (0..12).fold("F b".to_string(), |inner, _| format!("(F a U X {inner})"));
    run(&["formula", &deep, "--ap", "a,b"]).said(2, "the formula: it is too deeply nested at `");
    // A part that is too large is told with the sizes of what it would be made of.
    let large = run(&["formula", "G a || X X X X X b", "--letters", "a,b"]);
    large.said(2, "the formula: of `X X X X X b`, whose part has 62 elements, no rule is made: the rule of `next` would have more than 64 elements (refusal 23, input 1, place 0)");
}
