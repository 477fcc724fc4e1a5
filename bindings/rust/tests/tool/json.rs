//! Answers in JSON: each is read by Python, with its keys in their order.

use crate::program::{run, run_with, Ran, Scrap};
use crate::samples::{AUTOMATON, GRADED, NAMED, NOT_ASSOCIATIVE, W, Z};
use std::io::Write as _;
use std::process::{Command, Stdio};

/// Holds each line: an object whose first four keys are these, in this order, none of them twice; prints the keys and, behind a tab, the
/// object again as Python writes it.
const READER: &str = r#"
import json, sys
def pairs(own):
    keys = [key for key, _ in own]
    assert len(set(keys)) == len(keys), keys
    return dict(own)
for line in sys.stdin:
    own = json.loads(line, object_pairs_hook=pairs)
    keys = list(own)
    assert keys[:4] == ["command", "file", "line", "status"], keys
    if "message" in own:
        assert keys[4:6] == ["refusal", "message"], keys
        refusal = own["refusal"]
        assert refusal is None or list(refusal) == ["number", "input", "place"], refusal
        assert own["status"] in (2, 3), own
    print(" ".join(keys[4:]) + "\t" + json.dumps(own))
"#;

/// The keys behind the first four and the whole object, for each line.
fn read_by_python(text: &str) -> Vec<(String, String)> {
    let mut child = Command::new("python3")
        .args(["-c", READER])
        .stdin(Stdio::piped())
        .stdout(Stdio::piped())
        .spawn()
        .expect("python3 runs");
    let mut stdin = child.stdin.take().expect("a pipe");
    stdin.write_all(text.as_bytes()).expect("it is read");
    drop(stdin);
    let ended = child.wait_with_output().expect("python3 ends");
    assert!(ended.status.success(), "not read: {text}");
    let out = String::from_utf8(ended.stdout).expect("text");
    let pairs = out.lines().filter_map(|line| line.split_once('\t'));
    pairs
        .map(|(keys, own)| (keys.to_string(), own.to_string()))
        .collect()
}

/// The answer of a run with an empty standard error: its keys, and parts that it has.
#[track_caller]
fn told(ran: &Ran, status: i32, keys: &str, parts: &[&str]) {
    assert_eq!((ran.status, ran.err.as_str()), (status, ""), "{ran:?}");
    let objects = read_by_python(ran.text());
    let [(found, whole)] = &objects[..] else {
        panic!("{ran:?}")
    };
    assert_eq!(found, keys, "{ran:?}");
    assert!(whole.contains(&format!("\"status\": {status}")), "{whole}");
    for part in parts {
        assert!(whole.contains(part), "{whole} lacks {part}");
    }
}

fn asked(words: &[&str], input: &[u8]) -> Ran {
    run_with(&[words, &["--json"]].concat(), input)
}

#[test]
fn answers() {
    let parts = [
        "\"command\": \"check\", \"file\": \"-\", \"line\": null",
        "\"kind\": \"rule\", \"elements\": 2",
    ];
    told(
        &asked(&["check", "-"], W),
        0,
        "kind elements letters marks",
        &parts,
    );
    told(
        &asked(&["check", "-"], AUTOMATON),
        0,
        "kind states letters transitions",
        &["\"transitions\": 4"],
    );
    let keys = "elements letters marks linked classes strong reduced";
    told(
        &asked(&["summary", "-"], W),
        0,
        keys,
        &["\"linked\": 3", "\"strong\": 1"],
    );
    told(
        &asked(&["strong", "-"], W),
        0,
        "strong values lassos",
        &["\"strong\": true, \"values\": null, \"lassos\": null"],
    );
    let weak = "\"strong\": false, \"values\": [1, 0], \"lassos\": [{\"grade\": 3, \"lasso\": {\"u\": [0], \"v\": [0, 0]}}, {\"grade\": 0, \"lasso\": {\"u\": [0], \"v\": [1]}}]";
    told(
        &asked(&["strong", "-"], Z),
        1,
        "strong values lassos",
        &[weak],
    );
    told(
        &asked(&["member", "-", "u: 0 v: 1"], GRADED),
        0,
        "grade turns",
        &["\"grade\": 2, \"turns\": 1"],
    );
    told(
        &asked(&["member", "-", "u: 0 v: 1", "--least", "3"], GRADED),
        1,
        "grade turns",
        &[],
    );
    told(
        &asked(&["explain", "-", "v: 0"], Z),
        0,
        "grade turns values pair mark writing pairs higher",
        &["\"values\": [null, 1], \"pair\": [0, 0], \"mark\": {\"pair\": [0, 0], \"grade\": 3}, \"writing\": {\"p\": [0, 0], \"w\": [0, 0]}, \"pairs\": [[0, 0], [1, 0]], \"higher\": []"],
    );
    told(
        &asked(&["explain", "-", "u: 0 v: 1"], W),
        1,
        "grade turns values pair mark writing pairs higher",
        &["\"mark\": null, \"writing\": null, \"pairs\": [[0, 1]], \"higher\": [{\"grade\": 1, \"marks\": 0}, {\"grade\": 2, \"marks\": 0}, {\"grade\": 3, \"marks\": 1}]"],
    );
    told(
        &asked(&["explain", "-", "--state", "none"], W),
        1,
        "value settled grades",
        &["\"value\": null, \"settled\": false, \"grades\": [{\"grade\": 0, \"lasso\": {\"u\": [], \"v\": [1]}}, {\"grade\": 3, "],
    );
    told(
        &asked(&["classes", "-"], W),
        0,
        "linked classes joins pairs",
        &["[[[0, 0]], [[0, 1]], [[1, 1]]]"],
    );
    told(
        &asked(&["rounds", "-"], W),
        0,
        "rounds finished blocks bytes",
        &["\"finished\": true, \"blocks\": [[0], [1]], \"bytes\": [0, 1]"],
    );
    let one = "\"list\": [{\"state\": [null, 0], \"kind\": \"final\", \"leads\": {\"0\": [[0, 0], [1, 0], [null, 0]], \"1\": [[0, 0]]}}]";
    told(
        &asked(&["states", "-", "--state", "none,0"], W),
        0,
        "states initial final list",
        &[one],
    );
    told(
        &asked(&["states", "-"], W),
        0,
        "states initial final list",
        &[
            "\"states\": 3, \"initial\": 1, \"final\": 1",
            one.trim_start_matches("\"list\": [").trim_end_matches(']'),
        ],
    );
    let rule = Scrap::holding(W);
    told(
        &asked(&["feed", rule.name(), "-"], b"1\nmark\n0\n1\n"),
        0,
        "before since grade turns",
        &["\"before\": 1, \"since\": 0, \"grade\": 3, \"turns\": 1"],
    );
    told(
        &asked(&["stretch", "u: 1 v: 0", "0"], b""),
        0,
        "letters",
        &["\"letters\": [1]"],
    );
}

#[test]
fn answers_about_two() {
    let (named, graded, weak) = (
        Scrap::holding(NAMED.as_bytes()),
        Scrap::holding(GRADED),
        Scrap::holding(Z),
    );
    let keys = "equal elements lasso grades";
    let equal = asked(&["compare", named.name(), "-"], NAMED.as_bytes());
    told(
        &equal,
        0,
        keys,
        &["\"equal\": true, \"elements\": 2, \"lasso\": null, \"grades\": null"],
    );
    let shuts = NAMED
        .replace("open 0", "open 1")
        .replace("shut 1", "shut 0");
    let apart = asked(&["compare", named.name(), "-"], shuts.as_bytes());
    let lasso = "\"lasso\": {\"u\": [], \"v\": [\"open\"]}, \"grades\": [3, 0]";
    told(
        &apart,
        1,
        "equal elements lasso grades notes",
        &[lasso, "equal in another order of letters"],
    );
    let keys = "included lasso grades";
    told(
        &asked(&["included", named.name(), "-"], NAMED.as_bytes()),
        0,
        keys,
        &["\"included\": true"],
    );
    told(
        &asked(&["included", graded.name(), "-"], W),
        1,
        keys,
        &["\"included\": false, \"lasso\": {\"u\": [], \"v\": [1]}, \"grades\": [1, 0]"],
    );
    let map = Scrap::holding(&[0, 1]);
    told(
        &asked(&["confirm", graded.name(), "-", map.name()], GRADED),
        0,
        "yes no",
        &["\"yes\": true, \"no\": null"],
    );
    told(
        &asked(&["confirm", graded.name(), "-", map.name()], W),
        1,
        "yes no",
        &["\"yes\": false, \"no\": \""],
    );
    // What else is said stands with the answer.
    let noted = asked(&["compare", named.name(), graded.name()], b"");
    told(
        &noted,
        1,
        "equal elements lasso grades notes",
        &["names no letters, so they go by their numbers\"]"],
    );
    let refused = asked(
        &["until", named.name(), weak.name(), "-o", "/dev/null"],
        b"",
    );
    told(
        &refused,
        2,
        "refusal message notes",
        &["{\"number\": 12, \"input\": 2, \"place\": 0}"],
    );
}

#[test]
fn refusals() {
    let keys = "refusal message";
    for name in ["check", "summary", "strong", "classes", "rounds", "states"] {
        let refused = asked(&[name, "-"], NOT_ASSOCIATIVE);
        let numbers = "\"refusal\": {\"number\": 5, \"input\": 1, \"place\": 1}";
        told(
            &refused,
            2,
            keys,
            &[numbers, &format!("\"command\": \"{name}\"")],
        );
        let missing = asked(&[name, "/there/is/none"], b"");
        told(
            &missing,
            3,
            keys,
            &["\"refusal\": null", "\"file\": \"/there/is/none\""],
        );
    }
    told(
        &asked(&["strong", "-"], b"duknavet rule 1\nx"),
        2,
        keys,
        &["\"refusal\": null"],
    );
    told(&asked(&["strong"], b""), 3, keys, &["\"file\": null"]);
    told(
        &asked(&["frobnicate"], b""),
        3,
        keys,
        &["\"command\": \"frobnicate\""],
    );
    told(
        &asked(&["reduce", "-"], W),
        3,
        keys,
        &["`--json` needs `-o FILE`"],
    );
    // What JSON writes otherwise stands in names and in messages.
    let odd = "a\"b\\c\u{7}ö";
    told(
        &asked(&["strong", odd], b""),
        3,
        keys,
        &["a\\\"b\\\\c\\u0007\\u00f6"],
    );
    let formula = asked(&["strong", "f:G c", "--letters", "a,b"], b"");
    told(&formula, 2, keys, &["\"file\": \"f:G c\"", "\\n"]);
    let large = asked(
        &[
            "formula",
            "X X X X X X X a",
            "--letters",
            "a,b",
            "-o",
            "/dev/null",
        ],
        b"",
    );
    told(
        &large,
        2,
        keys,
        &["{\"number\": 23, \"input\": 1, \"place\": 0}"],
    );
}

#[test]
fn several_files_and_lines() {
    let (good, weak, bad) = (
        Scrap::holding(W),
        Scrap::holding(Z),
        Scrap::holding(NOT_ASSOCIATIVE),
    );
    let ran = run(&[
        "strong",
        "--json",
        good.name(),
        weak.name(),
        bad.name(),
        good.name(),
    ]);
    assert_eq!((ran.status, ran.err.as_str()), (2, ""));
    let objects = read_by_python(ran.text());
    let keys: Vec<&str> = objects.iter().map(|(keys, _)| keys.as_str()).collect();
    let answer = "strong values lassos";
    assert_eq!(keys, [answer, answer, "refusal message", answer]);
    assert!(objects[2].1.contains(bad.name()), "{objects:?}");
    let ran = run_with(
        &["member", good.name(), "--lassos", "-", "--json"],
        b"v: 0\n\n# no lasso\nv: 9\nw\nv: 1\n",
    );
    assert_eq!((ran.status, ran.err.as_str()), (2, ""));
    let objects = read_by_python(ran.text());
    let lines = [(1, 0), (4, 2), (5, 2), (6, 1)];
    assert_eq!(objects.len(), lines.len());
    for ((_, own), (line, status)) in objects.iter().zip(lines) {
        let part = format!("\"line\": {line}, \"status\": {status}");
        assert!(own.contains(&part), "{own}");
    }
}

#[test]
fn stations() {
    let rule = Scrap::holding(NAMED.as_bytes());
    let state = Scrap::free();
    let words = ["follow", "--json", "--state", state.name(), rule.name()];
    let input = b"shut\nverdict\nmark\nbell\nreturn 5\nkeep 1\nwho\nsave\n\nopen\n";
    let ran = run_with(&words, input);
    assert_eq!((ran.status, ran.err.as_str()), (1, ""), "{ran:?}");
    let objects = read_by_python(ran.text());
    let expected = [
        (
            "before since",
            "\"line\": 1, \"status\": 0, \"before\": null, \"since\": 1",
        ),
        ("grade turns", "\"grade\": 0, \"turns\": 1"),
        ("before since", "\"before\": 1, \"since\": null"),
        (
            "refusal message",
            "\"line\": 4, \"status\": 2, \"refusal\": null",
        ),
        (
            "refusal message",
            "{\"number\": 16, \"input\": 1, \"place\": 0}",
        ),
        ("before since", "\"before\": 1"),
        (
            "who grade",
            "\"who\": \"9b00692cc1d86283\", \"grade\": null",
        ),
        ("saved", "\"saved\": true"),
        ("before since", "\"line\": 10"),
    ];
    assert_eq!(objects.len(), expected.len(), "{objects:?}");
    for ((keys, whole), (wanted, part)) in objects.iter().zip(expected) {
        assert_eq!(keys, wanted);
        assert!(whole.contains(part), "{whole} lacks {part}");
    }
    let changes = run_with(
        &["follow", "--json", "--on-change", rule.name()],
        b"shut\nshut\nopen\n",
    );
    let objects = read_by_python(changes.text());
    assert_eq!(objects.len(), 2, "{objects:?}");
    let board = format!(
        "who\nenter 3 {0}\nevent open\nwho\nenter 3 {0}\nleave 3\n",
        rule.name()
    );
    let ran = run_with(&["board", "--json"], board.as_bytes());
    assert_eq!((ran.status, ran.err.as_str()), (1, ""), "{ran:?}");
    let objects = read_by_python(ran.text());
    let expected = [
        "\"file\": null, \"line\": 1, \"status\": 0, \"who\": []",
        "\"lowest\": null",
        "\"lowest\": 3",
        "\"who\": [{\"name\": 3, \"rule\": \"9b00692cc1d86283\", \"grade\": 3}]",
        "{\"number\": 21, \"input\": 1, \"place\": 0}",
        "\"lowest\": null",
    ];
    assert_eq!(objects.len(), expected.len(), "{objects:?}");
    for ((_, whole), part) in objects.iter().zip(expected) {
        assert!(whole.contains(part), "{whole} lacks {part}");
    }
}

/// Every subcommand that writes says where it wrote.
#[test]
fn written() {
    let (rule, out) = (Scrap::holding(NAMED.as_bytes()), Scrap::free());
    let automaton = Scrap::holding(AUTOMATON);
    for words in [
        vec!["complement", rule.name()],
        vec!["next", rule.name()],
        vec!["until", rule.name(), rule.name()],
        vec!["combine", "both", rule.name(), rule.name()],
        vec!["reduce", rule.name()],
        vec!["letters", rule.name(), "--rename", "open=up"],
        vec!["convert", rule.name()],
        vec!["picture", rule.name()],
        vec!["page", rule.name()],
        vec!["automaton", automaton.name()],
        vec!["formula", "G a", "--letters", "a,b"],
    ] {
        let ran = asked(&[&words[..], &["-o", out.name()]].concat(), b"");
        let written = format!("\"written\": \"{}\"", out.name());
        told(&ran, 0, "written", &[&written]);
        let file = match words[0] {
            "combine" => words[2],
            _ => words[1],
        };
        assert!(
            ran.text().contains(&format!("\"file\": \"{file}\"")),
            "{ran:?}"
        );
    }
}
