//! The documents' examples: the transcripts of docs/TOOL.md, docs/FORMULAS.md and the README are replayed, and the worked examples of docs/RULES.md and docs/FORMATS.md run.

use crate::program::{run, run_with, Scrap};
use duknavet::files::Rule;
use duknavet::owned;
use std::collections::{BTreeMap, BTreeSet};
use std::path::{Path, PathBuf};
use std::process::Command;

const TOOL: &str = include_str!("../../../../docs/TOOL.md");
const FORMATS: &str = include_str!("../../../../docs/FORMATS.md");
const FORMULAS: &str = include_str!("../../../../docs/FORMULAS.md");
const README: &str = include_str!("../../../../README.md");
const RULES: &str = include_str!("../../../../docs/RULES.md");
const INSTALL: &str = include_str!("../../../../docs/INSTALL.md");

/// A directory with the samples in it, which is gone when the test ends.
struct Place(PathBuf);

impl Place {
    fn new() -> Place {
        let place = Scrap::free();
        let place = PathBuf::from(place.name());
        let samples = Path::new(env!("CARGO_MANIFEST_DIR")).join("../../samples");
        std::fs::create_dir_all(place.join("samples")).expect("a directory of the test");
        for entry in std::fs::read_dir(samples).expect("the samples") {
            let entry = entry.expect("a sample");
            let to = place.join("samples").join(entry.file_name());
            std::fs::copy(entry.path(), to).expect("a sample is copied");
        }
        Place(place)
    }
}

impl Drop for Place {
    fn drop(&mut self) {
        let _ = std::fs::remove_dir_all(&self.0);
    }
}

/// A command of a transcript with what it printed.
struct Step {
    line: usize,
    command: String,
    printed: String,
}

/// The steps of a document: indented lines that begin with `$`, with what follows them up to the next step or the end of the block.
fn steps(document: &str) -> Vec<Step> {
    let mut steps: Vec<Step> = Vec::new();
    let mut inside = false;
    let mut here = false;
    let mut blank = 0;
    for (number, line) in (1..).zip(document.lines()) {
        let Some(content) = line.strip_prefix("    ") else {
            inside = inside && line.is_empty();
            blank += usize::from(inside);
            continue;
        };
        let before = "\n".repeat(std::mem::take(&mut blank));
        match (content.strip_prefix("$ "), steps.last_mut()) {
            (Some(command), _) => {
                inside = true;
                here = command.contains("<<'END'");
                steps.push(Step {
                    line: number,
                    command: command.to_string(),
                    printed: String::new(),
                });
            }
            (None, Some(step)) if here => {
                step.command.push('\n');
                step.command.push_str(content);
                here = content != "END";
            }
            (None, Some(step)) if inside => {
                step.printed.push_str(&before);
                step.printed.push_str(content);
                step.printed.push('\n');
            }
            _ => {}
        }
    }
    steps
}

/// Runs a step in a place, and holds what it printed.
fn replay(place: &Place, step: &Step) {
    let tool = Path::new(env!("CARGO_BIN_EXE_duknavet-tool"));
    let directory = tool.parent().expect("a directory").to_string_lossy();
    let path = format!("{directory}:{}", std::env::var("PATH").unwrap_or_default());
    let ran = Command::new("sh")
        .arg("-c")
        .arg(format!("exec 2>&1\n{}", step.command))
        .current_dir(&place.0)
        .env("PATH", &path)
        .output()
        .expect("a shell");
    let printed = String::from_utf8_lossy(&ran.stdout);
    let Step { line, command, .. } = step;
    assert_eq!(printed, step.printed, "line {line}: {command}");
}

#[test]
fn transcripts_are_what_the_tool_does() {
    let place = Place::new();
    let (of_tool, of_readme, of_formulas) = (steps(TOOL), steps(README), steps(FORMULAS));
    assert!(
        of_tool.len() > 20 && of_readme.len() > 2 && of_formulas.len() > 30,
        "there are too few steps"
    );
    for step in of_tool.iter().chain(&of_readme).chain(&of_formulas) {
        replay(&place, step);
    }
}

/// The grades that some lasso has by a strong rule: those of the first words of its linked pairs.
fn grades_that_occur(rule: &[u8]) -> BTreeSet<u8> {
    let words = Rule::take_apart(rule).expect("a rule").first_words();
    let word = |element: usize| words[element].clone().expect("the value of a word");
    let classes = owned::classes(rule).expect("a rule").by_least();
    let pairs = classes.into_iter().flatten();
    let grade = |(s, e)| {
        let member = owned::member(rule, &word(s), &word(e));
        member.expect("a lasso").grade
    };
    pairs.map(grade).collect()
}

/// Each of the ten rules has a lasso of every grade that it gives.
#[test]
fn the_harbours_rules_show_every_grade() {
    let place = Place::new();
    let section = FORMULAS
        .split("\n## ")
        .find(|own| own.starts_with("Ten rules"));
    let steps = steps(section.expect("the section"));
    let mut shown: BTreeMap<&str, BTreeSet<u8>> = BTreeMap::new();
    for step in &steps {
        replay(&place, step);
        let words: Vec<&str> = step.command.split_whitespace().collect();
        if let ["duknavet-tool", "member", rule, ..] = words[..] {
            let grades = step.printed.lines().map(|line| {
                let grade = line.strip_prefix("grade ").and_then(|rest| rest.get(..1));
                grade
                    .and_then(|grade| grade.parse::<u8>().ok())
                    .expect("a grade")
            });
            shown.entry(rule).or_default().extend(grades);
        }
    }
    assert_eq!(shown.len(), 10);
    for (rule, grades) in shown {
        let file = place.0.join(rule);
        let text = std::fs::read(&file).expect("the rule was written");
        let (_, parsed) = duknavet::text::read(&text).expect("a text");
        assert_eq!(grades, grades_that_occur(&parsed.bytes), "{rule}");
    }
}

/// The bytes that numbers with spaces between them write.
fn bytes(numbers: &str) -> Vec<u8> {
    let numbers = numbers.split_whitespace();
    numbers.map(|own| own.parse().expect("a byte")).collect()
}

/// Bytes that a document writes, a call on them, and what the document says of it.
fn example(document: &str, numbers: &str, call: &[&str], status: i32, said: &str) {
    let joined = document.split_whitespace().collect::<Vec<_>>().join(" ");
    let written = numbers.split_whitespace().collect::<Vec<_>>().join(" ");
    assert!(
        joined.contains(&written),
        "{numbers} is not in the document"
    );
    let ran = run_with(call, &bytes(numbers));
    assert_eq!(ran.status, status, "{ran:?}");
    let found = format!("{}{}", String::from_utf8_lossy(&ran.out), ran.err);
    assert!(found.contains(said), "{found} lacks {said}");
}

/// Bytes that a document writes, and the bytes that it says a call makes of them.
fn written(document: &str, numbers: &str, call: &str, result: &str) {
    example(document, numbers, &[call, "-"], 0, "");
    example(document, result, &["check", "-"], 0, "rule ");
    assert_eq!(run_with(&[call, "-"], &bytes(numbers)).out, bytes(result));
}

const W: &str = "2  0 0 0 1  2  0 1  1 0  0 0 3";
const THREE_GRADES: &str = "2  0 0 0 1  2  0 1  3 0  0 0 3  0 1 2  1 1 1";

#[test]
fn examples_of_the_rules() {
    let line = "elements 2 letters 2 marks 1 linked 3 classes 3 strong 1 reduced 2";
    assert!(RULES.contains(line));
    example(RULES, W, &["summary", "-"], 0, line);
    example(
        RULES,
        W,
        &["member", "-", "u: 1  v: 0"],
        0,
        "grade 3 turns 1",
    );
    example(
        RULES,
        W,
        &["member", "-", "u: 0  v: 1"],
        1,
        "grade 0 turns 1",
    );
    let weak = "2  0 1 1 0  2  1 0  1 0  0 0 3";
    example(
        RULES,
        weak,
        &["strong", "-"],
        1,
        "weak\ngrade 3 values 1 0  u: 0  v: 0 0\ngrade 0 values 1 0  u: 0  v: 1\n",
    );
    example(RULES, weak, &["member", "-", "v: 0"], 0, "turns 2");
    assert!(INSTALL.contains("refused 5 at 1"));
}

#[test]
fn the_readme_fits_a_few_screens() {
    let lines: Vec<&str> = README.lines().collect();
    assert!(lines.len() <= 120, "{} lines", lines.len());
    for (number, line) in lines.iter().enumerate() {
        let length = line.chars().count();
        assert!(length <= 110, "line {}: {length} characters", number + 1);
    }
}

#[test]
fn the_picture_of_the_readme_is_the_tools() {
    let picture = include_str!("../../../../docs/three-grades.svg");
    let sample = concat!(
        env!("CARGO_MANIFEST_DIR"),
        "/../../samples/three-grades.rule"
    );
    assert!(README.contains("docs/three-grades.svg"));
    let drawn = run(&["picture", sample]);
    assert!(
        drawn.printed(0) == picture,
        "docs/three-grades.svg is what `duknavet-tool picture` draws"
    );
}

#[test]
fn examples_of_the_formats() {
    example(
        FORMATS,
        W,
        &["check", "-"],
        0,
        "rule elements 2 letters 2 marks 1",
    );
    let refused = "(0·0)·1 = 0 but 0·(0·1) = 1 (refusal 5, input 1, place 1)";
    example(
        FORMATS,
        "2  1 0 0 0  2  0 1  0 0",
        &["check", "-"],
        2,
        refused,
    );
    for (lasso, grade) in [("u: 1  v: 0", 3), ("u: 0  v: 1", 2), ("u: 1  v: 1", 1)] {
        let said = format!("grade {grade} ");
        example(FORMATS, THREE_GRADES, &["member", "-", lasso], 0, &said);
    }
    let sums = "2  0 1 1 0  2  1 0  2 0  0 0 2  1 0 1";
    example(FORMATS, sums, &["strong", "-"], 1, "weak\ngrade 2 ");
    example(
        FORMATS,
        sums,
        &["member", "-", "u: 0  v: 1"],
        0,
        "grade 1 turns 1",
    );
    let all = "2 0 0 0 1  2 0 1  3 0  0 0 3  0 1 3  1 1 3";
    let rule = Scrap::holding(&bytes(all));
    let first = Scrap::holding(&bytes(W));
    example(
        FORMATS,
        "3 0  0 0 3  0 1 3  1 1 3",
        &["included", first.name(), "-"],
        0,
        "included",
    );
    example(
        FORMATS,
        "1 0  0 0 3",
        &["included", rule.name(), "-"],
        1,
        "u: 0  v: 1\ngrades 3 0",
    );
    example(
        FORMATS,
        "3 0  0 0 3  0 1 2  1 1 1",
        &["included", rule.name(), "-"],
        1,
        "u: 0  v: 1\ngrades 3 2",
    );
    let others = Scrap::holding(&bytes("2  0 0 0 1  2  0 1  2 0  0 1 3  1 1 3"));
    let none = "2  0 0 0 1  2  0 1  0 0";
    example(FORMATS, none, &["check", "-"], 0, "marks 0");
    for (operation, expected) in [("both", none), ("either", all), ("without", W)] {
        let call = ["combine", operation, first.name(), others.name()];
        assert_eq!(run_with(&call, b"").out, bytes(expected), "{operation}");
    }
    let automaton = "2  1 2  2  4 0  0 0 1  0 1 0  1 0 1  1 1 0";
    let translated = "3  0 2 2  0 1 2  0 2 2  2  0 1  2 0  0 0 3  2 2 3";
    written(FORMATS, automaton, "automaton", translated);
    written(FORMATS, translated, "reduce", W);
    let (larger, exchanged) = (
        Scrap::holding(&bytes(translated)),
        "2  0 1 1 1  2  1 0  1 0  1 1 3",
    );
    let other = Scrap::holding(&bytes(exchanged));
    example(
        FORMATS,
        exchanged,
        &["summary", "-"],
        0,
        "strong 1 reduced 2",
    );
    for (map, reduced, status, said) in [
        ("0 1 0", &first, 0, "yes\n"),
        ("1 0 1", &other, 0, "yes\n"),
        ("0 1 0", &other, 1, "no: "),
        ("1 0 1", &first, 1, "no: "),
    ] {
        let call = ["confirm", larger.name(), reduced.name(), "-"];
        example(FORMATS, map, &call, status, said);
    }
    written(
        FORMATS,
        W,
        "complement",
        "2  0 0 0 1  2  0 1  2 0  0 1 3  1 1 3",
    );
    written(
        FORMATS,
        THREE_GRADES,
        "complement",
        "2  0 0 0 1  2  0 1  2 0  0 1 1  1 1 2",
    );
    let in_any_order = "3  0 0 0  0 1 0  0 0 2  2  2 1  4 0  0 1 3  2 2 3  0 2 3  1 1 3";
    let in_order = "3  0 2 2  2 1 2  2 2 2  2  0 1  4 0  0 0 3  1 1 3  2 0 3  2 1 3";
    written(FORMATS, in_any_order, "reduce", in_order);
    let classes = "linked 3 classes 3 joins 0\n(0, 0)\n(0, 1)\n(1, 1)\n";
    example(FORMATS, W, &["classes", "-"], 0, classes);
    let twice = "4  0 1 2 3  1 2 3 3  2 3 3 3  3 3 3 3  2  0 1  1 0  2 0 3";
    let blocks = "{0}\n{1, 3}\n{2}\nbytes 0 1 2 1\n";
    example(FORMATS, twice, &["rounds", "-", "--limit", "0"], 1, blocks);
    example(FORMATS, twice, &["rounds", "-"], 0, "bytes 0 1 2 3\n");
    for (state, leads) in [
        ("none,0", "  0 to (0, 0) (1, 0) (none, 0)\n  1 to (0, 0)\n"),
        (
            "0,0",
            "State (0, 0), initial\n  0 to (0, 0) (1, 0) (none, 0)\n  1 to (0, 0)\n",
        ),
    ] {
        example(FORMATS, W, &["states", "-", "--state", state], 0, leads);
    }
}
