//! Strong rules as C tables: compiled, and run beside `follow`.

use crate::definitions::acceptance::Marking;
use crate::definitions::splits;
use crate::inputs::morphisms;
use crate::program::{run_with, Scrap};
use crate::random::Random;
use crate::samples::{rule, AUTOMATON, GRADED, NOT_ASSOCIATIVE, TWICE, W, Z};
use std::io::Write;
use std::process::{Command, Stdio};

/// A program that answers lines as `follow` does, but for the turns and the words of refusals.
const MAIN: &str = r#"
#include <stdio.h>
#include <stdlib.h>

static void value(const char *name, unsigned char value, char end)
{
    if (value == NONE) printf("%s none%c", name, end);
    else printf("%s %u%c", name, (unsigned)value, end);
}

int main(void)
{
    struct monitor monitor = fresh;
    char line[64];
    while (fgets(line, sizeof line, stdin)) {
        if (line[0] == 'v') {
            unsigned grade = verdict(monitor);
            if (grade == NO_GRADE) puts("refused");
            else printf("grade %u\n", grade);
            continue;
        }
        if (line[0] == 'm') mark(&monitor);
        else if (!event(&monitor, (unsigned)strtoul(line, NULL, 10))) {
            puts("refused");
            continue;
        }
        value("before", monitor.before, ' ');
        value("since", monitor.since, '\n');
    }
    return 0;
}
"#;

/// The program of a rule's tables.
fn compiled(tables: &str) -> Scrap {
    let program = Scrap::free();
    let mut compiler = Command::new("cc")
        .args(["-std=c99", "-pedantic", "-Wall", "-Wextra", "-Werror"])
        .args(["-x", "c", "-", "-o", program.name()])
        .stdin(Stdio::piped())
        .spawn()
        .expect("a C compiler");
    let mut source = compiler.stdin.take().expect("a pipe");
    let text = format!("{tables}{MAIN}");
    source.write_all(text.as_bytes()).expect("it reads");
    drop(source);
    assert!(compiler.wait().expect("it ends").success(), "{tables}");
    program
}

fn answers(program: &Scrap, lines: &str) -> String {
    let lines = Scrap::holding(lines.as_bytes());
    let lines = std::fs::File::open(lines.name()).expect("lines");
    let ran = Command::new(program.name()).stdin(lines).output();
    let ran = ran.expect("the program runs");
    assert!(ran.status.success());
    String::from_utf8(ran.stdout).expect("text")
}

/// What `follow` answers, without turns and the words of refusals.
fn followed(rule: &Scrap, lines: &str) -> String {
    let ran = run_with(&["follow", rule.name()], lines.as_bytes());
    let mut kept = String::new();
    for line in ran.text().lines() {
        let line = line.split(" turns ").next().unwrap_or_default();
        let line = if line.starts_with("refused") {
            "refused"
        } else {
            line
        };
        kept.push_str(line);
        kept.push('\n');
    }
    kept
}

/// Events, marks from a line on, verdicts, and now and then a letter that the rule does not have.
fn random_lines(random: &mut Random, letters: usize, count: usize, unmarked: usize) -> String {
    let mut lines = String::new();
    for number in 0..count {
        match random.below(10) {
            0 if number < unmarked => lines.push_str("verdict\n"),
            0 => lines.push_str("mark\n"),
            1..=3 => lines.push_str("verdict\n"),
            4 if random.once_in(20) => lines.push_str(&format!("{letters}\n")),
            _ => lines.push_str(&format!("{}\n", random.below(letters))),
        }
    }
    lines
}

/// Runs both on random lines, and counts the answers of each grade.
fn beside_follow(random: &mut Random, bytes: &[u8], count: usize, grades: &mut [usize; 4]) {
    let file = Scrap::holding(bytes);
    let tables = run_with(&["convert", "--to", "c", file.name()], b"");
    let program = compiled(tables.printed(0));
    let letters = duknavet::files::Rule::take_apart(bytes).expect("a rule");
    let letters = letters.images.len();
    // Verdicts with nothing before come only in front of the first mark, so that there are short runs too.
    let runs = [(count, 0)].into_iter().chain([(12, 9); 20]);
    for (round, (count, unmarked)) in runs.enumerate() {
        let lines = random_lines(random, letters, count, unmarked);
        let (own, expected) = (answers(&program, &lines), followed(&file, &lines));
        assert_eq!(expected.lines().count(), count);
        for (at, (own, expected)) in own.lines().zip(expected.lines()).enumerate() {
            assert_eq!(own, expected, "line {at} of {bytes:?}");
            if let Some(grade) = own.strip_prefix("grade ") {
                grades[grade.parse::<usize>().expect("a grade")] += 1;
            }
        }
        assert_eq!(own.len(), expected.len());
        for some in ["refused\n", "before none since ", "since none\n"] {
            assert!(round > 0 || own.contains(some), "{some}");
        }
    }
}

#[test]
fn run_as_follow_does() {
    let mut random = Random::new(4704);
    let mut grades = [0; 4];
    beside_follow(&mut random, GRADED, 100_000, &mut grades);
    beside_follow(&mut random, W, 2_000, &mut grades);
    beside_follow(&mut random, TWICE, 2_000, &mut grades);
    let mut rules = 0;
    while rules < 12 {
        let rule = rule(&mut random, 14);
        let marking = Marking::new(rule.morphism.n, &rule.marks);
        if rule.morphism.n > 3 && splits::strong(&rule.morphism, &marking) {
            beside_follow(&mut random, &rule.bytes(), 2_000, &mut grades);
            rules += 1;
        }
    }
    assert!(grades.iter().all(|own| *own > 100), "{grades:?}");
}

/// The largest tables, with 64 elements.
#[test]
fn the_largest() {
    let mut random = Random::new(4705);
    let morphism = morphisms::largest(&mut random, 0);
    let marks = crate::inputs::marks::closed(&mut random, &morphism);
    let rule = morphism.with(marks);
    assert_eq!(rule.morphism.n, 64);
    beside_follow(&mut random, &rule.bytes(), 300, &mut [0; 4]);
}

#[test]
fn what_the_comment_says() {
    let text = "duknavet rule 1
# Ends */ here /* or /*/ there.
elements 1
  0
letters 2
  open 0
  \"*/ shut\" 0
marks 0
";
    let tables = run_with(&["convert", "--to", "c", "-"], text.as_bytes());
    let tables = tables.printed(0);
    for line in [
        "   Ends * / here / * or / * / there.\n",
        "   Letter 0: open\n",
        "   Letter 1: \"* / shut\"\n",
        "   Fingerprint: ",
    ] {
        assert!(tables.contains(line), "{tables} lacks {line}");
    }
    let program = compiled(tables);
    let lines = "verdict\n1\nverdict\nmark\n";
    let expected = "refused\nbefore none since 0\ngrade 0\nbefore 0 since none\n";
    assert_eq!(answers(&program, lines), expected);
}

#[test]
fn refused() {
    let asked = |words: &[&str], bytes: &[u8]| {
        let words = [&["convert", "--to", "c", "-"], words].concat();
        run_with(&words, bytes)
    };
    let weak = "the rule is weak: u: 0  v: 0 0 has grade 3, but u: 0  v: 1 has grade 0";
    asked(&[], Z).said(2, weak);
    asked(&[], NOT_ASSOCIATIVE).said(2, "refusal 5");
    asked(&["--as", "automaton"], AUTOMATON).said(3, "only rules have C tables");
    asked(&["--least", "2"], W).said(3, "`--least` is for a rule with `--to hoa`");
    asked(&[], b"v: 0\n").said(3, "a lasso is a text only");
}
