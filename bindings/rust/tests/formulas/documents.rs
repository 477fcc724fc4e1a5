//! Documents: parts, comments, lines that go on, and grades.

use super::{formula, letters};
use duknavet::formulas::{Alphabet, Document, Formula};

fn station() -> Alphabet {
    letters(&["alarm", "pump", "shut"])
}

fn read(text: &str) -> Document {
    Document::read(text, &station()).unwrap_or_else(|fault| panic!("{fault}"))
}

const HARBOUR: &str = "duknavet formula 1
# after every alarm the pump stays off until the flap shuts
quiet = !pump U shut
after_alarm = alarm -> X quiet   # from the next event on

proper: G after_alarm
tolerable: G F shut
  # and not only alarms
  && F pump
poor: F shut
";

#[test]
fn parts_and_grades() {
    let document = read(HARBOUR);
    let grades: Vec<u8> = document.lines.iter().map(|line| line.grade).collect();
    assert_eq!(grades, [3, 2, 1]);
    let first = document.lines[0].tree.to_string();
    assert_eq!(first, "G (alarm -> X (!pump U shut))");
    assert_eq!(document.lines[1].text, "tolerable: G F shut && F pump");
    let alphabet = station();
    let own = |text: &str| Box::new(formula(text, &alphabet));
    let graded = |text: &str, grade: u8| {
        Box::new(Formula::Both(own(text), Box::new(Formula::Constant(grade))))
    };
    let two = Formula::Either(
        own("G (alarm -> X (!pump U shut))"),
        graded("G F shut && F pump", 2),
    );
    let expected = Formula::Either(Box::new(two), graded("F shut", 1));
    assert_eq!(document.formula(&alphabet), Some(expected));
}

#[test]
fn a_formula_without_a_word_is_proper() {
    let document = read("duknavet formula 1\nG alarm\n");
    assert_eq!(document.lines[0].grade, 3);
    assert_eq!(read("G alarm").lines[0].text, "G alarm");
}

#[test]
fn names_of_parts_are_held_to_rules() {
    let fault = |text: &str| {
        let read = Document::read(text, &station());
        read.expect_err(text).to_string()
    };
    assert!(fault("duknavet formula 1\nalarm = pump\n").contains("name of a letter"));
    assert!(fault("duknavet formula 1\nU = pump\n").contains("is an operator"));
    assert!(fault("duknavet formula 1\nq = pump\nq = shut\nq\n").contains("already"));
    assert!(fault("duknavet formula 1\nG q\nq = shut\n").contains("`q` is no letter"));
    assert!(fault("duknavet formula 1\nq = shut\n").contains("only parts"));
    let place = fault("duknavet formula 1\n\nq = shut U\n");
    assert!(
        place.starts_with("line 4, column 1: the formula ends"),
        "{place}"
    );
}
