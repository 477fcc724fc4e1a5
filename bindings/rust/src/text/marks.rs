//! The text of a marks section: `marks`, its count, and for each mark s, e and the grade, a number or a word.

use super::counts::Section;
use super::read::{Kind, Parsed};
use super::tokens::{TextError, Tokens};
use crate::files::Mark;
use std::fmt::Write;

const GRADES: [(u8, &str); 3] = [(1, "poor"), (2, "tolerable"), (3, "proper")];

/// The editors' word for a grade: 1 poor, 2 tolerable, 3 proper.
pub fn grade_word(grade: u8) -> Option<&'static str> {
    let own = GRADES.iter().find(|(number, _)| *number == grade);
    own.map(|(_, word)| *word)
}

pub(super) fn read(tokens: &mut Tokens<'_>) -> Result<Parsed, TextError> {
    let mut parsed = Parsed::new();
    read_section(tokens, &mut parsed)?;
    Ok(parsed)
}

pub(super) fn read_section(tokens: &mut Tokens<'_>, parsed: &mut Parsed) -> Result<(), TextError> {
    let word = tokens.expect("marks")?;
    let section = Section::new(tokens, word, None, "marks");
    let count = match section.left_out_of_triples()? {
        Some(marks) => parsed.widely_counted(marks, word)?,
        None => parsed.wide_count(tokens, "the count of the marks")?,
    };
    for mark in 0..count {
        parsed.byte(tokens, &format!("s of mark {mark}"))?;
        parsed.byte(tokens, &format!("e of mark {mark}"))?;
        read_grade(tokens, parsed, mark)?;
    }
    Ok(())
}

fn read_grade(tokens: &mut Tokens<'_>, parsed: &mut Parsed, mark: usize) -> Result<(), TextError> {
    for (grade, word) in GRADES {
        if let Some(place) = tokens.take(word) {
            parsed.push(grade, place);
            return Ok(());
        }
    }
    let wanted = format!("the grade of mark {mark}: `poor`, `tolerable`, `proper`");
    parsed.byte(tokens, &wanted).map(|_| ())
}

pub(super) fn print_section(marks: &[Mark], text: &mut String) {
    let _ = writeln!(text, "marks {}", marks.len());
    for mark in marks {
        let grade = match grade_word(mark.grade) {
            Some(word) => word.to_string(),
            None => mark.grade.to_string(),
        };
        let _ = writeln!(text, "  {} {} {grade}", mark.s, mark.e);
    }
}

/// The text of a marks section.
pub fn print_marks(marks: &[Mark]) -> String {
    let mut text = Kind::Marks.header();
    print_section(marks, &mut text);
    text
}
