//! What is wrong with a marks section, of a rule file or by itself.

use super::{there_are, too_many};
use crate::files::Rule;
use crate::Refusal;

/// The words of a refusal at a place of a file whose marks section begins at `at`.
pub fn words(
    refusal: Refusal,
    place: usize,
    file: &[u8],
    at: usize,
    table: &Rule,
) -> Option<String> {
    let marks = match file.get(at..at + 2) {
        Some(bytes) => usize::from(bytes[0]) + 256 * usize::from(bytes[1]),
        None => return Some(truncated(file.len(), at, None)),
    };
    let mark = place.saturating_sub(at + 2) / 3;
    let field = |mark: usize, field: usize| file.get(at + 2 + 3 * mark + field).copied();
    let pair = |mark: usize| Some((field(mark, 0)?, field(mark, 1)?));
    match refusal {
        Refusal::Truncated => Some(truncated(file.len(), at, Some(marks))),
        Refusal::CountOutOfRange => Some(format!("there are {marks} marks, more than 4096")),
        Refusal::EntryOutOfRange => {
            let entry = file.get(place)?;
            let there_are = there_are(usize::from(table.elements), "element");
            Some(match place.checked_sub(at + 2)? % 3 {
                0 => format!("s of mark {mark} is {entry}, but {there_are}"),
                1 => format!("e of mark {mark} is {entry}, but {there_are}"),
                _ => format!("the grade of mark {mark} is {entry}, not 1 to 3"),
            })
        }
        Refusal::TrailingBytes => Some(too_many(file.len().checked_sub(place)?, "mark")),
        Refusal::NotLinked => {
            let (s, e) = pair(mark)?;
            let square = table.product(e, e)?;
            let why = match square == e {
                false => format!("{e}·{e} = {square}"),
                true => format!("{s}·{e} = {}", table.product(s, e)?),
            };
            Some(format!(
                "mark {mark}, the pair ({s}, {e}), is not linked: {why}"
            ))
        }
        Refusal::Duplicate => {
            let (s, e) = pair(mark)?;
            let first = (0..mark).find(|earlier| pair(*earlier) == Some((s, e)))?;
            let grade = field(first, 2)?;
            Some(format!(
                "mark {mark}, the pair ({s}, {e}), stood before as mark {first}, with grade {grade}"
            ))
        }
        _ => None,
    }
}

fn truncated(length: usize, at: usize, marks: Option<usize>) -> String {
    let end = format!("the file ends at byte {length}");
    match marks {
        None if length == at => format!("{end}, before the count of the marks"),
        None => format!("{end}, within the count of the marks"),
        Some(marks) => {
            let there = length.saturating_sub(at + 2);
            let all = 3 * marks;
            format!("{end}, within the marks: {there} of {all} bytes are there")
        }
    }
}
