//! Marks, and the marks section.

use super::bytes::{count_bytes, Rest};

/// A marked pair and its grade.
#[derive(Clone, Copy, Debug, PartialEq, Eq, Hash, PartialOrd, Ord)]
pub struct Mark {
    /// The element that the start has for its value.
    pub s: u8,
    /// The idempotent that the cycle has for its value.
    pub e: u8,
    /// 1, 2 or 3, the best.
    pub grade: u8,
}

/// The bytes of a marks section: two of the count, three of each mark.
pub fn marks_bytes(marks: &[Mark]) -> Vec<u8> {
    let mut bytes = count_bytes(marks.len()).to_vec();
    bytes.extend(marks.iter().flat_map(|mark| [mark.s, mark.e, mark.grade]));
    bytes
}

/// The marks of a marks section; none where its bytes are not as many as its count says.
pub fn marks_of(bytes: &[u8]) -> Option<Vec<Mark>> {
    let mut rest = Rest::new(bytes);
    let marks = read_marks(&mut rest)?;
    rest.is_empty().then_some(marks)
}

pub(super) fn read_marks(rest: &mut Rest<'_>) -> Option<Vec<Mark>> {
    let count = rest.wide_count()?;
    let triples = rest.part(3 * count)?.chunks_exact(3);
    let mark = |triple: &[u8]| Mark {
        s: triple[0],
        e: triple[1],
        grade: triple[2],
    };
    Some(triples.map(mark).collect())
}
