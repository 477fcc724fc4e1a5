//! Counted sections of the file formats.

use super::{Refusal, Strategy};

/// What a count takes: its bytes, and its least and greatest value.
pub type Count = (usize, usize, usize);

/// The count and the entries of a section that begins at a byte, and where the next one begins.
pub fn section(
    bytes: &[u8],
    at: usize,
    input: u8,
    (width, least, most): Count,
    entries: impl Fn(usize) -> usize,
) -> Result<(usize, &[u8], usize), Refusal> {
    let cut = (1, input, bytes.len() as u64);
    let count = bytes.get(at..at + width).ok_or(cut)?;
    let count = count.iter().rev().fold(0, |c, b| c * 256 + *b as usize);
    if count < least || count > most {
        return Err((2, input, at as u64));
    }
    let begin = at + width;
    let end = begin + entries(count);
    let part = bytes.get(begin..end).ok_or(cut)?;
    Ok((count, part, end))
}

/// The first byte that is not below a limit. Mostly there is none, which the greatest of the bytes tells faster than a search.
pub fn first_out(strategy: Strategy, part: &[u8], limit: usize) -> Option<usize> {
    let greatest = || part.iter().fold(0, |most, b| *b.max(&most)) as usize;
    if strategy == Strategy::Same && greatest() < limit {
        return None;
    }
    part.iter().position(|b| *b as usize >= limit)
}

/// 3, for the entries of a section that begin at a byte.
pub fn below(
    strategy: Strategy,
    part: &[u8],
    limit: usize,
    input: u8,
    begin: usize,
) -> Result<(), Refusal> {
    match first_out(strategy, part, limit) {
        Some(i) => Err((3, input, (begin + i) as u64)),
        None => Ok(()),
    }
}

/// 3, for the marks of a section that begin at a byte: s and e, which are elements, and the grade, 1 to 3.
pub fn marks_fit(
    strategy: Strategy,
    triples: &[u8],
    n: usize,
    input: u8,
    begin: usize,
) -> Result<(), Refusal> {
    let marks = || triples.chunks_exact(3);
    if strategy == Strategy::Same {
        // A grade of 0 less 1 is above every other.
        let greatest = marks().fold((0, 0), |most, mark| {
            let element = mark[0].max(mark[1]).max(most.0);
            (element, mark[2].wrapping_sub(1).max(most.1))
        });
        if (greatest.0 as usize) < n && greatest.1 < 3 {
            return Ok(());
        }
    }
    let element = |s: u8| (s as usize) < n;
    let fits = |mark: &[u8]| element(mark[0]) && element(mark[1]) && (1..4).contains(&mark[2]);
    let Some((i, mark)) = marks().enumerate().find(|(_, mark)| !fits(mark)) else {
        return Ok(());
    };
    let within = match (element(mark[0]), element(mark[1])) {
        (false, _) => 0,
        (true, false) => 1,
        (true, true) => 2,
    };
    Err((3, input, (begin + 3 * i + within) as u64))
}

/// 4, behind the last section.
pub fn ended(bytes: &[u8], input: u8, end: usize) -> Result<(), Refusal> {
    match end < bytes.len() {
        true => Err((4, input, end as u64)),
        false => Ok(()),
    }
}
