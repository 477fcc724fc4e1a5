//! What may stand before the first line of a text: a byte order mark, blank lines and comments.

const MARK: &[u8] = &[0xef, 0xbb, 0xbf];

pub(crate) fn without_mark(bytes: &[u8]) -> &[u8] {
    bytes.strip_prefix(MARK).unwrap_or(bytes)
}

/// The bytes from the first line on that is not blank and no comment. A line that begins with `#` or `//` is a comment,
/// with the next line where it ends in a backslash, as a definition in a claim may; and so is what stands between `/*` and
/// `*/`.
pub(crate) fn from_first_line(bytes: &[u8]) -> &[u8] {
    let mut rest = without_mark(bytes);
    loop {
        let line = line_of(rest);
        let begun = rest.trim_ascii_start();
        let behind = if line.trim_ascii().is_empty() {
            rest.get(line.len()..)
        } else if line.starts_with(b"#") || line.starts_with(b"//") {
            Some(behind_joined_lines(rest))
        } else if let Some(comment) = begun.strip_prefix(b"/*") {
            behind_comment(comment)
        } else {
            None
        };
        match behind {
            Some(behind) if !rest.is_empty() => rest = behind,
            _ => return rest,
        }
    }
}

/// A line with its end.
fn line_of(bytes: &[u8]) -> &[u8] {
    bytes
        .split_inclusive(|byte| *byte == b'\n')
        .next()
        .unwrap_or(&[])
}

fn behind_joined_lines(bytes: &[u8]) -> &[u8] {
    let mut rest = bytes;
    loop {
        let line = line_of(rest);
        rest = rest.get(line.len()..).unwrap_or(&[]);
        if rest.is_empty() || !line.trim_ascii_end().ends_with(b"\\") {
            return rest;
        }
    }
}

/// What stands behind the end of a comment, and blanks.
fn behind_comment(comment: &[u8]) -> Option<&[u8]> {
    let end = comment.windows(2).position(|pair| pair == b"*/")?;
    let behind = comment.get(end + 2..)?;
    let blanks = behind
        .iter()
        .take_while(|byte| **byte == b' ' || **byte == b'\t');
    behind.get(blanks.count()..)
}
