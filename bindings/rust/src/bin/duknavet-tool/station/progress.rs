//! How much of the present input a state stands for: the lines that were read, and their fingerprint.

use super::fingerprint::Fingerprint;

/// The lines of the input so far, each with the newline that ends it; also those that were refused, and empty ones.
#[derive(Clone, Copy, Debug, PartialEq, Eq)]
pub struct Progress {
    pub lines: u64,
    pub fingerprint: Fingerprint,
    /// Whether a last line without a newline was answered too. More of it may come, so such an input cannot be
    /// resumed.
    pub unfinished: bool,
}

impl Progress {
    /// Nothing was read.
    pub const NONE: Progress = Progress {
        lines: 0,
        fingerprint: Fingerprint::EMPTY,
        unfinished: false,
    };

    /// Its line in a state file, without the end.
    pub fn line(&self) -> String {
        let unfinished = if self.unfinished { " unfinished" } else { "" };
        format!("input {} {}{unfinished}", self.lines, self.fingerprint)
    }

    pub fn read(line: &str) -> Option<Progress> {
        let words: Vec<&str> = line.split(' ').collect();
        let (lines, fingerprint, unfinished) = match words.as_slice() {
            ["input", lines, fingerprint] => (lines, fingerprint, false),
            ["input", lines, fingerprint, "unfinished"] => (lines, fingerprint, true),
            _ => return None,
        };
        Some(Progress {
            lines: lines.parse().ok()?,
            fingerprint: Fingerprint::read(fingerprint)?,
            unfinished,
        })
    }
}
