//! Lines of standard input as they come, each of a bounded length.

use super::progress::Progress;
use crate::command::Failure;
use duknavet::words::count;
use std::fs::File;
use std::io::{self, BufRead as _, BufReader, ErrorKind};
use std::os::fd::AsFd as _;

/// The bytes that are asked for at once.
const BUFFER: usize = 65_536;

/// A line without its end.
pub enum Line {
    Whole(Vec<u8>),
    TooLong,
}

pub struct Lines {
    input: BufReader<File>,
    longest: usize,
}

impl Lines {
    /// The lines of standard input, of which at most so many bytes each are kept.
    pub fn of_standard_input(longest: usize) -> Result<Lines, Failure> {
        // A reader of its own, since std's does not say whether a line waits in its buffer.
        let owned = io::stdin().as_fd().try_clone_to_owned();
        let input = BufReader::with_capacity(BUFFER, File::from(owned.map_err(failed)?));
        Ok(Lines { input, longest })
    }

    /// Whether the next line is here already, so that it comes without waiting.
    pub fn waits(&self) -> bool {
        self.input.buffer().contains(&b'\n')
    }

    /// The next line, and the progress with it; none at the end of the input. A last line without its end makes
    /// no lines more, but an unfinished one.
    pub fn next(&mut self, before: Progress) -> Result<Option<(Line, Progress)>, Failure> {
        let mut kept: Vec<u8> = Vec::new();
        let mut after = before;
        let mut length = 0_usize;
        loop {
            let part = match self.input.fill_buf() {
                Ok(part) => part,
                Err(error) if error.kind() == ErrorKind::Interrupted => continue,
                Err(error) => return Err(failed(error)),
            };
            if part.is_empty() && length == 0 {
                return Ok(None);
            }
            let end = part.iter().position(|byte| *byte == b'\n');
            let content = &part[..end.unwrap_or(part.len())];
            let room = self.longest.saturating_sub(kept.len());
            kept.extend(content.iter().take(room));
            length = length.saturating_add(content.len());
            let taken = content.len() + usize::from(end.is_some());
            after.fingerprint = after.fingerprint.and(&part[..taken]);
            let ended = part.is_empty();
            self.input.consume(taken);
            if end.is_some() {
                after.lines = after.lines.saturating_add(1);
                break;
            }
            if ended {
                after.unfinished = true;
                break;
            }
        }
        let line = match length > self.longest {
            true => Line::TooLong,
            false => Line::Whole(kept),
        };
        Ok(Some((line, after)))
    }

    /// Passes over the lines that a state stands for, or tells how the input differs from the one that they
    /// were read from.
    pub fn skip(&mut self, wanted: Progress) -> Result<(), Failure> {
        let refused = |what: &str| {
            Failure::Refused(format!(
                "standard input: {what}; the state is left as it is: without --resume it is taken up for a new input"
            ))
        };
        if wanted.unfinished {
            return Err(refused(
                "the last line that was answered had no newline, so what comes behind it is not known",
            ));
        }
        let mut found = Progress::NONE;
        while found.lines < wanted.lines {
            match self.next(found)? {
                Some((_, after)) if !after.unfinished => found = after,
                _ => {
                    return Err(refused(&format!(
                        "it has {}, and the state stands for {}: it was rotated, cut or is another",
                        lines(found.lines),
                        wanted.lines
                    )));
                }
            }
        }
        match found.fingerprint == wanted.fingerprint {
            true => Ok(()),
            false => Err(refused(&format!(
                "its first {} are not those that the state stands for: it was rotated or is another",
                lines(wanted.lines)
            ))),
        }
    }
}

fn failed(error: io::Error) -> Failure {
    Failure::Files(format!("standard input: {error}"))
}

/// So many lines, in words.
pub fn lines(number: u64) -> String {
    count(usize::try_from(number).unwrap_or(usize::MAX), "line")
}
