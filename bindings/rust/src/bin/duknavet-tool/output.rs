//! Standard output, standard error and files. A write that fails is noticed.

use crate::command::{Answer, Failure};
use std::io::{self, ErrorKind, Write};
use std::sync::atomic::{AtomicBool, Ordering};
use std::sync::Mutex;

/// Writes a result to standard output.
pub fn write(bytes: &[u8]) -> Result<(), Failure> {
    let mut out = io::stdout().lock();
    let written = out.write_all(bytes).and_then(|()| out.flush());
    written.map_err(|error| match error.kind() {
        ErrorKind::BrokenPipe => Failure::Closed,
        _ => Failure::Files(format!("standard output: {error}")),
    })
}

/// Writes a text and is done.
pub fn print(text: &str) -> Result<Answer, Failure> {
    write(text.as_bytes()).map(|()| Answer::Done)
}

/// Whether notes are kept for an answer in JSON.
static KEEPS: AtomicBool = AtomicBool::new(false);
static KEPT: Mutex<Vec<String>> = Mutex::new(Vec::new());

/// From here on standard error stays empty, and what would be said there is kept.
pub fn keep_notes() {
    KEEPS.store(true, Ordering::Relaxed);
}

/// What was kept since it was asked for last.
pub fn kept_notes() -> Vec<String> {
    let kept = KEPT.lock();
    kept.map(|mut kept| std::mem::take(&mut *kept))
        .unwrap_or_default()
}

/// Says what is wrong, or keeps it for an answer in JSON. Where nobody reads standard error there is nobody to be told.
pub fn complain(message: &str) {
    if KEEPS.load(Ordering::Relaxed) {
        if let Ok(mut kept) = KEPT.lock() {
            kept.push(message.to_string());
        }
        return;
    }
    let _ = writeln!(io::stderr().lock(), "duknavet-tool: {message}");
}
