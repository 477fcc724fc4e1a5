//! Stations: what `follow` and `board` keep, and how it is not lost.

mod answers;
mod boards;
mod crashes;
mod damage;
mod quiet;
mod resuming;
mod saving;
mod signals;
mod tables;

use crate::program::Scrap;

/// A state's text with its last line, which has the number of all bytes before it (FNV-1a).
pub fn sealed(lines: &str) -> String {
    format!("{lines}end {:016x}\n", fingerprint(lines.as_bytes()))
}

/// A state's text without its last line.
pub fn unsealed(text: &str) -> String {
    let at = text.rfind("end ").expect("a last line");
    text[..at].to_string()
}

pub fn fingerprint(bytes: &[u8]) -> u64 {
    bytes.iter().fold(0xcbf2_9ce4_8422_2325, |hash, byte| {
        (hash ^ u64::from(*byte)).wrapping_mul(0x0000_0100_0000_01b3)
    })
}

/// What a state file holds.
#[track_caller]
pub fn contents(state: &Scrap) -> String {
    std::fs::read_to_string(state.name()).expect("the state was written")
}

/// The lines of the input that a state says it stands for.
pub fn lines_read(text: &str) -> usize {
    let line = text.lines().find_map(|line| line.strip_prefix("input "));
    let count = line.and_then(|rest| rest.split(' ').next());
    count
        .and_then(|count| count.parse().ok())
        .expect("a count of lines")
}

/// Waits until a file holds some words.
#[track_caller]
pub fn wait_for(file: &Scrap, words: &str) {
    let begin = std::time::Instant::now();
    while begin.elapsed().as_secs() < 20 {
        if std::fs::read_to_string(file.name()).is_ok_and(|text| text.contains(words)) {
            return;
        }
        std::thread::sleep(std::time::Duration::from_millis(5));
    }
    panic!("{} does not hold {words}", file.name());
}
