//! Logs: random events, marks, keeps and returns from a fresh monitor and no name kept, refused ones among them, held against a list of
//! stored histories.

use crate::calls::*;
use crate::definitions::acceptance::grade;
use crate::definitions::rule::Morphism;
use crate::definitions::settling::turns;
use crate::subject::Subject;
use duknavet::{Monitor, Verdict, NONE, POINTS, SCRATCH};

/// Events and marks, in the order they came.
type History = Vec<Action>;

#[derive(Clone, Copy)]
enum Action {
    Event(u8),
    Mark,
}

/// The letters before the last mark, and those since.
fn words(history: &[Action]) -> (Vec<u8>, Vec<u8>) {
    let (mut before, mut since) = (Vec::new(), Vec::new());
    for action in history {
        match action {
            Action::Event(letter) => since.push(*letter),
            Action::Mark => before.append(&mut since),
        }
    }
    (before, since)
}

/// What a fresh monitor becomes by a history alone.
fn after(m: &Morphism, history: &[Action]) -> Monitor {
    let value = |word: &[u8]| match word.is_empty() {
        true => NONE,
        false => m.value(word) as usize,
    };
    let (before, since) = words(history);
    Monitor {
        before: value(&before),
        since: value(&since),
    }
}

/// The three bytes of each name: those of the stored history, or what they were at first.
fn held(m: &Morphism, first: &[u8; POINTS], stored: &[Option<History>; 8]) -> [u8; POINTS] {
    let mut points = *first;
    for (bytes, history) in points.chunks_mut(3).zip(stored) {
        if let Some(history) = history {
            let Monitor { before, since } = after(m, history);
            bytes.copy_from_slice(&[1, before as u8, since as u8]);
        }
    }
    points
}

pub fn run(c: &mut Comparison, subject: &Subject) {
    let known = subject.known();
    let (m, letters) = (known.morphism(), known.morphism().letters());
    // Of a name never kept only the first byte counts.
    let mut first = [0; POINTS];
    for bytes in first.chunks_mut(3) {
        bytes[1..].fill_with(|| c.random.below(256) as u8);
    }
    let mut points = first;
    let mut monitor = duknavet::fresh();
    let mut history = History::new();
    let mut stored: [Option<History>; 8] = Default::default();
    let mut returns = 0;
    for _ in 0..c.random.below(40) {
        // Now and then a name above 7, a foreign letter, a short buffer.
        let name = c.random.below(9);
        let letter = c.random.below(letters + 1) as u8;
        let short = c.random.once_in(16);
        match c.random.below(8) {
            0 => {
                let sizes = if short {
                    c.short(MONITOR_SIZES)
                } else {
                    c.enough(MONITOR_SIZES)
                };
                if let Some(moved) = c.mark(subject, monitor, sizes) {
                    monitor = moved;
                    history.push(Action::Mark);
                }
            }
            1..=2 => {
                let sizes = if short {
                    c.short(POINTS_SIZES)
                } else {
                    c.enough(POINTS_SIZES)
                };
                if c.keep(subject, monitor, name, &mut points, sizes) {
                    stored[name] = Some(history.clone());
                }
            }
            3..=4 => {
                let sizes = if short {
                    c.short(POINTS_SIZES)
                } else {
                    c.enough(POINTS_SIZES)
                };
                if let Some(moved) = c.return_to(subject, monitor, name, &points, sizes) {
                    monitor = moved;
                    history = stored[name].clone().expect("a name that was kept");
                    returns += 1;
                }
            }
            _ => {
                let sizes = if short {
                    c.short(MONITOR_SIZES)
                } else {
                    c.enough(MONITOR_SIZES)
                };
                if let Some(moved) = c.event(subject, monitor, letter, sizes) {
                    monitor = moved;
                    history.push(Action::Event(letter));
                }
            }
        }
        assert_eq!(
            monitor,
            after(m, &history),
            "a log of {:?}",
            words(&history)
        );
        assert_eq!(points, held(m, &first, &stored), "the points of a log");
    }
    c.tally.count("log", "logs");
    if returns > 1 {
        c.tally.count("log", "logs with returns");
    }
    let (before, since) = words(&history);
    if !since.is_empty() && c.settled(subject) {
        let answer = duknavet::verdict(&subject.bytes, monitor, &mut vec![0; SCRATCH]);
        let expected = Verdict {
            grade: grade(m, &known.marking, &before, &since),
            turns: turns(m, &since),
        };
        assert_eq!(answer, Ok(expected), "verdict of {before:?} {since:?}");
        c.tally.count("log", "verdicts on logs");
    }
}
