//! What is wrong with an automaton file.

use super::{count, there_are, too_many};
use crate::Refusal;

pub fn words(refusal: Refusal, place: usize, file: &[u8]) -> Option<String> {
    let states = file.first().map_or(0, |count| usize::from(*count));
    let letters_at = 1 + states;
    let letters = file.get(letters_at).map_or(0, |count| usize::from(*count));
    let wide = file.get(letters_at + 1..letters_at + 3);
    let transitions = wide.map(|bytes| usize::from(bytes[0]) + 256 * usize::from(bytes[1]));
    let first = letters_at + 3;
    let triple = |number: usize| file.get(first + 3 * number..first + 3 * number + 3);
    match refusal {
        Refusal::Truncated => Some(truncated(file.len(), letters_at, states, transitions)),
        Refusal::CountOutOfRange => Some(match place {
            0 => format!("the file has {}, not 1 to 6", count(states, "state")),
            _ if place == letters_at => {
                format!("the file has {}, not 1 to 16", count(letters, "letter"))
            }
            _ => format!("there are {} transitions, more than 576", transitions?),
        }),
        Refusal::EntryOutOfRange => {
            let entry = file.get(place)?;
            let states = there_are(states, "state");
            let Some(past) = place.checked_sub(first) else {
                let state = place.checked_sub(1)?;
                return Some(format!("the kind of state {state} is {entry}, not 0 to 3"));
            };
            let transition = past / 3;
            Some(match past % 3 {
                0 => {
                    format!("transition {transition} leaves state {entry}, but {states}")
                }
                1 => {
                    let letters = there_are(letters, "letter");
                    format!("transition {transition} has letter {entry}, but {letters}")
                }
                _ => {
                    format!("transition {transition} goes to state {entry}, but {states}")
                }
            })
        }
        Refusal::TrailingBytes => Some(too_many(file.len().checked_sub(place)?, "transition")),
        Refusal::Duplicate => {
            let later = place.checked_sub(first)? / 3;
            let own = triple(later)?;
            let earlier = (0..later).find(|earlier| triple(*earlier) == Some(own))?;
            let (from, letter, to) = (own[0], own[1], own[2]);
            Some(format!(
                "transition {later}, from {from} by letter {letter} to {to}, stood before as transition {earlier}"
            ))
        }
        _ => None,
    }
}

fn truncated(length: usize, letters_at: usize, states: usize, all: Option<usize>) -> String {
    let end = format!("the file ends at byte {length}");
    if length == 0 {
        return "the file is empty".to_string();
    }
    if length < letters_at {
        let there = length - 1;
        return format!("{end}, within the states' kinds: {there} of {states} are there");
    }
    if length == letters_at {
        return format!("{end}, before the count of the letters");
    }
    match all {
        None => format!("{end}, within the count of the transitions"),
        Some(transitions) => {
            let there = length.saturating_sub(letters_at + 3);
            let all = 3 * transitions;
            format!("{end}, within the transitions: {there} of {all} bytes are there")
        }
    }
}
