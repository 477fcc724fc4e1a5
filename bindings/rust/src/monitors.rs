//! Monitors: events are read one by one, and marks divide them into what came before and what came since. A moment can be kept under
//! a name and returned to.

use crate::answer::{foreign, unpack, unpack_graded};
use crate::{raw, Refused, NONE};

/// What a monitor keeps of the events: two values, each an element or [`NONE`](crate::NONE).
#[derive(Clone, Copy, Debug, PartialEq, Eq, Hash)]
pub struct Monitor {
    /// The value of the letters before the last mark.
    pub before: usize,
    /// The value of the letters since.
    pub since: usize,
}

/// A refused event, mark, keep, return or advance, with the monitor as it was.
#[derive(Clone, Copy, Debug, PartialEq, Eq, Hash)]
pub struct NotMoved {
    /// The monitor that the call was given.
    pub monitor: Monitor,
    /// Why the call refused.
    pub refused: Refused,
}

impl std::fmt::Display for NotMoved {
    fn fmt(&self, f: &mut std::fmt::Formatter<'_>) -> std::fmt::Result {
        self.refused.fmt(f)
    }
}

impl std::error::Error for NotMoved {}

/// The grade of the lassos that have a monitor's values, and how many turns settle their cycle.
#[derive(Clone, Copy, Debug, PartialEq, Eq, Hash)]
pub struct Verdict {
    /// Their grade, 0 to 3: that of each of them.
    pub grade: u8,
    /// How many turns of the cycle together have a value that repeating no longer changes, whatever the grade: the least c, 1 to the
    /// number of elements, with x^c·x^c = x^c, where x is the value of since.
    pub turns: usize,
}

/// A monitor that was advanced, and the verdict on it.
#[derive(Clone, Copy, Debug, PartialEq, Eq, Hash)]
pub struct Advanced {
    /// The monitor after the step or the word.
    pub monitor: Monitor,
    /// Its verdict, as [`verdict`] has it; none where its `since` is [`NONE`](crate::NONE).
    pub verdict: Option<Verdict>,
}

/// A monitor that has seen nothing: [`NONE`](crate::NONE) twice.
pub fn fresh() -> Monitor {
    let packed = raw::fresh();
    match unpack(packed) {
        Ok([before, since, 0]) => Monitor { before, since },
        _ => foreign(packed, "a fresh monitor is never refused"),
    }
}

/// The monitor after an event: `since` times the letter's element, or that element alone. The rule may be weak.
pub fn event(
    rule: &[u8],
    monitor: Monitor,
    letter: u8,
    scratch: &mut [u8],
) -> Result<Monitor, NotMoved> {
    let packed = raw::event(rule, monitor.before, monitor.since, letter, scratch);
    moved(monitor, packed)
}

/// The monitor after a mark: what came since now counts as before. With nothing since, nothing changes. The rule may be weak.
pub fn mark(rule: &[u8], monitor: Monitor, scratch: &mut [u8]) -> Result<Monitor, NotMoved> {
    let packed = raw::mark(rule, monitor.before, monitor.since, scratch);
    moved(monitor, packed)
}

/// The monitor after an event for each letter of a word, from one check of the rule: what [`event`] for each letter in turn comes to. The rule
/// may be weak.
///
/// The word has 0 to [`LOG`](crate::LOG) letters; an empty one changes nothing. Where the rule lacks one of them, the word is refused at the
/// first such letter's position, and moves nothing.
pub fn feed(
    rule: &[u8],
    monitor: Monitor,
    word: &[u8],
    scratch: &mut [u8],
) -> Result<Monitor, NotMoved> {
    let packed = raw::feed(rule, monitor.before, monitor.since, word, scratch);
    moved(monitor, packed)
}

/// Keeps the monitor under a name from 0 to 7 in `points`, in place of what the name held, and hands it back.
///
/// `points` has [`POINTS`](crate::POINTS) bytes or more, zeros at first: three for each name, whether it was kept, `before` and `since`.
/// No other byte of it changes, and after a refusal none. The rule may be weak.
pub fn keep(
    rule: &[u8],
    monitor: Monitor,
    name: usize,
    points: &mut [u8],
    scratch: &mut [u8],
) -> Result<Monitor, NotMoved> {
    let packed = raw::keep(rule, monitor.before, monitor.since, name, points, scratch);
    moved(monitor, packed)
}

/// The monitor that was kept under a name. Every point stays, so that a name can be returned to again. The rule may be weak.
pub fn return_to(
    rule: &[u8],
    monitor: Monitor,
    name: usize,
    points: &[u8],
    scratch: &mut [u8],
) -> Result<Monitor, NotMoved> {
    let packed = raw::return_to(rule, monitor.before, monitor.since, name, points, scratch);
    moved(monitor, packed)
}

/// The grade that a strong rule gives to the lassos whose start has the value `before` and whose cycle has the value `since`.
///
/// Where `before` is [`NONE`](crate::NONE) the lassos are those without a start: their cycle alone. A monitor whose `since` is
/// [`NONE`](crate::NONE), and a weak rule, are refused.
pub fn verdict(rule: &[u8], monitor: Monitor, scratch: &mut [u8]) -> Result<Verdict, Refused> {
    let packed = raw::verdict(rule, monitor.before, monitor.since, scratch);
    let (grade, turns) = unpack_graded(packed)?;
    Ok(Verdict { grade, turns })
}

/// An event and then the verdict, from one check of the rule. A weak rule is refused, before a letter that it does not have.
pub fn advance_event(
    rule: &[u8],
    monitor: Monitor,
    letter: u8,
    scratch: &mut [u8],
) -> Result<Advanced, NotMoved> {
    let packed = raw::advance_event(rule, monitor.before, monitor.since, letter, scratch);
    advanced(monitor, packed)
}

/// A mark and then what [`advance_event`] says of the monitor. After it nothing came since, so that there is no verdict.
pub fn advance_mark(
    rule: &[u8],
    monitor: Monitor,
    scratch: &mut [u8],
) -> Result<Advanced, NotMoved> {
    let packed = raw::advance_mark(rule, monitor.before, monitor.since, scratch);
    advanced(monitor, packed)
}

/// What [`advance_event`] says of the monitor as it is.
pub fn advance_stay(
    rule: &[u8],
    monitor: Monitor,
    scratch: &mut [u8],
) -> Result<Advanced, NotMoved> {
    let packed = raw::advance_stay(rule, monitor.before, monitor.since, scratch);
    advanced(monitor, packed)
}

/// An event for each letter of a word, and then the verdict, from one check of the rule: what [`advance_event`] for each letter in turn
/// comes to.
///
/// The word has 0 to [`LOG`](crate::LOG) letters. Where the rule lacks one of them, the word is refused at the first such letter's
/// position, and moves nothing.
pub fn advance_word(
    rule: &[u8],
    monitor: Monitor,
    word: &[u8],
    scratch: &mut [u8],
) -> Result<Advanced, NotMoved> {
    let packed = raw::advance_word(rule, monitor.before, monitor.since, word, scratch);
    advanced(monitor, packed)
}

fn advanced(monitor: Monitor, packed: u64) -> Result<Advanced, NotMoved> {
    let [before, since, third] = unpack(packed).map_err(|refused| NotMoved { monitor, refused })?;
    let verdict = match (since, (third & 255) as u8, third >> 8) {
        (NONE, 4, 0) => None,
        (0..=63, grade @ 0..=3, turns @ 1..=64) => Some(Verdict { grade, turns }),
        _ => foreign(packed, "the third field is no grade with its turns"),
    };
    let monitor = Monitor { before, since };
    Ok(Advanced { monitor, verdict })
}

fn moved(monitor: Monitor, packed: u64) -> Result<Monitor, NotMoved> {
    match unpack(packed) {
        Ok([before, since, 0]) => Ok(Monitor { before, since }),
        Ok(_) => foreign(packed, "a monitor has two values"),
        Err(refused) => Err(NotMoved { monitor, refused }),
    }
}
