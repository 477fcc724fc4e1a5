//! The state of a monitor in a file: its two values, its named points, which rule they are of, and how much of
//! the input they stand for.

use crate::command::Failure;
use crate::input::Source;
use crate::station::sealed::{self, Kind, Version};
use crate::station::{Fingerprint, MachineState, Progress, StateFile};
use duknavet::text::Names;
use duknavet::{Monitor, RuleMonitor, POINTS};
use std::fmt::Write as _;
use std::sync::Arc;

/// A monitor and its points, as a rule left them.
#[derive(Clone, Debug)]
pub struct MonitorState {
    /// The fingerprint of the rule's bytes: values alone do not show of which rule they are.
    pub rule: Fingerprint,
    /// How its letters are called; version 1 does not say it.
    pub names: Option<Arc<Names>>,
    pub monitor: Monitor,
    pub points: [u8; POINTS],
}

/// What a state file holds.
pub struct Found {
    pub state: MonitorState,
    /// What was read of the input; version 1 does not say it.
    pub progress: Option<Progress>,
}

impl MachineState for MonitorState {
    const KIND: Kind = Kind::Monitor;

    fn lines(&self) -> String {
        let Monitor { before, since } = self.monitor;
        let mut lines = format!("rule {}\n", self.rule);
        if let Some(names) = self.names.as_ref().filter(|names| names.any()) {
            let _ = writeln!(lines, "{}", names.line());
        }
        let _ = writeln!(lines, "monitor {before} {since}");
        for (name, point) in self.points.chunks_exact(3).enumerate() {
            if point[0] != 0 {
                let _ = writeln!(lines, "point {name} {} {}", point[1], point[2]);
            }
        }
        lines
    }
}

/// The state in a file; none where there is no such file.
pub fn read(file: &StateFile) -> Result<Option<Found>, Failure> {
    sealed::read(Kind::Monitor, file, parse)
}

/// The monitor of a state, if it is of the rule and its values are.
pub fn taken_up(
    file: &StateFile,
    state: MonitorState,
    rule: &Source,
) -> Result<RuleMonitor, Failure> {
    if state.rule != Fingerprint::of(&rule.bytes) {
        return Err(file.refused("it is the state of another rule"));
    }
    if let Some(names) = state.names.filter(|names| **names != rule.names) {
        let called = |names: &Names| match names.any() {
            true => names.line(),
            false => "no names".to_string(),
        };
        let (own, now) = (called(&names), called(&rule.names));
        let message = format!("it is the state of other names: it has {own}, and the rule {now}");
        return Err(file.refused(&message));
    }
    let watched = RuleMonitor::resumed(&rule.bytes, state.monitor, state.points);
    // To keep a name, on a copy, looks at the monitor's values and at those of every point.
    let tried = watched.clone().keep(0);
    tried.map_err(|explained| file.refused(&explained.to_string()))?;
    Ok(watched)
}

fn parse(version: Version, lines: &str) -> Option<Found> {
    let mut lines = lines.lines().peekable();
    let rule = Fingerprint::read(lines.next()?.strip_prefix("rule ")?)?;
    let called = lines.next_if(|line| version == Version::Two && !line.starts_with("monitor "));
    let names = Names::of_line(called.unwrap_or("")).ok()?;
    let monitor = values(lines.next()?.strip_prefix("monitor ")?)?;
    let mut points = [0; POINTS];
    while let Some(line) = lines.next_if(|line| line.starts_with("point ")) {
        let (name, point) = line.strip_prefix("point ")?.split_once(' ')?;
        let at = 3 * name.parse::<usize>().ok().filter(|name| *name < 8)?;
        let Monitor { before, since } = values(point)?;
        let own = points.get_mut(at..at + 3)?;
        own.copy_from_slice(&[1, u8::try_from(before).ok()?, u8::try_from(since).ok()?]);
    }
    let progress = match version {
        Version::One => None,
        Version::Two => Some(Progress::read(lines.next()?)?),
    };
    let state = MonitorState {
        rule,
        names: (version == Version::Two).then(|| Arc::new(names)),
        monitor,
        points,
    };
    lines.next().is_none().then_some(Found { state, progress })
}

/// Two values as they are written.
fn values(words: &str) -> Option<Monitor> {
    let (before, since) = words.split_once(' ')?;
    Some(Monitor {
        before: before.parse().ok()?,
        since: since.parse().ok()?,
    })
}
