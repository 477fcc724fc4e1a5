//! States of a rule that go over to its reduction, by a map that the library confirms.

use crate::arguments::Arguments;
use crate::command::{Choice, Failure};
use crate::commands::confirmed;
use crate::input::{self, Source};
use crate::monitor_state::{taken_up, MonitorState};
use crate::station::{options, Fingerprint, StateFile};
use duknavet::text::Kind;
use duknavet::Monitor;

pub const FROM: Choice = Choice {
    name: "from",
    value: Some("OLD"),
    meaning: "a state of the rule OLD is carried over to RULE, its reduction",
};
pub const MAP: Choice = Choice {
    name: "map",
    value: Some("M"),
    meaning: "the map of that reduction, as confirm takes it",
};

/// The rule that a state was of before, and the map of its reduction to the one that is followed now.
pub struct Former {
    rule: Source,
    map: Source,
}

impl Former {
    pub fn read(arguments: &Arguments) -> Result<Option<Former>, Failure> {
        let files = (arguments.file(FROM.name), arguments.file(MAP.name));
        let (from, map) = match files {
            (None, None) => return Ok(None),
            (Some(from), Some(map)) if from != "-" && map != "-" => (from, map),
            (Some(_), Some(_)) => {
                return Err(arguments.usage("standard input has the events, so the rest are files"));
            }
            _ => return Err(arguments.usage("`--from` and `--map` stand together")),
        };
        if !arguments.has(options::STATE.name) {
            return Err(arguments.usage("`--from` needs --state"));
        }
        let rule = input::rule_file(from)?;
        let map = input::expected(map, Kind::Map)?;
        Ok(Some(Former { rule, map }))
    }

    /// The state as the rule that is followed now has it; as it is where it is not of the former rule.
    pub fn carried_over(
        &self,
        arguments: &Arguments,
        file: &StateFile,
        state: MonitorState,
        rule: &Source,
    ) -> Result<MonitorState, Failure> {
        let own = Fingerprint::of(&rule.bytes);
        if state.rule == own || state.rule != Fingerprint::of(&self.rule.bytes) {
            return Ok(state);
        }
        let watched = taken_up(file, state, &self.rule)?;
        confirmed(arguments, &self.rule, rule, &self.map.bytes)?.map_err(|no| {
            let (from, map) = (&self.rule.name, &self.map.name);
            Failure::Refused(format!(
                "{map}: it does not take {from} to {}: {no}",
                rule.name
            ))
        })?;
        let mut points = watched.points();
        for point in points.chunks_exact_mut(3).filter(|point| point[0] != 0) {
            point[1] = self.image(point[1]);
            point[2] = self.image(point[2]);
        }
        let Monitor { before, since } = watched.monitor();
        let image = |value: usize| u8::try_from(value).map_or(value, |own| self.image(own).into());
        Ok(MonitorState {
            rule: own,
            names: None,
            monitor: Monitor {
                before: image(before),
                since: image(since),
            },
            points,
        })
    }

    fn image(&self, value: u8) -> u8 {
        image(&self.map.bytes, value)
    }
}

/// Where a confirmed map takes a value. It has a place for each element, so that what it has none for is the 64
/// of no events.
pub fn image(map: &[u8], value: u8) -> u8 {
    map.get(usize::from(value)).copied().unwrap_or(value)
}
