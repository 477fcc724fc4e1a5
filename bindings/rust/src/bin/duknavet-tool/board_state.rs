//! The state of a board in a file: how its letters are called, for each rule present its monitor and its text,
//! and how much of the input they stand for.

use crate::command::Failure;
use crate::station::sealed::{self, Kind, Version};
use crate::station::{Fingerprint, MachineState, Progress, StateFile};
use duknavet::files::Rule;
use duknavet::text::{self, print_rule, Names};
use duknavet::{Board, RuleBoard, BOARD_FILES, BOARD_NAMES, BOARD_STATE, RULE_OUT};
use std::fmt::Write as _;
use std::sync::Arc;

/// For each name the fingerprint of the rule's bytes as they came, before its letters were put in the board's order.
pub type Origins = [Option<Fingerprint>; BOARD_NAMES];

/// What changes as rules enter and leave, and not at each event: it is put into words once.
pub struct Rules {
    names: Names,
    texts: Vec<(usize, Fingerprint, String)>,
}

impl Rules {
    pub fn of(board: &RuleBoard, names: &Names, origins: &Origins) -> Rules {
        let text = |name: usize| {
            let file = board.file(name)?;
            let mut text = String::new();
            for line in print_rule(&Rule::take_apart(file)?, &Names::none()).lines() {
                let _ = writeln!(text, "  {line}");
            }
            let origin = origins.get(name).copied().flatten();
            let origin = origin.unwrap_or_else(|| Fingerprint::of(file));
            Some((name, origin, text))
        };
        Rules {
            names: names.clone(),
            texts: board.board().names().filter_map(text).collect(),
        }
    }
}

/// A board at a moment.
pub struct BoardState {
    pub board: Board,
    pub rules: Arc<Rules>,
}

impl MachineState for BoardState {
    const KIND: Kind = Kind::Board;

    fn lines(&self) -> String {
        let mut lines = format!("lowest {}\n", self.board.state()[BOARD_STATE - 1]);
        if self.rules.names.any() {
            let _ = writeln!(lines, "{}", self.rules.names.line());
        }
        for (name, origin, text) in &self.rules.texts {
            if let Some(monitor) = self.board.monitor(*name) {
                let (before, since) = (monitor.before, monitor.since);
                let _ = write!(lines, "rule {name} {before} {since} {origin}\n{text}");
            }
        }
        lines
    }
}

/// What a state file holds.
pub struct Found {
    pub board: RuleBoard,
    pub names: Names,
    pub origins: Origins,
    /// What was read of the input; version 1 does not say it.
    pub progress: Option<Progress>,
}

/// The board in a file; none where there is no such file. Whatever the library refuses of it is refused here.
pub fn read(file: &StateFile) -> Result<Option<Found>, Failure> {
    let Some((mut found, names)) = sealed::read(Kind::Board, file, parse)? else {
        return Ok(None);
    };
    // Version 1 had the names in the rules' texts.
    let mut names = names.into_iter();
    found.names = names.next().unwrap_or_default();
    if names.any(|other| other != found.names) {
        return Err(file.refused("its rules call their letters in different ways"));
    }
    // A mark, on a copy, looks at every rule and at every monitor.
    let tried = found.board.clone().mark();
    tried.map_err(|explained| file.refused(&explained.to_string()))?;
    Ok(Some(found))
}

/// The board, and how the state and its rules call letters, each that does.
fn parse(version: Version, lines: &str) -> Option<(Found, Vec<Names>)> {
    let mut state = Board::empty().state();
    let mut files = vec![0; BOARD_FILES];
    let (mut names, mut origins) = (Vec::new(), Origins::default());
    let mut lines = lines.lines().peekable();
    state[BOARD_STATE - 1] = lines.next()?.strip_prefix("lowest ")?.parse().ok()?;
    if let Some(line) =
        lines.next_if(|line| !line.starts_with("rule ") && !line.starts_with("input "))
    {
        names.push(Names::of_line(line).ok().filter(Names::any)?);
    }
    while let Some(line) = lines.next_if(|line| line.starts_with("rule ")) {
        let (name, values, origin) = rule_line(version, line)?;
        let own = state.get_mut(3 * name..3 * name + 3)?;
        if own[0] != 0 {
            return None;
        }
        own.copy_from_slice(&[1, values[0], values[1]]);
        let mut rule = String::new();
        while let Some(line) = lines.next_if(|line| line.starts_with("  ")) {
            rule += line.get(2..)?;
            rule.push('\n');
        }
        let (kind, parsed) = text::read(rule.as_bytes()).ok()?;
        if kind != text::Kind::Rule || parsed.bytes.len() > RULE_OUT {
            return None;
        }
        let from = RULE_OUT * name;
        let there = files.get_mut(from..from + parsed.bytes.len())?;
        there.copy_from_slice(&parsed.bytes);
        origins[name] = Some(origin.unwrap_or_else(|| Fingerprint::of(&parsed.bytes)));
        names.extend(Some(parsed.names).filter(Names::any));
    }
    let progress = match version {
        Version::One => None,
        Version::Two => Some(Progress::read(lines.next()?)?),
    };
    let found = Found {
        board: RuleBoard::resumed(Board::from_state(state), files),
        names: Names::none(),
        origins,
        progress,
    };
    lines.next().is_none().then_some((found, names))
}

/// The name of a rule, its monitor's values, and from version 2 on the fingerprint of what came.
fn rule_line(version: Version, line: &str) -> Option<(usize, [u8; 2], Option<Fingerprint>)> {
    let words: Vec<&str> = line.split(' ').collect();
    let (name, before, since, origin) = match (version, words.as_slice()) {
        (Version::One, ["rule", name, before, since]) => (name, before, since, None),
        (Version::Two, ["rule", name, before, since, origin]) => {
            (name, before, since, Some(Fingerprint::read(origin)?))
        }
        _ => return None,
    };
    let name = name.parse().ok().filter(|name| *name < BOARD_NAMES)?;
    Some((name, [before.parse().ok()?, since.parse().ok()?], origin))
}
