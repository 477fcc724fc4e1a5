//! The text of a state file: a first line with its version, and a last one that shows whether all before it is
//! there and as it was written.

use super::fingerprint::Fingerprint;
use super::state_file::StateFile;
use crate::command::Failure;

/// What a state is of.
#[derive(Clone, Copy, Debug, PartialEq, Eq)]
pub enum Kind {
    Monitor,
    Board,
}

impl Kind {
    /// Its word in the first line.
    fn word(self) -> &'static str {
        match self {
            Kind::Monitor => "state",
            Kind::Board => "board",
        }
    }

    fn is_none(self) -> String {
        match self {
            Kind::Monitor => "it is no state".to_string(),
            Kind::Board => "it is no state of a board".to_string(),
        }
    }
}

/// The versions that are read. The first says neither what was read of the input nor whether it is whole.
#[derive(Clone, Copy, Debug, PartialEq, Eq)]
pub enum Version {
    One,
    Two,
}

/// The lines of a state with the first and the last one, in the version that is written.
pub fn seal(kind: Kind, lines: &str) -> String {
    let text = format!("duknavet {} 2\n{lines}", kind.word());
    let end = Fingerprint::of(text.as_bytes());
    format!("{text}end {end}\n")
}

/// What a state file says, by the version and the lines between the first and the last; none where there is no
/// such file.
pub fn read<T>(
    kind: Kind,
    file: &StateFile,
    parse: impl FnOnce(Version, &str) -> Option<T>,
) -> Result<Option<T>, Failure> {
    let Some(bytes) = file.read()? else {
        return Ok(None);
    };
    let opened = open(kind, &bytes);
    let parsed = opened.and_then(|(version, lines)| parse(version, lines).ok_or_else(damaged));
    parsed.map(Some).map_err(|message| file.refused(&message))
}

/// The version of a state's bytes and the lines between the first and the last, or what is wrong with them.
fn open(kind: Kind, bytes: &[u8]) -> Result<(Version, &str), String> {
    if bytes.is_empty() {
        return Err("it is empty".to_string());
    }
    let header = format!("duknavet {} ", kind.word());
    if !bytes.starts_with(header.as_bytes()) {
        return Err(kind.is_none());
    }
    let text = std::str::from_utf8(bytes).map_err(|_| damaged())?;
    let (version, lines) = text[header.len()..].split_once('\n').ok_or_else(damaged)?;
    match version {
        // A last line without its end was cut.
        "1" if lines.ends_with('\n') => Ok((Version::One, lines)),
        "2" => {
            let at = lines.rfind("end ").ok_or_else(damaged)?;
            let lines = &lines[..at];
            match seal(kind, lines) == text {
                true => Ok((Version::Two, lines)),
                false => Err(damaged()),
            }
        }
        "1" => Err(damaged()),
        _ if version.bytes().all(|byte| byte.is_ascii_digit()) && !version.is_empty() => Err(
            format!("its version is {version}, and versions 1 and 2 are read"),
        ),
        _ => Err(damaged()),
    }
}

fn damaged() -> String {
    "the state is damaged".to_string()
}
