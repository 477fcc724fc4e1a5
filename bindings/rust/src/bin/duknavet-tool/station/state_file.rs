//! The file that a state stands in: locked, read, and replaced as a whole.

use crate::command::Failure;
use crate::output;
use crate::replacing::{beside, replace, resolved, write_directly};
use std::ffi::OsStr;
use std::fs::{self, File, OpenOptions, TryLockError};
use std::io::{self, ErrorKind, Read as _};
use std::path::{Path, PathBuf};

/// The most bytes that are read of a state file: names of letters, no longer than the texts that are read, and
/// eight rules.
const LONGEST: u64 = 16 << 20;

/// A state file that no other process of the tool has.
pub struct StateFile {
    /// Its name as it was given, for messages.
    given: PathBuf,
    /// The file itself, where the name is a link.
    target: PathBuf,
    /// Whether it is a device or a pipe: such a file is not read, and cannot be replaced.
    direct: bool,
    /// Held until the process ends. The file of the lock stays: removed, it could be locked by two at once.
    _lock: Option<File>,
}

impl StateFile {
    /// Resolves links and locks the file. Where no lock can be made, as in a folder that is read-only, that is
    /// said and no more: a state that cannot be written either is told at the first save.
    pub fn open(given: &OsStr) -> Result<StateFile, Failure> {
        if given.is_empty() {
            return Err(Failure::Usage("the state file has no name".to_string()));
        }
        let given = PathBuf::from(given);
        let target = resolved(&given).map_err(|error| failed(&given, &error))?;
        let kind = fs::metadata(&target).ok();
        if kind.as_ref().is_some_and(fs::Metadata::is_dir) {
            return Err(failed(&given, &ErrorKind::IsADirectory.into()));
        }
        let direct = kind.is_some_and(|kind| !kind.is_file());
        let lock = match direct {
            true => None,
            false => lock(&given, &target)?,
        };
        if direct {
            output::complain(&format!(
                "{}: it is no regular file: the state is written there, and not read",
                given.display()
            ));
        }
        Ok(StateFile {
            given,
            target,
            direct,
            _lock: lock,
        })
    }

    /// What it holds; none where there is no such file.
    pub fn read(&self) -> Result<Option<Vec<u8>>, Failure> {
        if self.direct {
            return Ok(None);
        }
        let mut bytes = Vec::new();
        let opened = File::open(&self.target);
        match opened.and_then(|file| file.take(LONGEST + 1).read_to_end(&mut bytes)) {
            Ok(_) if bytes.len() as u64 > LONGEST => {
                Err(self.refused(&format!("there are more than {LONGEST} bytes")))
            }
            Ok(_) => Ok(Some(bytes)),
            Err(error) if error.kind() == ErrorKind::NotFound => Ok(None),
            Err(error) => Err(failed(&self.given, &error)),
        }
    }

    /// Writes a state whole or not at all, and returns when it is on the disk.
    pub fn write(&self, text: &str) -> Result<(), Failure> {
        let written = match self.direct {
            true => write_directly(&self.target, text.as_bytes()),
            false => replace(&self.target, ".new", text.as_bytes(), true),
        };
        let name = self.given.display();
        written.map_err(|error| Failure::Files(format!("not saved: {name}: {error}")))
    }

    /// The refusal of what the file holds; the file is left alone.
    pub fn refused(&self, message: &str) -> Failure {
        Failure::Refused(format!(
            "{}: {message}; the file is left as it is: move it away to begin anew",
            self.given.display()
        ))
    }
}

fn failed(file: &Path, error: &io::Error) -> Failure {
    Failure::Files(format!("{}: {error}", file.display()))
}

fn lock(given: &Path, target: &Path) -> Result<Option<File>, Failure> {
    let name = beside(target, ".lock");
    let mut options = OpenOptions::new();
    options.read(true).write(true).create(true).truncate(false);
    // A lock file of another user may be open to reading only, which is enough.
    let opened = options.open(&name).or_else(|_| File::open(&name));
    let fault = match opened.map(|file| (file.try_lock(), file)) {
        Ok((Ok(()), file)) => return Ok(Some(file)),
        Ok((Err(TryLockError::WouldBlock), _)) => {
            return Err(Failure::Refused(format!(
                "{}: another process has this state: {} is locked",
                given.display(),
                name.display()
            )));
        }
        Ok((Err(TryLockError::Error(error)), _)) | Err(error) => error,
    };
    output::complain(&format!(
        "{}: {fault}: a second process on this state would not be noticed",
        name.display()
    ));
    Ok(None)
}
