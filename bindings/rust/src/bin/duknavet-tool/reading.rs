//! Bytes and lines of files and of standard input, which can be read once; what was read is not written over.

use crate::command::Failure;
use std::ffi::OsStr;
use std::fs::{File, Metadata};
use std::io::{self, BufRead, BufReader, Read, Split, StdinLock};
use std::os::fd::AsFd as _;
use std::os::unix::fs::MetadataExt as _;
use std::sync::atomic::{AtomicBool, Ordering};
use std::sync::Mutex;

/// The most bytes that are read of one file.
const MOST: u64 = 4 << 20;

/// A name as messages show it.
pub fn shown(name: &OsStr) -> String {
    match name == "-" {
        true => "standard input".to_string(),
        false => name.to_string_lossy().into_owned(),
    }
}

/// The regular files that were read, by device and number.
static INPUTS: Mutex<Vec<(u64, u64)>> = Mutex::new(Vec::new());

/// Notes a file that is read, so that it is not written over.
pub fn note_input(found: io::Result<Metadata>) {
    let found = found.ok().filter(Metadata::is_file);
    if let (Some(found), Ok(mut inputs)) = (found, INPUTS.lock()) {
        inputs.push((found.dev(), found.ino()));
    }
}

/// Whether a file is one that was read.
pub fn was_read(found: &Metadata) -> bool {
    let inputs = INPUTS.lock();
    inputs.is_ok_and(|inputs| inputs.contains(&(found.dev(), found.ino())))
}

/// All bytes of a file, or of standard input for `-`, which can be read once.
pub fn contents(name: &OsStr) -> Result<Vec<u8>, Failure> {
    let fault = |error: io::Error| Failure::Files(format!("{}: {error}", shown(name)));
    let mut bytes = Vec::new();
    if name == "-" {
        let input = standard_input()?;
        if let Ok(own) = io::stdin().as_fd().try_clone_to_owned() {
            note_input(File::from(own).metadata());
        }
        input
            .take(MOST + 1)
            .read_to_end(&mut bytes)
            .map_err(fault)?;
    } else {
        let file = File::open(name).map_err(fault)?;
        note_input(file.metadata());
        file.take(MOST + 1).read_to_end(&mut bytes).map_err(fault)?;
    }
    if bytes.len() as u64 > MOST {
        let message = format!("{}: there are more than {MOST} bytes", shown(name));
        return Err(Failure::Files(message));
    }
    Ok(bytes)
}

/// The lines of a file, or of standard input for `-`, as they come.
pub fn lines(name: &OsStr) -> Result<Split<Box<dyn BufRead>>, Failure> {
    let input: Box<dyn BufRead> = match name == "-" {
        true => Box::new(standard_input()?),
        false => {
            let file = File::open(name);
            let fault = |error| Failure::Files(format!("{}: {error}", shown(name)));
            Box::new(BufReader::new(file.map_err(fault)?))
        }
    };
    Ok(input.split(b'\n'))
}

/// Standard input, which can be read once.
fn standard_input() -> Result<StdinLock<'static>, Failure> {
    static READ: AtomicBool = AtomicBool::new(false);
    if READ.swap(true, Ordering::Relaxed) {
        let message = "standard input can be read once, and `-` stands twice";
        return Err(Failure::Usage(message.to_string()));
    }
    Ok(io::stdin().lock())
}

/// A text in UTF-8.
pub fn decoded(name: &str, bytes: Vec<u8>) -> Result<String, Failure> {
    String::from_utf8(bytes)
        .map_err(|_| Failure::Refused(format!("{name}: the text is not in UTF-8")))
}
