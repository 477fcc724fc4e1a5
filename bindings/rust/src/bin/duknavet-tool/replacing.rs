//! Files that are replaced as a whole: links are followed, and the new one stands beside the old until it is on the disk.

use std::ffi::{OsStr, OsString};
use std::fs::{self, File, OpenOptions};
use std::io::{self, Write as _};
use std::os::unix::fs::{fchown, MetadataExt as _, OpenOptionsExt as _};
use std::path::{Path, PathBuf};

/// As many links as are followed to a file that is not there yet.
const MOST_LINKS: usize = 40;

/// The file that a name leads to, which need not be there.
pub fn resolved(given: &Path) -> io::Result<PathBuf> {
    let mut name = given.to_path_buf();
    for _ in 0..MOST_LINKS {
        match fs::read_link(&name) {
            // A link that is not absolute is meant from the folder that it stands in.
            Ok(target) => name = folder(&name).join(target),
            // The folder's name may lead through links as well; where there is no such folder, the first save
            // says so.
            Err(_) => {
                let folder = fs::canonicalize(folder(&name));
                let file = name.file_name().map(OsStr::to_owned);
                return Ok(match folder.ok().zip(file) {
                    Some((folder, file)) => folder.join(file),
                    None => name,
                });
            }
        }
    }
    Err(io::Error::other("too many links lead to it"))
}

/// The folder that a file stands in.
fn folder(file: &Path) -> &Path {
    let named = file.parent().filter(|own| !own.as_os_str().is_empty());
    named.unwrap_or(Path::new("."))
}

pub fn beside(file: &Path, ending: &str) -> PathBuf {
    let mut name = OsString::from(file);
    name.push(ending);
    PathBuf::from(name)
}

/// Writes the new file beside the old, its name with an ending, and puts it in its place once it is written; `to_disk`, once it is
/// on the disk, and returns when the place is too.
pub fn replace(target: &Path, ending: &str, bytes: &[u8], to_disk: bool) -> io::Result<()> {
    let new = beside(target, ending);
    // One that an interrupted save left.
    let _ = fs::remove_file(&new);
    let replaced = write_new(&new, target, bytes, to_disk).and_then(|()| fs::rename(&new, target));
    if replaced.is_err() {
        let _ = fs::remove_file(&new);
    }
    replaced?;
    match to_disk {
        true => sync_folder(target),
        false => Ok(()),
    }
}

fn write_new(new: &Path, old: &Path, bytes: &[u8], to_disk: bool) -> io::Result<()> {
    let old = fs::metadata(old).ok();
    let mut options = OpenOptions::new();
    options.write(true).create_new(true);
    if old.is_some() {
        // Nobody reads it before it has the old one's mode.
        options.mode(0o600);
    }
    let mut file = options.open(new)?;
    file.write_all(bytes)?;
    if let Some(old) = old {
        // Only some may give a file away; for the others it is theirs already, or stays theirs.
        let _ = fchown(&file, Some(old.uid()), Some(old.gid()));
        file.set_permissions(old.permissions())?;
    }
    match to_disk {
        true => file.sync_all(),
        false => Ok(()),
    }
}

/// The new name is on the disk only when the folder is.
fn sync_folder(file: &Path) -> io::Result<()> {
    File::open(folder(file))?.sync_all()
}

/// Writes to what is no regular file, and cannot be replaced.
pub fn write_directly(target: &Path, bytes: &[u8]) -> io::Result<()> {
    let mut file = OpenOptions::new().write(true).open(target)?;
    file.write_all(bytes)
}
