//! Files in and out.

use crate::Failure;
use std::ffi::{OsStr, OsString};
use std::fmt;
use std::fs::{self, File, Permissions};
use std::io::{self, Read, Write};
use std::path::{Path, PathBuf};
use std::process;

/// A file, or standard input or output.
pub enum Place {
    Standard,
    Path(PathBuf),
}

impl Place {
    pub fn of(name: &OsStr) -> Place {
        if name == "-" {
            return Place::Standard;
        }
        Place::Path(PathBuf::from(name))
    }
}

impl Place {
    /// Whether both are one file.
    pub fn is_same(&self, other: &Place) -> bool {
        match (self, other) {
            (Place::Path(one), Place::Path(two)) => {
                match (fs::canonicalize(one), fs::canonicalize(two)) {
                    (Ok(one), Ok(two)) => one == two && one.is_file(),
                    _ => false,
                }
            }
            _ => false,
        }
    }
}

impl fmt::Display for Place {
    fn fmt(&self, formatter: &mut fmt::Formatter<'_>) -> fmt::Result {
        match self {
            Place::Standard => write!(formatter, "-"),
            Place::Path(path) => write!(formatter, "{}", path.display()),
        }
    }
}

/// No text that is accepted is so long. A longer file is refused for its first bytes, so no more of
/// it is read.
const MOST_BYTES: u64 = 1 << 20;

pub fn failed(name: impl fmt::Display, error: &io::Error) -> Failure {
    Failure::Failed(format!("{name}: {error}"))
}

/// The bytes of a file or of standard input.
pub fn read(place: &Place) -> Result<Vec<u8>, Failure> {
    let result = match place {
        Place::Standard => read_some(io::stdin().lock()),
        Place::Path(path) => File::open(path).and_then(read_some),
    };
    result.map_err(|error| failed(place, &error))
}

fn read_some(file: impl Read) -> io::Result<Vec<u8>> {
    let mut bytes = Vec::new();
    file.take(MOST_BYTES).read_to_end(&mut bytes)?;
    Ok(bytes)
}

/// The bytes of a file, or none where there is no such file.
pub fn read_if_there(path: &Path) -> Result<Option<Vec<u8>>, Failure> {
    match File::open(path).and_then(read_some) {
        Ok(bytes) => Ok(Some(bytes)),
        Err(error) if error.kind() == io::ErrorKind::NotFound => Ok(None),
        Err(error) => Err(failed(path.display(), &error)),
    }
}

/// Writes to standard output.
pub fn print(bytes: &[u8]) -> Result<(), Failure> {
    let mut output = io::stdout().lock();
    let written = output.write_all(bytes).and_then(|()| output.flush());
    written.map_err(|error| match error.kind() {
        io::ErrorKind::BrokenPipe => Failure::Unread,
        _ => failed("standard output", &error),
    })
}

/// Writes a file whole, or leaves what there is.
pub fn write(place: &Place, bytes: &[u8]) -> Result<(), Failure> {
    match place {
        Place::Standard => print(bytes),
        Place::Path(path) => replace(path, bytes).map_err(|error| failed(place, &error)),
    }
}

/// Writes the bytes beside the file, then renames: whatever happens in between, the file is the old
/// one or the new one whole. A device or a pipe is written to as it is.
fn replace(path: &Path, bytes: &[u8]) -> io::Result<()> {
    // the file behind a symbolic link is replaced, not the link
    let path = fs::canonicalize(path).unwrap_or_else(|_| path.to_path_buf());
    let permissions = match fs::metadata(&path) {
        Ok(metadata) if metadata.is_file() => Some(metadata.permissions()),
        Ok(_) => return fs::write(path, bytes),
        Err(_) => None,
    };
    let part = beside(&path);
    let result = write_part(&part, bytes, permissions).and_then(|()| fs::rename(&part, &path));
    match result {
        Ok(()) => sync_folder(&path),
        Err(_) => drop(fs::remove_file(&part)),
    }
    result
}

/// The name under which a file is written before it is renamed: no other process at work has it.
fn beside(path: &Path) -> PathBuf {
    let mut name = OsString::from(path.file_name().unwrap_or(OsStr::new("")));
    name.push(format!(".{}.part", process::id()));
    path.with_file_name(name)
}

/// Writes a file so that its bytes are on the disk before its new name is.
fn write_part(part: &Path, bytes: &[u8], permissions: Option<Permissions>) -> io::Result<()> {
    let mut file = File::create(part)?;
    if let Some(permissions) = permissions {
        file.set_permissions(permissions)?;
    }
    file.write_all(bytes)?;
    file.sync_all()
}

/// Brings the new name to the disk. Not every kind of file system can; the file is whole anyway.
fn sync_folder(path: &Path) {
    let folder = match path.parent() {
        Some(folder) if folder != Path::new("") => folder,
        _ => Path::new("."),
    };
    let _ = File::open(folder).and_then(|folder| folder.sync_all());
}
