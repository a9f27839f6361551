//! Files: read whole within their limit, and replaced whole.

use crate::fault::grouped;
use crate::output::{reason, Unwritten};
use std::fs::{self, File};
use std::io::{self, Read, Write};
use std::path::{Path, PathBuf};

/// The most bytes of a file that is read.
pub const MOST_BYTES: usize = 65_535;

/// A text with the name by which messages call it.
#[derive(Clone)]
pub struct Text {
    pub name: String,
    pub bytes: Vec<u8>,
}

/// Why a file isn't read.
#[derive(Debug)]
pub enum Unread {
    /// It can't be opened.
    Missing(io::Error),
    /// It can't be read to its end.
    Broken(io::Error),
    /// It has more bytes than so many, the most that it may have.
    Long(usize),
    /// It has so many bytes, fewer than it needs.
    Short(usize),
}

impl Unread {
    /// Why, in words.
    pub fn reason(&self) -> String {
        match self {
            Unread::Missing(error) | Unread::Broken(error) => reason(error),
            Unread::Long(most) => format!("over {} bytes", grouped(*most)),
            Unread::Short(bytes) => format!("{} bytes", grouped(*bytes)),
        }
    }
}

/// A path as messages show it: on one line, whatever bytes it has.
pub fn shown(path: &Path) -> String {
    let shown = |c: char| if c.is_control() { c.escape_default().to_string() } else { c.into() };
    path.to_string_lossy().chars().map(shown).collect()
}

/// The bytes of a file.
pub fn read(path: &Path) -> Result<Vec<u8>, Unread> {
    read_at_most(path, MOST_BYTES)
}

fn read_at_most(path: &Path, most: usize) -> Result<Vec<u8>, Unread> {
    read_open(File::open(path).map_err(Unread::Missing)?, most)
}

/// The bytes of a file that is open, at most so many.
pub fn read_open(file: File, most: usize) -> Result<Vec<u8>, Unread> {
    let mut bytes = Vec::new();
    // One byte more than the most is enough to tell that a file is longer.
    file.take(most as u64 + 1).read_to_end(&mut bytes).map_err(Unread::Broken)?;
    if bytes.len() > most {
        return Err(Unread::Long(most));
    }
    Ok(bytes)
}

/// The bytes of a file that has exactly so many.
pub fn read_exactly(path: &Path, count: usize) -> Result<Vec<u8>, Unread> {
    let bytes = read_at_most(path, count)?;
    if bytes.len() < count {
        return Err(Unread::Short(bytes.len()));
    }
    Ok(bytes)
}

/// Puts these bytes into a file, all of them or none: they are written beside its place, and take
/// it when they are on the disk. What isn't a file, such as a pipe, is written to where it is.
pub fn replace(path: &Path, bytes: &[u8]) -> Result<(), Unwritten> {
    let replaced = match fs::metadata(path) {
        Ok(there) if there.is_file() => {
            // A link stays one, and the file that it leads to is replaced.
            fs::canonicalize(path).and_then(|place| rename_over(&place, Some(there), bytes))
        }
        Ok(_) => File::options().write(true).open(path).and_then(|mut it| it.write_all(bytes)),
        Err(error) if error.kind() == io::ErrorKind::NotFound => rename_over(path, None, bytes),
        Err(error) => Err(error),
    };
    replaced.map_err(|error| Unwritten { place: shown(path), error })
}

/// The same for a file in its own place. A link there, or what isn't a file, stays as it is.
pub fn replace_plain(path: &Path, bytes: &[u8]) -> io::Result<()> {
    match fs::symlink_metadata(path) {
        Ok(there) if there.is_file() => rename_over(path, Some(there), bytes),
        Ok(_) => Err(io::Error::new(io::ErrorKind::Other, "a link, or no file")),
        Err(error) if error.kind() == io::ErrorKind::NotFound => rename_over(path, None, bytes),
        Err(error) => Err(error),
    }
}

fn rename_over(place: &Path, there: Option<fs::Metadata>, bytes: &[u8]) -> io::Result<()> {
    let folder = match place.parent() {
        Some(folder) if folder != Path::new("") => folder,
        _ => Path::new("."),
    };
    // A new file in a folder of its own gets the permissions that any new file gets.
    let beside = tempfile::Builder::new().prefix(".rewrites-").tempdir_in(folder)?;
    let new: PathBuf = beside.path().join("new");
    let mut file = File::create(&new)?;
    file.write_all(bytes)?;
    if let Some(there) = there {
        file.set_permissions(there.permissions())?;
    }
    file.sync_all()?;
    fs::rename(&new, place)
}
