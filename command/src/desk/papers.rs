//! The files of the folder that the desk reads, and those that it saves. None has another name, lies in another
//! folder or is reached by a link.

use crate::files::{self, Unread};
use std::fs::{self, File};
use std::io::{self, ErrorKind};
use std::os::unix::fs::MetadataExt;
use std::path::{Path, PathBuf};

pub const GIVEN: &str = "given";
pub const MARKS: &str = "marks";
pub const CONDITION: &str = "condition";
pub const START: &str = "start";

/// A review, and one of several, with a name behind it.
pub const REVIEW: &str = "conditions";
const NAMED_REVIEW: &str = "conditions-";

/// The most letters of a review's name.
const MOST_LETTERS: usize = 32;

fn is_review(name: &str) -> bool {
    let is_letter = |c: char| c.is_ascii_lowercase() || c.is_ascii_digit() || c == '-' || c == '_';
    let named = name.strip_prefix(NAMED_REVIEW);
    name == REVIEW
        || named.map_or(false, |name| {
            (1..=MOST_LETTERS).contains(&name.len()) && name.chars().all(is_letter)
        })
}

/// Whether a file of this name may be written.
pub fn is_saved(name: &str) -> bool {
    [MARKS, CONDITION, START].contains(&name) || is_review(name)
}

/// Whether a file of this name may be read.
pub fn is_read(name: &str) -> bool {
    name == GIVEN || is_saved(name)
}

fn no_file() -> io::Error {
    io::Error::new(ErrorKind::Other, "a link, or no file")
}

/// The folder, wherever its name leads to later.
pub struct Papers {
    folder: PathBuf,
}

impl Papers {
    pub fn new(folder: &Path) -> io::Result<Papers> {
        Ok(Papers { folder: fs::canonicalize(folder)? })
    }

    /// The folder's own name.
    pub fn name(&self) -> String {
        files::shown(self.folder.file_name().map_or(&self.folder, Path::new))
    }

    /// The bytes of a file, or none where there is none.
    pub fn read(&self, name: &str) -> Result<Option<Vec<u8>>, Unread> {
        let path = self.folder.join(name);
        let there = match fs::symlink_metadata(&path) {
            Ok(there) => there,
            Err(error) if error.kind() == ErrorKind::NotFound => return Ok(None),
            Err(error) => return Err(Unread::Missing(error)),
        };
        if !there.is_file() {
            return Err(Unread::Broken(no_file()));
        }
        let file = File::open(&path).map_err(Unread::Missing)?;
        // It is the one that was looked at, and no other that took its place since.
        let opened = file.metadata().map_err(Unread::Broken)?;
        if (opened.dev(), opened.ino()) != (there.dev(), there.ino()) {
            return Err(Unread::Broken(no_file()));
        }
        files::read_open(file, files::MOST_BYTES).map(Some)
    }

    /// Puts these bytes into a file, all of them or none.
    pub fn save(&self, name: &str, bytes: &[u8]) -> io::Result<()> {
        files::replace_plain(&self.folder.join(name), bytes)
    }

    /// The names of the reviews.
    pub fn reviews(&self) -> Vec<String> {
        let entries = fs::read_dir(&self.folder).into_iter().flatten().flatten();
        let names = entries.filter_map(|entry| entry.file_name().into_string().ok());
        let mut reviews: Vec<String> = names.filter(|name| is_review(name)).collect();
        reviews.sort();
        reviews
    }
}
