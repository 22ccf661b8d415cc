//! The files that are read, and how they are named in messages.

use std::ffi::{OsStr, OsString};
use std::fs::{self, File};
use std::io::{self, Read};
use std::path::{Path, PathBuf};

use crate::session::Stop;
use crate::width;

/// What is read: standard input, or a file.
#[derive(Clone, Debug, Eq, PartialEq)]
pub enum Source {
    /// Standard input, which is given as `-`.
    Input,
    /// A file of this name.
    File(PathBuf),
}

impl Source {
    /// What an operand stands for.
    pub fn of(operand: &OsStr) -> Self {
        match operand.to_str() {
            Some("-") => Self::Input,
            _ => Self::File(operand.into()),
        }
    }

    /// Its name, safe to show.
    pub fn name(&self) -> String {
        match self {
            Self::Input => "standard input".to_string(),
            Self::File(path) => width::safe(&path.to_string_lossy()),
        }
    }

    /// Its name as an operand has it, for programs; `-` is standard input.
    pub fn operand(&self) -> String {
        match self {
            Self::Input => "-".to_string(),
            Self::File(path) => path.to_string_lossy().into_owned(),
        }
    }

    /// Puts the bytes in place of what the buffer had, at most so many.
    pub fn load(&self, bytes: &mut Vec<u8>, most: u64) -> io::Result<()> {
        bytes.clear();
        match self {
            Self::Input => io::stdin().lock().take(most).read_to_end(bytes)?,
            Self::File(path) => {
                let file = File::open(path)?;
                let length = file.metadata()?.len().min(most);
                bytes.reserve(length as usize + 1);
                file.take(most).read_to_end(bytes)?
            }
        };
        Ok(())
    }

    /// The bytes of a text: one more than a text may have tells that there are too many.
    pub fn load_text(&self, bytes: &mut Vec<u8>) -> io::Result<()> {
        self.load(bytes, nexus::TEXT_LIMIT as u64 + 1)
    }

    /// All bytes.
    pub fn whole(&self) -> io::Result<Vec<u8>> {
        let mut bytes = Vec::new();
        self.load(&mut bytes, u64::MAX)?;
        Ok(bytes)
    }

    /// What is said where it cannot be read.
    pub fn unread(&self, error: &io::Error) -> String {
        format!("{} cannot be read: {}", self.name(), said(error))
    }
}

/// The sources of some operands, of which only one may be standard input.
pub fn sources(operands: &[OsString], verb: &str) -> Result<Vec<Source>, Stop> {
    let sources: Vec<Source> = operands.iter().map(|o| Source::of(o)).collect();
    let inputs = sources.iter().filter(|s| **s == Source::Input);
    match inputs.count() {
        0 | 1 => Ok(sources),
        _ => Err(Stop::wrong("`-` is given twice", Some(verb))),
    }
}

/// What an error of the system says, without its number.
pub fn said(error: &io::Error) -> String {
    let whole = error.to_string();
    match whole.rfind(" (os error ") {
        Some(at) => whole[..at].to_string(),
        None => whole,
    }
}

/// The endings by which the files of a folder are taken.
pub const ENDINGS: [&str; 3] = ["nex", "nexus", "nxs"];

/// Does a file of a folder have such an ending?
fn is_nexus(path: &Path) -> bool {
    let ending = path.extension().and_then(OsStr::to_str);
    ending.is_some_and(|ending| ENDINGS.iter().any(|e| e.eq_ignore_ascii_case(ending)))
}

/// The files in a folder and in those within it, in the order of their names; all of them, or those
/// with the endings of NEXUS. Folders that are only linked to are not entered.
pub fn in_folder(folder: &Path, all: bool, found: &mut Vec<Walked>) {
    let entries = match fs::read_dir(folder).and_then(Iterator::collect::<io::Result<Vec<_>>>) {
        Ok(entries) => entries,
        Err(error) => return found.push(Err((folder.to_path_buf(), error))),
    };
    let mut paths: Vec<PathBuf> = entries.iter().map(fs::DirEntry::path).collect();
    paths.sort();
    for path in paths {
        match kind(&path) {
            Kind::Folder => in_folder(&path, all, found),
            Kind::File if all || is_nexus(&path) => found.push(Ok(path)),
            _ => {}
        }
    }
}

/// A file that a walk has found, or a folder that it could not enter.
pub type Walked = Result<PathBuf, (PathBuf, io::Error)>;

enum Kind {
    File,
    Folder,
    Other,
}

/// What an entry of a folder is. One that cannot be asked is taken as a file, and said to be
/// unreadable when it is read.
fn kind(path: &Path) -> Kind {
    let linked = fs::symlink_metadata(path).is_ok_and(|m| m.file_type().is_symlink());
    match fs::metadata(path) {
        Ok(m) if m.is_dir() && !linked => Kind::Folder,
        Ok(m) if m.is_file() => Kind::File,
        Ok(_) => Kind::Other,
        Err(_) => Kind::File,
    }
}

#[cfg(test)]
mod tests {
    use super::*;

    #[test]
    fn endings() {
        for name in ["a.nex", "b/c.NEXUS", "d.e.nxs", "é ü.Nex"] {
            assert!(is_nexus(Path::new(name)), "{name}");
        }
        for name in ["nex", ".nex", "a.nex.record", "a.txt", "a"] {
            assert!(!is_nexus(Path::new(name)), "{name}");
        }
    }

    #[test]
    fn errors_are_said_without_numbers() {
        let error = Source::File("not/there".into()).whole().expect_err("none");
        assert_eq!(said(&error), "No such file or directory");
        assert_eq!(said(&io::Error::other("why")), "why");
    }
}
