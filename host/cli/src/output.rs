//! A folder that results are written to, each whole or not at all.

use std::collections::HashMap;
use std::ffi::{OsStr, OsString};
use std::fs;
use std::io;
use std::os::unix::fs::MetadataExt;
use std::path::{Path, PathBuf};

use crate::files::{Source, said};
use crate::session::Stop;
use crate::width;

/// The folder, the files that are read, and the names that were given away.
pub struct Folder {
    path: PathBuf,
    ending: &'static str,
    inputs: Vec<Identity>,
    taken: HashMap<OsString, String>,
}

/// What tells a file from others: its device and its number there.
type Identity = (u64, u64);

impl Folder {
    /// The folder, which is made where it is not there, for the results of these sources. A result
    /// has the name of its source and this ending.
    pub fn open(path: &OsStr, ending: &'static str, sources: &[Source]) -> Result<Self, Stop> {
        let path = PathBuf::from(path);
        fs::create_dir_all(&path).map_err(|error| {
            let name = shown(&path);
            Stop::Failed(format!(
                "the folder {name} cannot be made: {}",
                said(&error)
            ))
        })?;
        let files = sources.iter().filter_map(|source| match source {
            Source::Input => None,
            Source::File(path) => identity(path),
        });
        Ok(Self {
            path,
            ending,
            inputs: files.collect(),
            taken: HashMap::new(),
        })
    }

    /// The file for the result of a source, or why there is none: another source has its name, or
    /// it is one that is read.
    pub fn claim(&mut self, source: &Source) -> Result<PathBuf, String> {
        let mut name = match source {
            Source::Input => OsString::from("stdin"),
            Source::File(path) => path.file_name().unwrap_or_default().to_os_string(),
        };
        name.push(self.ending);
        let target = self.path.join(&name);
        if let Some(other) = self.taken.get(&name) {
            return Err(format!(
                "{} is not read: {} is for {other}, which has the same name",
                source.name(),
                shown(&target)
            ));
        }
        if identity(&target).is_some_and(|target| self.inputs.contains(&target)) {
            return Err(format!(
                "{} is not read: its result would be written over {}, which is read too",
                source.name(),
                shown(&target)
            ));
        }
        self.taken.insert(name, source.name());
        Ok(target)
    }
}

/// Writes the bytes under a name of their own and then gives them the file's name, so that nobody
/// finds a part of them there.
pub fn write_whole(target: &Path, bytes: &[u8]) -> Result<(), String> {
    let mut name = OsString::from(".");
    name.push(target.file_name().unwrap_or_default());
    name.push(format!(".{}", std::process::id()));
    let unfinished = target.with_file_name(name);
    let written = fs::write(&unfinished, bytes).and_then(|()| fs::rename(&unfinished, target));
    written.map_err(|error: io::Error| {
        let _ = fs::remove_file(&unfinished);
        format!("{} cannot be written: {}", shown(target), said(&error))
    })
}

fn identity(path: &Path) -> Option<Identity> {
    let metadata = fs::metadata(path).ok()?;
    Some((metadata.dev(), metadata.ino()))
}

fn shown(path: &Path) -> String {
    width::safe(&path.to_string_lossy())
}
