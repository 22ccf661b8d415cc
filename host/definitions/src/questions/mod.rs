//! Chosen questions: texts, records and names written down by hand, each with a comment that says
//! what it shows.

mod file;
mod spelled;

use std::fs;
use std::path::{Path, PathBuf};

pub use file::{Asked, Call, File, Lent};

/// The folder of the chosen questions.
pub fn folder() -> PathBuf {
    Path::new(env!("CARGO_MANIFEST_DIR")).join("chosen")
}

/// The files of a folder in the order of their names.
pub fn files(chosen: &Path) -> Result<Vec<(String, File)>, String> {
    let told = |error| format!("{}: {error}", chosen.display());
    let mut paths = Vec::new();
    for entry in fs::read_dir(chosen).map_err(told)? {
        paths.push(entry.map_err(told)?.path());
    }
    paths.sort();
    let read = |path: &Path| {
        let name = path.file_name().unwrap_or_default().to_string_lossy();
        let text = fs::read_to_string(path).map_err(|error| format!("{name}: {error}"))?;
        let file = file::parse(&text).map_err(|error| format!("{name}, {error}"))?;
        Ok((name.into_owned(), file))
    };
    paths.iter().map(|path| read(path)).collect()
}
