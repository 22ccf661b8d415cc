//! A repository outside of this one that holds the definitions' crates, already proved, and
//! crates of cases over them. The crates that are checked side by side stand in one folder,
//! crates/cases0 and so on.

use std::fs;
use std::io;
use std::path::{Path, PathBuf};
use std::process::{Command, Stdio};

/// The crate that has the runners.
const RECORD: &str = "record";

pub struct Scratch {
    folder: PathBuf,
    kept: bool,
    /// The lines of its crates.txt.
    lines: Vec<String>,
    /// What a crate of cases rests on.
    rests_on: String,
    /// How many folders of crates there are, and how many crates.
    folders: usize,
    crates: usize,
}

/// Crates that are checked side by side: their folder, and their names.
pub struct Group {
    folder: PathBuf,
    pub names: Vec<String>,
}

impl Scratch {
    /// Proves the definitions in their own repository, and copies them with what was proved.
    pub fn new(repository: &Path, keep: Option<&Path>) -> Result<Self, String> {
        let listed = fs::read_to_string(repository.join("crates.txt"))
            .map_err(|error| format!("crates.txt: {error}"))?;
        let lines = lines_below(&listed, RECORD);
        let names: Vec<&str> = lines.iter().filter_map(|line| name_of(line)).collect();
        let proved = repository.join("crates").join(RECORD);
        let (output, well) = rt(&proved, &["lib"])?;
        if !well {
            return Err(format!("{output}the definitions are not proved"));
        }
        let scratch = Self {
            folder: new_folder(keep)?,
            kept: keep.is_some(),
            rests_on: names.iter().rev().map(|name| format!(" {name}")).collect(),
            lines: lines.iter().map(|line| line.to_string()).collect(),
            folders: 0,
            crates: 0,
        };
        for name in names {
            scratch
                .copy_crate(repository, name)
                .map_err(|error| format!("the crate {name} could not be copied: {error}"))?;
        }
        Ok(scratch)
    }

    /// Copies a crate's files, and the library that was built of it.
    fn copy_crate(&self, repository: &Path, name: &str) -> io::Result<()> {
        let folder = Path::new("crates").join(name);
        for part in ["src", "specs", "proofs", "out/rlib"] {
            let part = folder.join(part);
            copy(&repository.join(&part), &self.folder.join(&part))?;
        }
        Ok(())
    }

    /// Writes crates, each with these modules.
    pub fn add(&mut self, crates: &[Vec<String>]) -> Result<Group, String> {
        let folder = format!("cases{}", self.folders);
        self.folders += 1;
        let mut group = Group {
            folder: self.folder.join("crates").join(&folder),
            names: Vec::new(),
        };
        for modules in crates {
            let name = format!("vectors{}", self.crates);
            self.crates += 1;
            let line = format!("{folder}/{name}:{}", self.rests_on);
            self.lines.push(line);
            self.write_crate(&group.folder.join(&name), modules)
                .map_err(|error| format!("the crate {name} could not be written: {error}"))?;
            group.names.push(name);
        }
        Ok(group)
    }

    fn write_crate(&self, folder: &Path, modules: &[String]) -> io::Result<()> {
        fs::create_dir_all(folder.join("src"))?;
        fs::create_dir_all(folder.join("specs"))?;
        fs::write(
            folder.join("src/lib.rt"),
            "// Cases alone.\n\n#![tactic(auto)]\n",
        )?;
        let mut root = String::new();
        for (number, module) in modules.iter().enumerate() {
            root += &format!("pub mod V{number}\n");
            fs::write(folder.join(format!("specs/V{number}.antt")), module)?;
        }
        fs::write(folder.join("specs/Lib.antt"), root)?;
        fs::write(self.folder.join("crates.txt"), self.lines.join("\n") + "\n")
    }

    /// What rt prints of these crates, so many at a time.
    pub fn check(&self, group: &Group, jobs: usize) -> Result<String, String> {
        let jobs = jobs.to_string();
        Ok(rt(&group.folder, &["all", "check", "--jobs", &jobs])?.0)
    }

    /// What rt prints of crates with holes.
    pub fn goals(&self, group: &Group) -> Result<String, String> {
        let mut printed = String::new();
        for name in &group.names {
            printed += &rt(&group.folder.join(name), &["check", "--allow-holes"])?.0;
        }
        Ok(printed)
    }
}

impl Drop for Scratch {
    fn drop(&mut self) {
        if !self.kept {
            // What cannot be removed stays in the folder for temporary files.
            let _ = fs::remove_dir_all(&self.folder);
        }
    }
}

/// What rt prints, and whether all was well.
fn rt(folder: &Path, words: &[&str]) -> Result<(String, bool), String> {
    let output = Command::new("rt")
        .args(words)
        .current_dir(folder)
        .stdin(Stdio::null())
        .output()
        .map_err(|error| format!("rt could not be started: {error}"))?;
    let printed = [output.stdout, output.stderr].concat();
    let printed = String::from_utf8_lossy(&printed).into_owned();
    Ok((printed, output.status.success()))
}

/// The folder to keep, which must be empty, or a new one for temporary files.
fn new_folder(keep: Option<&Path>) -> Result<PathBuf, String> {
    let Some(folder) = keep else {
        return temporary_folder().map_err(|error| format!("no scratch folder: {error}"));
    };
    let made = fs::create_dir_all(folder).and_then(|()| fs::read_dir(folder));
    let mut entries = made.map_err(|error| format!("{}: {error}", folder.display()))?;
    match entries.next() {
        None => Ok(folder.to_path_buf()),
        Some(_) => Err(format!("{} is not empty", folder.display())),
    }
}

fn temporary_folder() -> io::Result<PathBuf> {
    let (parent, process) = (std::env::temp_dir(), std::process::id());
    let mut number = 0;
    loop {
        let folder = parent.join(format!("check-definitions-{process}-{number}"));
        match fs::create_dir(&folder) {
            Err(error) if error.kind() == io::ErrorKind::AlreadyExists => number += 1,
            made => return made.map(|()| folder),
        }
    }
}

/// Copies a file or a folder.
fn copy(from: &Path, to: &Path) -> io::Result<()> {
    if !from.is_dir() {
        fs::create_dir_all(to.parent().expect("a file in a folder"))?;
        return fs::copy(from, to).map(|_| ());
    }
    fs::create_dir_all(to)?;
    for entry in fs::read_dir(from)? {
        let name = entry?.file_name();
        copy(&from.join(&name), &to.join(&name))?;
    }
    Ok(())
}

/// The crate that a line of crates.txt lists.
fn name_of(line: &str) -> Option<&str> {
    let line = line.split('#').next()?;
    Some(line.split_once(':')?.0.trim())
}

/// What the crate rests on, in the line's order.
fn rests_on(line: &str) -> Vec<&str> {
    let line = line.split('#').next().unwrap_or_default();
    let (_, crates) = line.split_once(':').unwrap_or_default();
    crates.split_whitespace().collect()
}

/// The lines of this crate and of those that it rests on, as they are listed.
fn lines_below<'a>(listed: &'a str, name: &'a str) -> Vec<&'a str> {
    let line_of = |name| listed.lines().find(|line| name_of(line) == Some(name));
    let mut found: Vec<&str> = Vec::new();
    let mut left = vec![name];
    while let Some(name) = left.pop() {
        if let Some(line) = line_of(name).filter(|line| !found.contains(line)) {
            found.push(line);
            left.extend(rests_on(line));
        }
    }
    let listed = listed.lines().filter(|line| found.contains(line));
    listed.collect()
}

#[cfg(test)]
mod tests {
    use super::*;

    #[test]
    fn only_what_a_crate_rests_on_is_taken() {
        let listed = "# a comment: not a crate\nlexer:\nblock: lexer\n\
                      record: block lexer io # why\nnexus: record io libc\n";
        let lines = lines_below(listed, "record");
        let expected = ["lexer:", "block: lexer", "record: block lexer io # why"];
        assert_eq!(lines, expected);
        assert_eq!(name_of(expected[2]), Some("record"));
        assert_eq!(rests_on(expected[2]), ["block", "lexer", "io"]);
    }
}
