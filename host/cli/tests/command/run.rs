//! Folders, and the command as it is run in them.

use std::ffi::OsStr;
use std::fs;
use std::io::Write;
use std::path::{Path, PathBuf};
use std::process::{Command, Output, Stdio};
use std::thread;

/// The command, as it was built.
pub const NEXUS: &str = env!("CARGO_BIN_EXE_nexus");

/// A folder that is removed in the end.
pub struct Folder(pub PathBuf);

impl Folder {
    /// An empty folder of this name, which no other test may use.
    pub fn new(name: &str) -> Self {
        let name = format!("command-{}-{name}", std::process::id());
        let folder = Path::new(env!("CARGO_TARGET_TMPDIR")).join(name);
        let _ = fs::remove_dir_all(&folder);
        fs::create_dir_all(&folder).expect("a folder");
        Self(folder)
    }

    /// Puts a file into it.
    #[track_caller]
    pub fn put(&self, name: impl AsRef<Path>, bytes: impl AsRef<[u8]>) -> PathBuf {
        let path = self.0.join(name);
        let parent = path.parent().expect("a folder");
        fs::create_dir_all(parent).expect("a folder");
        fs::write(&path, bytes).expect("a file");
        path
    }

    /// The command with these arguments, in this folder.
    pub fn nexus<I: IntoIterator<Item: AsRef<OsStr>>>(&self, arguments: I) -> Command {
        let mut command = plain(NEXUS);
        command.args(arguments).current_dir(&self.0);
        command
    }

    /// What the command does with these arguments and no input.
    #[track_caller]
    pub fn run<I: IntoIterator<Item: AsRef<OsStr>>>(&self, arguments: I) -> Done {
        finished(&mut self.nexus(arguments), b"")
    }

    /// The names of all that is in it, in order.
    pub fn names(&self) -> Vec<String> {
        let entries = fs::read_dir(&self.0).expect("a folder");
        let names = entries.map(|entry| entry.expect("an entry").file_name());
        let mut names: Vec<String> = names.map(|n| n.to_string_lossy().into_owned()).collect();
        names.sort();
        names
    }
}

impl Drop for Folder {
    fn drop(&mut self) {
        let _ = fs::remove_dir_all(&self.0);
    }
}

/// A command to which nothing is said by its surroundings.
pub fn plain(program: &str) -> Command {
    let mut command = Command::new(program);
    command.env_remove("COLUMNS").env_remove("NO_COLOR");
    command.env("TERM", "xterm").env("LC_ALL", "C");
    command
}

/// What a command has done.
#[derive(Debug, Eq, PartialEq)]
pub struct Done {
    /// The exit status.
    pub status: i32,
    /// Standard output.
    pub out: String,
    /// Standard error.
    pub err: String,
}

/// Runs a command with this input, which it need not read.
#[track_caller]
pub fn finished(command: &mut Command, input: &[u8]) -> Done {
    command.stdin(Stdio::piped());
    command.stdout(Stdio::piped()).stderr(Stdio::piped());
    let mut child = command.spawn().expect("the command starts");
    let mut pipe = child.stdin.take().expect("a pipe");
    let output: Output = thread::scope(|scope| {
        // The pipe may be closed before all of it was read.
        scope.spawn(move || pipe.write_all(input));
        child.wait_with_output().expect("the command ends")
    });
    Done {
        status: output.status.code().expect("no signal"),
        out: String::from_utf8(output.stdout).expect("UTF-8"),
        err: String::from_utf8(output.stderr).expect("UTF-8"),
    }
}
