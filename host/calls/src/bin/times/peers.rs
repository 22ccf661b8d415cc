//! Whole processes on the same files, by turns: `nexus read`, and other readers of NEXUS that are
//! installed; beside them the calls, the proved one and rove's `parse`.

use std::fs::{self, File};
use std::os::unix::process::ExitStatusExt;
use std::path::Path;
use std::process::{Command, ExitStatus};

use calls::Folder;
use nexus::Record;

use crate::process::{installed, run, silent};
use crate::{SHAPES, begin, reading};

/// The most runs of a program on one file. It has fewer once they take longer than `ENOUGH`.
const RUNS: usize = 20;

/// Seconds.
const ENOUGH: f64 = 4.0;

/// Seconds after which a program is stopped.
const LIMIT: f64 = 20.0;

/// A reader: its program, the package of Debian that has it, what stands before the file, and whether
/// what it printed agrees with the record.
struct Peer {
    program: &'static str,
    package: &'static str,
    arguments: &'static [&'static str],
    agrees: fn(&str, &Record) -> bool,
}

const PEERS: &[Peer] = &[
    Peer {
        program: "NEXUSvalidator",
        package: "ncl-tools",
        arguments: &[],
        agrees: |_, _| true,
    },
    Peer {
        program: "pxs2fa",
        package: "phyx",
        arguments: &["-s"],
        agrees: |printed, record| {
            let (names, rows) = printed
                .lines()
                .partition::<Vec<_>, _>(|l| l.starts_with('>'));
            let cells: usize = rows.iter().map(|row| row.len()).sum();
            let (taxa, characters) = (record.taxon_count(), record.character_count());
            names.len() == taxa && cells == taxa * characters
        },
    },
    Peer {
        program: "pxlssq",
        package: "phyx",
        arguments: &["-s"],
        agrees: |printed, record| {
            let taxa = format!("Number of sequences: {}", record.taxon_count());
            let characters = format!("Sequence length: {}", record.character_count());
            let has = |line: &str| printed.lines().any(|printed| printed == line);
            has(&taxa) && has(&characters)
        },
    },
];

/// What a program comes to on a file; times in seconds.
#[derive(Clone, Copy, PartialEq)]
enum Outcome {
    Read(f64),
    /// It gives another number of taxa or cells.
    Otherwise(f64),
    Refuses,
    Crashes,
    Beyond,
}

impl Outcome {
    fn shown(self) -> String {
        match self {
            Self::Read(seconds) => format!("{:.2}  ", seconds * 1e3),
            Self::Otherwise(seconds) => format!("{:.2} !", seconds * 1e3),
            Self::Refuses => "refuses  ".to_string(),
            Self::Crashes => "crashes  ".to_string(),
            Self::Beyond => format!("> {LIMIT} s  "),
        }
    }

    fn seconds(self) -> Option<f64> {
        match self {
            Self::Read(seconds) | Self::Otherwise(seconds) => Some(seconds),
            _ => None,
        }
    }
}

/// The table, by the program `nexus` of this path.
pub fn print(nexus: &Path) {
    let (peers, absent) = PEERS
        .iter()
        .partition::<Vec<_>, _>(|peer| installed(peer.program));
    print!(
        "{:36} {:>9} {:>13}",
        "processes and calls", "bytes", "nexus read  "
    );
    for peer in &peers {
        print!(" {:>16}", format!("{}  ", peer.program));
    }
    println!("   {:>9} {:>9} {:>6}", "rove", "call", "ratio");
    let folder = Folder::new("peers");
    let mut ahead = Vec::new();
    for (name, size, text) in SHAPES {
        let text = text(*size);
        if let Ok(record) = nexus::read(&text) {
            line(name, &text, &record, nexus, &peers, &folder, &mut ahead);
        }
    }
    println!(
        "nexus read, and the other programs: milliseconds of a whole process, best of {RUNS} runs by turns, or of \
        those that {ENOUGH} s hold;\n!: it gives another number of taxa or cells than the file has; rove, call: \
        its `parse`, and the read call, milliseconds; ratio: rove / call"
    );
    for peer in absent {
        println!(
            "{} is not installed (package {})",
            peer.program, peer.package
        );
    }
    match ahead.is_empty() {
        true => println!("nexus read is ahead of each of them on every file"),
        false => println!("ahead of nexus read:\n    {}", ahead.join("\n    ")),
    }
}

/// The line of a file; a program that is ahead is named.
fn line(
    name: &str,
    text: &[u8],
    record: &Record,
    nexus: &Path,
    peers: &[&Peer],
    folder: &Folder,
    ahead: &mut Vec<String>,
) {
    begin(name);
    let file = folder.file("text.nex", text);
    let mut own = silent(nexus);
    own.arg("read").arg(&file);
    let first = peers.iter().map(|peer| peer.first(&file, record, folder));
    let mut outcomes: Vec<Outcome> = [Outcome::Read(f64::INFINITY)]
        .into_iter()
        .chain(first)
        .collect();
    let mut commands: Vec<Command> = peers.iter().map(|peer| peer.command(&file)).collect();
    commands.insert(0, own);
    take_turns(&mut commands, &mut outcomes);
    let own = outcomes[0].seconds().unwrap_or(f64::INFINITY);
    print!("{:9} {:>13}", text.len(), outcomes[0].shown());
    for (peer, outcome) in peers.iter().zip(&outcomes[1..]) {
        print!(" {:>16}", outcome.shown());
        if outcome.seconds().is_some_and(|seconds| seconds < own) {
            let mark = match outcome {
                Outcome::Otherwise(_) => " !",
                _ => "",
            };
            ahead.push(format!("{}{mark} on {name}", peer.program));
        }
    }
    let calls = reading::best(name, text);
    println!(
        "   {:9.2} {:9.2} {:6.2}",
        calls.rust * 1e3,
        calls.proved * 1e3,
        calls.rust / calls.proved
    );
}

/// Runs the programs that read the file by turns, and keeps the best time of each.
fn take_turns(commands: &mut [Command], outcomes: &mut [Outcome]) {
    let mut sums = vec![0.0; commands.len()];
    for _ in 0..RUNS {
        for (at, command) in commands.iter_mut().enumerate() {
            let (Outcome::Read(best) | Outcome::Otherwise(best)) = &mut outcomes[at] else {
                continue;
            };
            if sums[at] < ENOUGH {
                let (seconds, ended) = run(command, LIMIT);
                sums[at] += seconds;
                *best = best.min(seconds);
                if ended.is_none() {
                    outcomes[at] = Outcome::Beyond;
                }
            }
        }
    }
}

impl Peer {
    /// It is run in the folder of the file, since the tools of phyx leave a log where they are run.
    fn command(&self, file: &Path) -> Command {
        let mut command = silent(self.program);
        command.args(self.arguments).arg(file);
        command.current_dir(file.parent().expect("a folder"));
        command
    }

    /// A first run, whose output is looked at.
    fn first(&self, file: &Path, record: &Record, folder: &Folder) -> Outcome {
        let (printed, said) = (folder.0.join("printed"), folder.0.join("said"));
        let to = |path| File::create(path).expect("a file");
        let mut command = self.command(file);
        command.stdout(to(&printed)).stderr(to(&said));
        let (seconds, ended) = run(&mut command, LIMIT);
        let text = |path| String::from_utf8_lossy(&fs::read(path).expect("a file")).into_owned();
        match ended {
            None => Outcome::Beyond,
            Some(status) if status.signal().is_some() => Outcome::Crashes,
            Some(status) if refused(status, &text(&said)) => Outcome::Refuses,
            Some(_) if (self.agrees)(&text(&printed), record) => Outcome::Read(seconds),
            Some(_) => Outcome::Otherwise(seconds),
        }
    }
}

/// The tools of phyx say that there is an error, and end as if there were none.
fn refused(status: ExitStatus, said: &str) -> bool {
    !status.success() || said.starts_with("Error")
}
