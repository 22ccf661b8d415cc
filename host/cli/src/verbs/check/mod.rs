//! `nexus check`: which files are read, and which are refused.

mod summary;
mod voice;
mod workers;

use std::collections::BTreeMap;
use std::io;
use std::path::Path;

use super::{FORMAT, Flag, Verb};
use crate::args::Asked;
use crate::files::{self, Source};
use crate::progress::Progress;
use crate::session::{Session, Stop};
use summary::Summary;
use voice::Voice;

/// The verb.
pub static VERB: Verb = Verb {
    name: "check",
    operands: "FILE..",
    about: "say which files are refused, and why",
    more: "\
FILE is a file or a folder. Every file is judged; nothing is written. Each refusal is shown, in the
order of the files, and then a summary with the number of files by refusal. All cores work at it.

Of a folder, and of the folders in it, the files with the endings .nex, .nexus and .nxs are taken,
in the order of their names; links to folders are not followed. A folder that has none is said to be
empty and counts as one that cannot be read.

The exit status is 1 where any file is refused, and else 2 where any cannot be read. On a terminal a
bar shows how far the work is.

With --format json there is an object on a line for each file: `file` and `status` (read, refused or
unreadable), with `number`, `line`, `column` and `message` for what is refused; and at last one with
`summary`.",
    flags: &[
        Flag {
            name: "--all",
            value: None,
            about: "take every file of a folder, whatever its ending",
        },
        Flag {
            name: "--quiet",
            value: None,
            about: "print the summary, and show no refusal",
        },
        FORMAT,
    ],
    example: "\
$ nexus check --quiet incoming/
10 files: 9 read, 1 refused
     1  [22] cell symbol",
    needs_archive: true,
    run,
};

fn run(asked: &Asked, session: &mut Session) -> Result<(), Stop> {
    let voice = Voice {
        format: session.format,
        quiet: asked.has("--quiet"),
        terminal: session.messages,
    };
    let sources = files::sources(asked.some(&VERB)?, VERB.name)?;
    let jobs = jobs(sources, asked.has("--all"));
    let mut progress = Progress::new(&session.messages, jobs.len());
    let mut summary = Summary::default();
    // What was found before its turn to be said.
    let mut waiting = BTreeMap::new();
    let mut next = 0;
    progress.draw(0, 0);
    workers::judge(&jobs, &voice, |place, found| {
        waiting.insert(place, found);
        while let Some(found) = waiting.remove(&next) {
            next += 1;
            summary.count(&found);
            session.note(&found.outcome);
            if !found.said.is_empty() {
                progress.clear();
                voice.say(&found.said, session)?;
            }
        }
        progress.draw(next, summary.refused());
        Ok(())
    })?;
    progress.clear();
    session.result(summary.said(voice.format).as_bytes())
}

/// What is judged, or why it cannot be.
struct Job {
    source: Source,
    fault: Option<String>,
}

/// The files of all sources, those of folders in their order.
fn jobs(sources: Vec<Source>, all: bool) -> Vec<Job> {
    let mut jobs = Vec::new();
    for source in sources {
        match &source {
            Source::File(path) if path.is_dir() => folder(path, all, &mut jobs),
            _ => jobs.push(Job {
                source,
                fault: None,
            }),
        }
    }
    jobs
}

fn folder(path: &Path, all: bool, jobs: &mut Vec<Job>) {
    let mut walked = Vec::new();
    files::in_folder(path, all, &mut walked);
    if walked.is_empty() {
        let fault = match all {
            true => "the folder has no files",
            false => "the folder has no files that end in .nex, .nexus or .nxs",
        };
        walked.push(Err((path.to_path_buf(), io::Error::other(fault))));
    }
    jobs.extend(walked.into_iter().map(|walked| match walked {
        Ok(file) => Job {
            source: Source::File(file),
            fault: None,
        },
        Err((folder, error)) => Job {
            source: Source::File(folder),
            fault: Some(files::said(&error)),
        },
    }));
}
