//! The judging of many files by all cores.

use std::sync::atomic::{AtomicUsize, Ordering};
use std::sync::mpsc::{self, SyncSender};
use std::thread;

use nexus::{Refusal, TEXT_LIMIT, read_into, work_needed};

use super::Job;
use super::voice::Voice;
use crate::session::{Outcome, Stop};

/// So many files may wait to be taken; then the workers wait.
const MOST_WAITING: usize = 1_000;

/// What was found of a file, and what is to be said of it.
pub struct Found {
    /// What was found.
    pub outcome: Outcome,
    /// What is to be said; empty where that is nothing.
    pub said: String,
}

/// Judges all of them, and takes what is found, as it comes, with the number of its job. It ends
/// early where that is stopped.
pub fn judge(
    jobs: &[Job],
    voice: &Voice,
    mut take: impl FnMut(usize, Found) -> Result<(), Stop>,
) -> Result<(), Stop> {
    let cores = thread::available_parallelism().map_or(1, |cores| cores.get());
    let next = AtomicUsize::new(0);
    thread::scope(|scope| {
        let (sender, receiver) = mpsc::sync_channel(MOST_WAITING);
        for _ in 0..cores.min(jobs.len()) {
            let sender = sender.clone();
            scope.spawn(|| work(jobs, &next, voice, sender));
        }
        drop(sender);
        // Where this returns, the receiver is gone, and the workers end with their next file.
        receiver
            .into_iter()
            .try_for_each(|(place, found)| take(place, found))
    })
}

/// Takes one job after another, until there are no more.
fn work(jobs: &[Job], next: &AtomicUsize, voice: &Voice, sender: SyncSender<(usize, Found)>) {
    let mut lent = Lent::default();
    loop {
        let place = next.fetch_add(1, Ordering::Relaxed);
        let Some(job) = jobs.get(place) else {
            return;
        };
        if sender.send((place, lent.found(job, voice))).is_err() {
            return;
        }
    }
}

/// Memory that is lent for one file after another. It is as long as the longest of them needs: at
/// most a mebibyte for the text and sixteen for work.
#[derive(Default)]
struct Lent {
    text: Vec<u8>,
    work: Vec<u32>,
}

impl Lent {
    fn found(&mut self, job: &Job, voice: &Voice) -> Found {
        let fault = match &job.fault {
            Some(fault) => Some(fault.clone()),
            None => {
                let loaded = job.source.load_text(&mut self.text);
                loaded.err().map(|error| crate::files::said(&error))
            }
        };
        if let Some(fault) = fault {
            return Found {
                outcome: Outcome::Unreadable,
                said: voice.unreadable(&job.source, &fault),
            };
        }
        match self.refusal() {
            None => Found {
                outcome: Outcome::Read,
                said: voice.read(&job.source),
            },
            Some(refusal) => Found {
                outcome: Outcome::Refused(refusal.number),
                said: voice.refused(&job.source, &self.text, refusal),
            },
        }
    }

    /// Why the text is refused. No buffer is lent for its record: that this is too short is the
    /// last refusal of all, and so says that the text is read.
    fn refusal(&mut self) -> Option<Refusal> {
        let needed = match self.text.len() {
            0..=TEXT_LIMIT => work_needed(&self.text),
            _ => 0,
        };
        if self.work.len() < needed {
            self.work.resize(needed, 0);
        }
        match read_into(&self.text, &mut self.work, &mut []) {
            Err(refusal) if refusal.number != Refusal::NO_ROOM => Some(refusal),
            _ => None,
        }
    }
}
