//! Holds the calls against the oracle on many texts, records and lookups. See `USAGE`.

use std::io::{self, IsTerminal, Write};
use std::process::ExitCode;
use std::sync::atomic::{AtomicBool, AtomicU64, Ordering::Relaxed};
use std::sync::mpsc::{Receiver, Sender, channel};
use std::thread;
use std::time::Instant;

use calls::question::{KINDS, Kind};
use calls::{Checker, Difference, Met, Question, explained, under_valgrind};
use nexus::archive::{LINKED, NOT_LINKED};

const USAGE: &str = "\
usage: compare --generate N [--seed S] [--only texts|records|lookups]
Gives N generated texts to some twenty calls each, N records to some fifteen and N lookups to three,
with memory of different lengths and contents; or the N of one kind alone. What is read is written,
and what is written read again. Where an answer or a byte is not the oracle's, a smallest example is
printed, and the exit status is 1. The seed is 1 if none is given.
";

/// How many numbers a thread takes at a time.
const BLOCK: u64 = 100;

fn main() -> ExitCode {
    let words: Vec<String> = std::env::args().skip(1).collect();
    let Some(options) = options(&words) else {
        eprint!("{USAGE}");
        return ExitCode::from(2);
    };
    if !LINKED {
        eprintln!("compare: {NOT_LINKED}");
        return ExitCode::from(2);
    }
    match run(&options) {
        None => ExitCode::SUCCESS,
        Some(found) => {
            let (kind, number, seed) = (found.kind, found.number, options.seed);
            println!("{} {number} of seed {seed} differs:", word(kind));
            println!("{}", explained(&found.question, &found.difference));
            ExitCode::FAILURE
        }
    }
}

fn word(kind: Kind) -> &'static str {
    match kind {
        Kind::Text => "text",
        Kind::Record => "record",
        Kind::Lookup => "lookup",
    }
}

struct Options {
    numbers: u64,
    seed: u64,
    kinds: Vec<Kind>,
    threads: usize,
}

fn options(words: &[String]) -> Option<Options> {
    let threads = match under_valgrind() {
        true => 1,
        false => thread::available_parallelism().map_or(1, usize::from),
    };
    let mut options = Options {
        numbers: 0,
        seed: 1,
        kinds: KINDS.to_vec(),
        threads,
    };
    let mut words = words.chunks(2);
    let number = |text: &String| text.parse::<u64>().ok();
    words.try_for_each(|pair| {
        match pair {
            [option, value] if option == "--generate" => options.numbers = number(value)?,
            [option, value] if option == "--seed" => options.seed = number(value)?,
            [option, value] if option == "--only" => {
                options
                    .kinds
                    .retain(|kind| format!("{}s", word(*kind)) == *value);
            }
            _ => return None,
        }
        Some(())
    })?;
    (options.numbers > 0 && !options.kinds.is_empty()).then_some(options)
}

/// A question that differs.
struct Found {
    kind: Kind,
    number: u64,
    question: Question,
    difference: Difference,
}

/// What was met so far of each kind.
#[derive(Clone, Copy, Default)]
struct Count {
    taken: u64,
    refused: u64,
    beyond: u64,
}

#[derive(Default)]
struct Tally {
    numbers: u64,
    counts: [Count; KINDS.len()],
    calls: u64,
}

impl Tally {
    fn add(&mut self, other: &Self) {
        self.numbers += other.numbers;
        self.calls += other.calls;
        for (count, other) in self.counts.iter_mut().zip(&other.counts) {
            count.taken += other.taken;
            count.refused += other.refused;
            count.beyond += other.beyond;
        }
    }
}

/// Checks all questions, or up to one that differs; of several that are found at once, the first.
fn run(options: &Options) -> Option<Box<Found>> {
    let (next, stop) = (AtomicU64::new(0), AtomicBool::new(false));
    thread::scope(|scope| {
        let (sender, receiver) = channel();
        for _ in 0..options.threads {
            let sender = sender.clone();
            scope.spawn(|| work(options, &next, &stop, sender));
        }
        drop(sender);
        follow(options, receiver)
    })
}

/// One thread: takes a block of numbers after another, until there are none or a question differs.
fn work(
    options: &Options,
    next: &AtomicU64,
    stop: &AtomicBool,
    sender: Sender<Result<Tally, Box<Found>>>,
) {
    let mut checker = Checker::default();
    while !stop.load(Relaxed) {
        let from = next.fetch_add(BLOCK, Relaxed);
        if from >= options.numbers {
            return;
        }
        let numbers = from..options.numbers.min(from + BLOCK);
        let tally = block(&mut checker, options, numbers);
        stop.fetch_or(tally.is_err(), Relaxed);
        sender.send(tally).expect("the main thread listens");
    }
}

fn block(
    checker: &mut Checker,
    options: &Options,
    numbers: std::ops::Range<u64>,
) -> Result<Tally, Box<Found>> {
    let mut tally = Tally::default();
    let before = checker.calls;
    for number in numbers {
        for &kind in &options.kinds {
            let question = Question::generated(kind, options.seed, number);
            let count = &mut tally.counts[kind as usize];
            match question.check(checker) {
                Ok(Met::Taken) => count.taken += 1,
                Ok(Met::Refused(_)) => count.refused += 1,
                Ok(Met::Beyond) => count.beyond += 1,
                Err(difference) => {
                    return Err(Box::new(Found {
                        kind,
                        number,
                        question,
                        difference,
                    }));
                }
            }
        }
        tally.numbers += 1;
    }
    tally.calls = checker.calls - before;
    Ok(tally)
}

/// Adds up what the threads have met, and shows how far they are.
fn follow(options: &Options, receiver: Receiver<Result<Tally, Box<Found>>>) -> Option<Box<Found>> {
    let mut progress = Progress::new(options.numbers);
    let mut tally = Tally::default();
    let mut found: Option<Box<Found>> = None;
    for met in receiver {
        match met {
            Ok(met) => tally.add(&met),
            Err(new) => {
                let earlier = found.take().filter(|found| found.number < new.number);
                found = earlier.or(Some(new));
            }
        }
        progress.show(tally.numbers);
    }
    progress.end();
    if found.is_none() {
        print(options, &tally);
    }
    found
}

fn print(options: &Options, tally: &Tally) {
    for &kind in &options.kinds {
        let count = tally.counts[kind as usize];
        let taken = match kind {
            Kind::Text => "read",
            Kind::Record => "written",
            Kind::Lookup => "found",
        };
        let beyond = match kind {
            Kind::Text => format!(", {} skipped as beyond the oracle", count.beyond),
            _ => String::new(),
        };
        println!(
            "{} {}s of seed {}: {} {taken}, {} refused{beyond}",
            tally.numbers,
            word(kind),
            options.seed,
            count.taken,
            count.refused,
        );
    }
    let under = if under_valgrind() {
        " under valgrind"
    } else {
        ""
    };
    println!("{} calls{under}, none differs", tally.calls);
}

/// How far a run is: a bar on a terminal, and elsewhere a line for each tenth.
struct Progress {
    all: u64,
    start: Instant,
    terminal: bool,
    /// The last hundredth, or tenth, that was shown.
    shown: u64,
}

impl Progress {
    fn new(all: u64) -> Self {
        Self {
            all,
            start: Instant::now(),
            terminal: io::stdout().is_terminal(),
            shown: 0,
        }
    }

    fn show(&mut self, done: u64) {
        let parts = if self.terminal { 100 } else { 10 };
        let part = done * parts / self.all;
        if part == self.shown {
            return;
        }
        self.shown = part;
        let seconds = self.start.elapsed().as_secs_f64();
        let all = self.all;
        let speed = done as f64 / seconds;
        let line = format!("{done} of {all}, {seconds:.0} s, {speed:.0} a second");
        if self.terminal {
            let bar = "#".repeat(part as usize / 4);
            print!("\r[{bar:25}] {line} ");
            let _ = io::stdout().flush();
        } else {
            println!("{line}");
        }
    }

    fn end(&self) {
        if self.terminal && self.shown > 0 {
            println!();
        }
    }
}
