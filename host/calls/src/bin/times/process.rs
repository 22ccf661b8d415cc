//! Programs that are run to their end, for a limited time.

use std::process::{Child, Command, ExitStatus, Stdio};
use std::thread::sleep;
use std::time::{Duration, Instant};

/// Runs a program whose output goes nowhere, unless it was said where: the seconds that it took, and
/// how it ended; no end where it took longer than the limit, in seconds, and was stopped.
pub fn run(command: &mut Command, limit: f64) -> (f64, Option<ExitStatus>) {
    let start = Instant::now();
    let mut child = command.spawn().expect("the program starts");
    loop {
        let ended = child.try_wait().expect("the program is waited for");
        let passed = start.elapsed();
        if ended.is_some() {
            return (passed.as_secs_f64(), ended);
        }
        if passed.as_secs_f64() > limit {
            stop(child);
            return (limit, None);
        }
        sleep(pause(passed));
    }
}

/// A hundredth of the time so far, so that an end is seen soon enough.
fn pause(passed: Duration) -> Duration {
    passed / 100
}

fn stop(mut child: Child) {
    let _ = child.kill();
    let _ = child.wait();
}

/// A program without input and output.
pub fn silent(program: impl AsRef<std::ffi::OsStr>) -> Command {
    let mut command = Command::new(program);
    command.stdin(Stdio::null());
    command.stdout(Stdio::null()).stderr(Stdio::null());
    command
}

/// Is a program of this name there to be run?
pub fn installed(program: &str) -> bool {
    let folders = std::env::var_os("PATH").unwrap_or_default();
    std::env::split_paths(&folders).any(|folder| folder.join(program).is_file())
}
