//! Links the archive of the proved calls, target/staticlib/libnexus_c.a of the repository, where
//! it is there: the condition `archive` then holds, and crates above get `DEP_NEXUS_C_ARCHIVE`.
//! Where it is not, everything is built all the same, and a warning says what is missing and how to
//! make it. With NEXUS_BUILT=required that is an error, so that a gate ignores no test; with
//! NEXUS_BUILT=make this script makes the archive first.

use std::env;
use std::path::Path;
use std::process::{Command, Stdio};

const ARCHIVE: &str = "target/staticlib/libnexus_c.a";

fn main() {
    let repository = Path::new(env!("CARGO_MANIFEST_DIR")).join("../..");
    let archive = repository.join(ARCHIVE);
    println!("cargo::rustc-check-cfg=cfg(archive)");
    println!("cargo::rerun-if-changed={}", archive.display());
    println!("cargo::rerun-if-env-changed=NEXUS_BUILT");
    let wish = env::var("NEXUS_BUILT").unwrap_or_default();
    let made = match wish.as_str() {
        "make" if !archive.is_file() => make(&repository),
        _ => Ok(()),
    };
    let foreign = other_machine();
    let missing = foreign.clone().unwrap_or_else(not_there);
    println!("cargo::rustc-env=NEXUS_MISSING={missing}");
    if made.is_ok() && foreign.is_none() && archive.is_file() {
        link(&archive);
        return;
    }
    // Nothing has this name, so this is run again each time, until the archive is there. It may then
    // be older than this run.
    println!("cargo::rerun-if-changed=no-such-file");
    if let Err(fault) = made {
        println!("cargo::error={fault}");
    } else if wish == "required" || wish == "make" {
        println!("cargo::error={missing}");
    } else {
        println!(
            "cargo::warning={missing}. So no call can be made, and the tests of calls are ignored"
        );
    }
}

fn link(archive: &Path) {
    let folder = archive.parent().unwrap_or(archive);
    println!("cargo::rustc-cfg=archive");
    println!("cargo::rustc-link-search=native={}", folder.display());
    println!("cargo::rustc-link-lib=static=nexus_c");
    println!("cargo::metadata=ARCHIVE=1");
}

/// What to say where the archive is not there.
fn not_there() -> String {
    format!(
        "the archive of the proved calls, {ARCHIVE}, is not there. `tools/build nexus_c`, run in \
        the top folder of the repository, writes it; the first time this takes some ten minutes, \
        since everything is proved before it is built. It needs `rt`, the command of the Rattle kit"
    )
}

/// What to say where the archive, which is for one kind of machine, cannot be linked.
fn other_machine() -> Option<String> {
    let variable = |name| env::var(name).unwrap_or_default();
    let (processor, system) = (
        variable("CARGO_CFG_TARGET_ARCH"),
        variable("CARGO_CFG_TARGET_OS"),
    );
    let own = processor == "x86_64" && system == "linux";
    (!own).then(|| {
        format!(
            "the archive of the proved calls, {ARCHIVE}, is for x86_64 and linux, and cannot be \
            linked into a program for {processor} and {system}"
        )
    })
}

/// Has the archive proved and written, or says why it is not. cargo shows nothing of it meanwhile.
fn make(repository: &Path) -> Result<(), String> {
    let mut command = Command::new(repository.join("tools/build"));
    command.arg("nexus_c");
    command.current_dir(repository).stdin(Stdio::null());
    match command.output() {
        Ok(output) if output.status.success() => Ok(()),
        Ok(output) => {
            let printed = [output.stdout, output.stderr].concat();
            let said = String::from_utf8_lossy(&printed);
            let last = said.lines().last().unwrap_or_default();
            let status = output.status;
            Err(format!("`tools/build nexus_c` ended with {status}: {last}"))
        }
        Err(error) => Err(format!("`tools/build` cannot be run: {error}")),
    }
}
