//! The condition `archive` says that the crate nexus has linked the archive of the calls;
//! `program_nexus` and `program_cases` say that these programs stand in target/bin of the
//! repository. With NEXUS_BUILT=required a program that does not is an error.

use std::path::Path;

fn main() {
    println!("cargo::rerun-if-changed=build.rs");
    println!("cargo::rerun-if-env-changed=NEXUS_BUILT");
    condition("archive", std::env::var_os("DEP_NEXUS_C_ARCHIVE").is_some());
    let required = std::env::var("NEXUS_BUILT").is_ok_and(|value| value == "required");
    let folder = Path::new(env!("CARGO_MANIFEST_DIR")).join("../../target/bin");
    for name in ["nexus", "cases"] {
        let program = folder.join(name);
        println!("cargo::rerun-if-changed={}", program.display());
        condition(&format!("program_{name}"), program.is_file());
        if required && !program.is_file() {
            println!(
                "cargo::error=target/bin/{name} is not there; `tools/build {name}` in the \
                repository writes it"
            );
        }
    }
}

fn condition(name: &str, holds: bool) {
    println!("cargo::rustc-check-cfg=cfg({name})");
    if holds {
        println!("cargo::rustc-cfg={name}");
    }
}
